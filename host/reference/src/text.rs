//! The error text.

/// `"DISK ERROR #" and three digits in the first 15 bytes; the rest stays; under 15 gives 40, no change.`
pub fn error_text(text: &mut [u8], number: u8) -> u32 {
    if text.len() < 15 {
        return 40;
    }
    let line = format!("DISK ERROR #{:03}", number);
    text[..15].copy_from_slice(line.as_bytes());
    0
}
