//! Preset and default extension: the two entries that touch a control block alone.

use crate::block_at;

const EXTENSIONS: [&[u8; 3]; 12] =
    [b"BIN", b"TXT", b"CMD", b"BAS", b"SYS", b"BAK", b"SCR", b"DAT", b"BAC", b"DIR", b"PRT", b"OUT"];

/// Activity 0, closed, or 16, directory: no file is open.
fn is_idle(table: &[u8], f: usize) -> bool {
    table[f + 2] == 0 || table[f + 2] == 16
}

/// "Preset writes one byte: offset 0 always; 3-14, 25-27, 30-31, 53-63 if activity is 0 or 16. Otherwise 18, nothing
/// changed." 02, ticket 12: "preset taking 15-24 and 64-319 too if activity is 0 or 16".
pub fn preset(table: &mut [u8], fcb: usize, offset: usize, value: u8) -> u32 {
    let f = match block_at(table, fcb) {
        Some(f) => f,
        None => return 13,
    };
    let allowed = match offset {
        0 => true,
        3..=14 | 25..=27 | 30..=31 | 53..=63 => is_idle(table, f),
        15..=24 | 64..=319 => is_idle(table, f),
        _ => false,
    };
    if !allowed {
        return 18;
    }
    table[f + offset] = value;
    0
}

/// "if activity is 0 or 16, byte 12 is 0 and the code is 0..11, bytes 12-14 take the code's entry [..]; otherwise nothing
/// changes." The answer is 0 either way.
pub fn extension(table: &mut [u8], fcb: usize, code: usize) -> u32 {
    let f = match block_at(table, fcb) {
        Some(f) => f,
        None => return 13,
    };
    if is_idle(table, f) && table[f + 12] == 0 && code <= 11 {
        table[f + 12..f + 15].copy_from_slice(EXTENSIONS[code]);
    }
    0
}
