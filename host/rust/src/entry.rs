//! The seven entries on numbers and slices, with the archive's own answers. The only unsafe code of this crate is here.
//!
//! Each call is safe for every input: the archive is proved to stay inside the slices that it is lent and to end, whatever
//! they hold and however long they are, and two `&mut` slices can't overlap, which is all that a host owes it.

extern "C" {
    fn flex_preset(table: *mut u8, table_len: usize, fcb: usize, offset: usize, value: u8) -> u32;
    fn flex_extension(table: *mut u8, table_len: usize, fcb: usize, code: usize) -> u32;
    fn flex_call(image: *mut u8, image_len: usize, table: *mut u8, table_len: usize, fcb: usize, byte: u8) -> u32;
    fn flex_census(
        image: *const u8,
        image_len: usize,
        sectors: *mut u8,
        sectors_len: usize,
        owners: *mut u8,
        owners_len: usize,
    ) -> u32;
    fn flex_error_text(text: *mut u8, text_len: usize, number: u8) -> u32;
    fn flex_format(
        image: *mut u8,
        image_len: usize,
        last_track: usize,
        per_track: usize,
        label: *const u8,
        label_len: usize,
        volume: u16,
        month: u8,
        day: u8,
        year: u8,
    ) -> u32;
    fn flex_repair(image: *mut u8, image_len: usize, table: *const u8, table_len: usize) -> u32;
}

/// The answer: 0, 13 or 18.
pub fn preset(table: &mut [u8], fcb: usize, offset: usize, value: u8) -> u32 {
    // # Safety
    // A slice's pointer is never null and leads to as many bytes as the slice is long; `table` is borrowed for the call
    // alone, so nobody else writes to it meanwhile. Every `fcb`, `offset` and `value` is allowed.
    unsafe { flex_preset(table.as_mut_ptr(), table.len(), fcb, offset, value) }
}

/// The answer: 0 or 13.
pub fn extension(table: &mut [u8], fcb: usize, code: usize) -> u32 {
    // # Safety
    // As in `preset`: pointer and length are of one slice, borrowed for the call alone. Every `fcb` and `code` is allowed.
    unsafe { flex_extension(table.as_mut_ptr(), table.len(), fcb, code) }
}

/// 256 times the answer plus the byte.
pub fn call(image: &mut [u8], table: &mut [u8], fcb: usize, byte: u8) -> u32 {
    // # Safety
    // Each pointer and the length beside it are of one slice. Both are borrowed mutably for the call alone, so they do not
    // overlap and nobody else touches them. Every content, `fcb` and `byte` is allowed.
    unsafe { flex_call(image.as_mut_ptr(), image.len(), table.as_mut_ptr(), table.len(), fcb, byte) }
}

/// The answer: 0 or 40 to 46.
pub fn census(image: &[u8], sectors: &mut [u8], owners: &mut [u8]) -> u32 {
    // # Safety
    // Each pointer and the length beside it are of one slice. The outputs are borrowed mutably, so neither overlaps the
    // other or the image, which the archive only reads (its pointer is const). Every content and length is allowed.
    unsafe {
        flex_census(image.as_ptr(), image.len(), sectors.as_mut_ptr(), sectors.len(), owners.as_mut_ptr(), owners.len())
    }
}

/// The answer: 0 or 40.
pub fn error_text(text: &mut [u8], number: u8) -> u32 {
    // # Safety
    // Pointer and length are of one slice, borrowed for the call alone. Every length and `number` is allowed.
    unsafe { flex_error_text(text.as_mut_ptr(), text.len(), number) }
}

/// The answer: 0, 40 or 41. The date is month, day, year.
pub fn format(
    image: &mut [u8],
    last_track: usize,
    per_track: usize,
    label: &[u8],
    volume: u16,
    [month, day, year]: [u8; 3],
) -> u32 {
    // # Safety
    // Each pointer and the length beside it are of one slice. The image is borrowed mutably for the call alone, so it does
    // not overlap the label, which the archive only reads (its pointer is const). Every length, content and number is allowed.
    unsafe {
        flex_format(
            image.as_mut_ptr(),
            image.len(),
            last_track,
            per_track,
            label.as_ptr(),
            label.len(),
            volume,
            month,
            day,
            year,
        )
    }
}

/// The answer: 0, 2, 13, 41, 42 or 43.
pub fn repair(image: &mut [u8], table: &[u8]) -> u32 {
    // # Safety
    // Each pointer and the length beside it are of one slice. The image is borrowed mutably for the call alone, so it does not
    // overlap the table, which the archive only reads (its pointer is const). Every length and content is allowed.
    unsafe { flex_repair(image.as_mut_ptr(), image.len(), table.as_ptr(), table.len()) }
}
