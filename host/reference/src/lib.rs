//! The seven entries of the diskette service, written plainly from documents 01 and 02 and from nothing else.
//!
//! Nothing here is proved, and no host program uses it: it is what the proved archive is compared with,
//! call by call and byte by byte, and the straightforward program that its speed is measured against.
//! Each function stands under the sentences of 01 and 02 that it follows.

#![forbid(unsafe_code)]

mod block;
mod call;
mod census;
mod directory;
mod format;
mod repair;
mod shape;
mod text;

pub use block::{extension, preset};
pub use call::call;
pub use census::census;
pub use format::format;
pub use repair::{repair, repair_stores};
pub use text::error_text;

/// The table of control blocks: eight of 320 bytes.
pub const TABLE: usize = 8 * BLOCK;
/// One control block.
pub const BLOCK: usize = 320;

/// Where block `fcb` begins, if the table has its one right length and there is such a block.
fn block_at(table: &[u8], fcb: usize) -> Option<usize> {
    if table.len() == TABLE && fcb <= 7 {
        Some(fcb * BLOCK)
    } else {
        None
    }
}
