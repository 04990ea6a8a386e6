//! Who has a file locked, as the kernel lists it in /proc/locks.

use std::fs::{self, Metadata};
use std::os::unix::fs::MetadataExt;

/// ": process 812 (flexbox)", or nothing where it can't be known: another machine's, or one in another container.
pub fn holders(file: &Metadata) -> String {
    let list = fs::read_to_string("/proc/locks").unwrap_or_default();
    let words: Vec<String> = processes(&list, file.dev(), file.ino()).into_iter().map(process).collect();
    match words.is_empty() {
        true => String::new(),
        false => format!(": {}", words.join(", ")),
    }
}

/// A process that has gone may still be listed: whoever it left the open file to has the lock.
fn process(id: u32) -> String {
    match fs::read_to_string(format!("/proc/{}/comm", id)) {
        Ok(name) => format!("process {} ({})", id, name.trim_end()),
        Err(_) => format!("process {}, or one that it has started", id),
    }
}

/// The processes with flock's lock on this file. A line is "1: FLOCK ADVISORY WRITE 812 fe:00:11060053 0 EOF"; one of a process
/// that waits has "->" behind its number.
fn processes(list: &str, device: u64, inode: u64) -> Vec<u32> {
    let file = format!("{:02x}:{:02x}:{}", major(device), minor(device), inode);
    let of_line = |line: &str| {
        let words: Vec<&str> = line.split_whitespace().collect();
        match words.as_slice() {
            [_, "FLOCK", _, _, id, place, ..] if *place == file => id.parse().ok().filter(|&id| id > 0),
            _ => None,
        }
    };
    list.lines().filter_map(of_line).collect()
}

/// As Linux has both numbers in one.
fn major(device: u64) -> u64 {
    (device >> 8 & 0xfff) | (device >> 32 & !0xfff)
}

fn minor(device: u64) -> u64 {
    (device & 0xff) | (device >> 12 & 0xffff_ff00)
}

#[cfg(test)]
mod tests {
    use super::*;

    #[test]
    fn the_holders_are_found_and_no_others() {
        let list = "1: FLOCK  ADVISORY  WRITE 812 fe:00:53 0 EOF\n\
                    1: -> FLOCK  ADVISORY  WRITE 813 fe:00:53 0 EOF\n\
                    2: FLOCK  ADVISORY  READ 814 fe:00:54 0 EOF\n\
                    3: POSIX  ADVISORY  WRITE 815 fe:00:53 0 EOF\n\
                    4: FLOCK  ADVISORY  READ 816 fe:00:53 0 EOF\n\
                    5: FLOCK  ADVISORY  READ 0 fe:00:53 0 EOF\n\
                    6: FLOCK  ADVISORY  READ 817 08:12:53 0 EOF\n";
        assert_eq!(processes(list, 0xfe00, 53), [812, 816]);
        assert_eq!(processes(list, 0x812, 53), [817]);
        assert_eq!(processes("", 0xfe00, 53), [0; 0]);
        // makedev(0x12345, 0x6789a) of the C library: each number's low bits come first.
        let device = 0x345 << 8 | 0x12000 << 32 | 0x9a | 0x67800 << 12;
        assert_eq!((major(device), minor(device)), (0x12345, 0x6789a));
    }
}
