//! What flexbox needs of the C library and std of Rust 1.63, Debian 12's, does not have: an advisory lock on a file, its owner set, a
//! rename that replaces nothing, whether a file is a terminal, the local time, and whether standard output was closed from the start. All
//! unsafe code of the host that is not a call of libflex.a is here. docs/DECISIONS.md says why it is declared here and not taken from a crate.

use std::ffi::CString;
use std::fs::File;
use std::io;
use std::os::raw::{c_char, c_int, c_long, c_uint};
use std::os::unix::ffi::OsStrExt;
use std::os::unix::io::AsRawFd;
use std::path::Path;
use std::ptr;
use std::sync::atomic::{AtomicBool, Ordering};

/// For `OpenOptionsExt::custom_flags`: opening a FIFO does not wait for its other end. The number is Linux's.
pub const OPEN_WITHOUT_WAITING: i32 = 0o4000;

/// `struct tm` of glibc.
#[repr(C)]
struct BrokenDownTime {
    second: c_int,
    minute: c_int,
    hour: c_int,
    day_of_month: c_int,
    month_from_0: c_int,
    years_from_1900: c_int,
    day_of_week: c_int,
    day_of_year: c_int,
    is_summer_time: c_int,
    seconds_east: c_long,
    zone: *const c_char,
}

extern "C" {
    fn flock(file: c_int, operation: c_int) -> c_int;
    fn fchown(file: c_int, owner: c_uint, group: c_uint) -> c_int;
    fn renameat2(from_folder: c_int, from: *const c_char, to_folder: c_int, to: *const c_char, flags: c_uint) -> c_int;
    fn isatty(file: c_int) -> c_int;
    fn fcntl(file: c_int, command: c_int, ...) -> c_int;
    fn time(stored: *mut i64) -> i64;
    fn localtime_r(seconds: *const i64, into: *mut BrokenDownTime) -> *mut BrokenDownTime;
}

/// Who else may have the lock at the same time.
#[derive(Clone, Copy, Debug, PartialEq, Eq)]
pub enum Lock {
    /// Others that ask for it shared: they only read.
    Shared,
    Exclusive,
}

/// Tries to get flock's advisory lock on an open file, without waiting. False: another has it. It is held until the file is
/// closed.
pub fn try_lock(file: &File, lock: Lock) -> io::Result<bool> {
    const WITHOUT_WAITING: c_int = 4;
    let operation = match lock {
        Lock::Shared => 1,
        Lock::Exclusive => 2,
    };
    // # Safety
    // flock takes two numbers and touches no memory of this process. The descriptor is open as long as `file` lives.
    let answer = unsafe { flock(file.as_raw_fd(), operation | WITHOUT_WAITING) };
    match answered(answer) {
        Ok(()) => Ok(true),
        Err(error) if error.kind() == io::ErrorKind::WouldBlock => Ok(false),
        Err(error) => Err(error),
    }
}

/// Gives an open file this owner and group.
pub fn set_owner(file: &File, owner: u32, group: u32) -> io::Result<()> {
    // # Safety
    // fchown takes three numbers and touches no memory of this process. The descriptor is open as long as `file` lives.
    answered(unsafe { fchown(file.as_raw_fd(), owner, group) })
}

/// Gives a file a name that must be free: whatever has it, a link that leads nowhere too, is not replaced. The error is
/// `InvalidInput` where the file system has no such rename, `Unsupported` where the kernel has none.
pub fn rename_new(from: &Path, to: &Path) -> io::Result<()> {
    const WHERE_THE_PATH_SAYS: c_int = -100;
    const REPLACES_NOTHING: c_uint = 1;
    let (from, to) = (CString::new(from.as_os_str().as_bytes())?, CString::new(to.as_os_str().as_bytes())?);
    // # Safety
    // Both pointers are of texts that end with a zero and live through the call. renameat2 reads them and touches no other
    // memory of this process.
    answered(unsafe {
        renameat2(WHERE_THE_PATH_SAYS, from.as_ptr(), WHERE_THE_PATH_SAYS, to.as_ptr(), REPLACES_NOTHING)
    })
}

/// Whether somebody sits at the other end of an open file.
pub fn is_terminal(file: &impl AsRawFd) -> bool {
    // # Safety
    // isatty takes a number and touches no memory of this process. The descriptor is open as long as `file` lives.
    unsafe { isatty(file.as_raw_fd()) == 1 }
}

static OUTPUT_WAS_CLOSED: AtomicBool = AtomicBool::new(false);

/// The C library calls what stands in this section before `main`, and so before std opens /dev/null for a standard output that is closed.
#[used]
#[link_section = ".init_array"]
static BEFORE_MAIN: extern "C" fn() = look_at_output;

extern "C" fn look_at_output() {
    const STANDARD_OUTPUT: c_int = 1;
    const GET_DESCRIPTOR_FLAGS: c_int = 1;
    // # Safety
    // fcntl takes two numbers here and touches no memory of this process. It fails where no file is open under that number.
    let answer = unsafe { fcntl(STANDARD_OUTPUT, GET_DESCRIPTOR_FLAGS) };
    OUTPUT_WAS_CLOSED.store(answer == -1, Ordering::Relaxed);
}

/// Whether standard output was closed when the program began. What is printed is lost then, and std says nothing of it.
pub fn output_was_closed() -> bool {
    OUTPUT_WAS_CLOSED.load(Ordering::Relaxed)
}

/// A moment where the machine stands.
#[derive(Clone, Copy, Debug, PartialEq, Eq)]
pub struct LocalTime {
    pub year: i32,
    pub month: u8,
    pub day: u8,
    pub hour: u8,
    pub minute: u8,
}

/// Now, by the variable TZ or the machine's time zone.
pub fn local_time() -> io::Result<LocalTime> {
    // # Safety
    // A null pointer is allowed: then the time is only given back.
    let now = unsafe { time(ptr::null_mut()) };
    let mut local = BrokenDownTime {
        second: 0,
        minute: 0,
        hour: 0,
        day_of_month: 0,
        month_from_0: 0,
        years_from_1900: 0,
        day_of_week: 0,
        day_of_year: 0,
        is_summer_time: 0,
        seconds_east: 0,
        zone: ptr::null(),
    };
    // # Safety
    // Both pointers are of variables that live through the call; the second has the layout of `struct tm` on 64-bit Linux
    // with glibc. localtime_r reads TZ; nothing in flexbox changes the environment, and it has one thread.
    let given = unsafe { localtime_r(&now, &mut local) };
    if given.is_null() {
        return Err(io::Error::last_os_error());
    }
    Ok(LocalTime {
        year: local.years_from_1900 + 1900,
        month: local.month_from_0 as u8 + 1,
        day: local.day_of_month as u8,
        hour: local.hour as u8,
        minute: local.minute as u8,
    })
}

fn answered(answer: c_int) -> io::Result<()> {
    if answer == 0 {
        Ok(())
    } else {
        Err(io::Error::last_os_error())
    }
}

#[cfg(test)]
mod tests {
    use super::*;
    use std::{env, fs, process};

    #[test]
    fn an_exclusive_lock_keeps_others_out_until_the_file_is_closed() {
        let path = env::temp_dir().join(format!("posix-lock-{}", process::id()));
        let first = File::create(&path).unwrap();
        let second = File::open(&path).unwrap();
        assert!(try_lock(&first, Lock::Exclusive).unwrap());
        assert!(!try_lock(&second, Lock::Exclusive).unwrap());
        assert!(!try_lock(&second, Lock::Shared).unwrap());
        drop(first);
        assert!(try_lock(&second, Lock::Shared).unwrap());
        assert!(try_lock(&File::open(&path).unwrap(), Lock::Shared).unwrap());
        fs::remove_file(&path).unwrap();
    }

    #[test]
    fn a_name_that_is_not_free_is_not_taken() {
        let path = |name: &str| env::temp_dir().join(format!("posix-rename-{}-{}", name, process::id()));
        let (from, to) = (path("from"), path("to"));
        fs::write(&from, b"new").unwrap();
        fs::write(&to, b"old").unwrap();
        assert_eq!(rename_new(&from, &to).unwrap_err().kind(), io::ErrorKind::AlreadyExists);
        assert_eq!(fs::read(&to).unwrap(), b"old");
        fs::remove_file(&to).unwrap();
        rename_new(&from, &to).unwrap();
        assert_eq!((fs::read(&to).unwrap(), from.exists()), (b"new".to_vec(), false));
        fs::remove_file(&to).unwrap();
    }

    #[test]
    fn a_file_is_no_terminal() {
        let path = env::temp_dir().join(format!("posix-terminal-{}", process::id()));
        assert!(!is_terminal(&File::create(&path).unwrap()));
        fs::remove_file(&path).unwrap();
    }

    #[test]
    fn the_date_is_one() {
        let LocalTime { year, month, day, hour, minute } = local_time().unwrap();
        assert!(year >= 2024 && (1..=12).contains(&month) && (1..=31).contains(&day) && hour < 24 && minute < 60);
    }
}
