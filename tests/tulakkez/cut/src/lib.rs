//! Cuts a run off, or lets a call fail: preloaded into a program, it counts from 1 the calls of the C library that work on files. At the call
//! whose number is in the variable CUT_AT it kills the process; a write that is cut off has written half of its bytes. At the call whose number is in
//! FAIL_AT the call fails with the error number in FAIL_WITH.

use std::os::raw::{c_char, c_int, c_long, c_uint, c_void};
use std::sync::atomic::{AtomicU64, Ordering};

extern "C" {
    fn syscall(number: c_long, ...) -> c_long;
    fn getenv(name: *const c_char) -> *const c_char;
    fn __errno_location() -> *mut c_int;
}

const WRITE: c_long = 1;
const CLOSE: c_long = 3;
const GETPID: c_long = 39;
const KILL: c_long = 62;
const FLOCK: c_long = 73;
const FSYNC: c_long = 74;
const RENAME: c_long = 82;
const UNLINK: c_long = 87;
const FCHMOD: c_long = 91;
const FCHOWN: c_long = 93;
const OPENAT: c_long = 257;
const LINKAT: c_long = 265;
const HERE: c_int = -100;
const SIGKILL: c_int = 9;

static CALLS: AtomicU64 = AtomicU64::new(0);

/// The number in a variable, 0 where there is none.
fn number(name: *const c_char) -> u64 {
    let mut number = 0;
    unsafe {
        let mut digit = getenv(name);
        while !digit.is_null() && *digit != 0 {
            number = number * 10 + (*digit as u64 - u64::from(b'0'));
            digit = digit.add(1);
        }
    }
    number
}

fn kill() {
    unsafe {
        syscall(KILL, syscall(GETPID), SIGKILL);
    }
}

enum Fate {
    Done,
    Cut,
    Failed,
}

/// What becomes of the call that is made now.
fn fate() -> Fate {
    let call = CALLS.fetch_add(1, Ordering::SeqCst) + 1;
    if call == number(c"CUT_AT".as_ptr()) {
        return Fate::Cut;
    }
    if call == number(c"FAIL_AT".as_ptr()) {
        return Fate::Failed;
    }
    Fate::Done
}

/// Sets the error number as the C library does.
fn result(told: c_long) -> c_long {
    if (-4095..0).contains(&told) {
        unsafe { *__errno_location() = -told as c_int };
        return -1;
    }
    told
}

/// The call itself, unless it is cut off or fails. The C library's `syscall` sets the error number itself.
fn call(made: impl FnOnce() -> c_long) -> c_long {
    match fate() {
        Fate::Done => made(),
        Fate::Cut => {
            kill();
            -1
        }
        Fate::Failed => result(-(number(c"FAIL_WITH".as_ptr()) as c_long)),
    }
}

/// # Safety
/// As C's.
#[no_mangle]
pub unsafe extern "C" fn write(fd: c_int, bytes: *const c_void, count: usize) -> isize {
    match fate() {
        Fate::Done => syscall(WRITE, fd, bytes, count) as isize,
        Fate::Cut => {
            syscall(WRITE, fd, bytes, count / 2);
            kill();
            -1
        }
        Fate::Failed => result(-(number(c"FAIL_WITH".as_ptr()) as c_long)) as isize,
    }
}

/// # Safety
/// As C's.
#[no_mangle]
pub unsafe extern "C" fn fsync(fd: c_int) -> c_int {
    call(|| syscall(FSYNC, fd)) as c_int
}

/// # Safety
/// As C's. A close that fails has closed all the same.
#[no_mangle]
pub unsafe extern "C" fn close(fd: c_int) -> c_int {
    call(|| syscall(CLOSE, fd)) as c_int
}

/// # Safety
/// As C's.
#[no_mangle]
pub unsafe extern "C" fn flock(fd: c_int, operation: c_int) -> c_int {
    call(|| syscall(FLOCK, fd, operation)) as c_int
}

/// # Safety
/// As C's.
#[no_mangle]
pub unsafe extern "C" fn fchmod(fd: c_int, mode: c_uint) -> c_int {
    call(|| syscall(FCHMOD, fd, mode)) as c_int
}

/// # Safety
/// As C's.
#[no_mangle]
pub unsafe extern "C" fn fchown(fd: c_int, owner: c_uint, group: c_uint) -> c_int {
    call(|| syscall(FCHOWN, fd, owner, group)) as c_int
}

/// # Safety
/// As C's.
#[no_mangle]
pub unsafe extern "C" fn unlink(path: *const c_char) -> c_int {
    call(|| syscall(UNLINK, path)) as c_int
}

/// # Safety
/// As C's.
#[no_mangle]
pub unsafe extern "C" fn rename(from: *const c_char, to: *const c_char) -> c_int {
    call(|| syscall(RENAME, from, to)) as c_int
}

/// # Safety
/// As C's.
#[no_mangle]
pub unsafe extern "C" fn linkat(
    from_folder: c_int,
    from: *const c_char,
    to_folder: c_int,
    to: *const c_char,
    flags: c_int,
) -> c_int {
    call(|| syscall(LINKAT, from_folder, from, to_folder, to, flags)) as c_int
}

/// # Safety
/// As C's; the mode is looked at only where a file is created.
#[no_mangle]
pub unsafe extern "C" fn open64(path: *const c_char, flags: c_int, mode: c_uint) -> c_int {
    call(|| syscall(OPENAT, HERE, path, flags, mode)) as c_int
}
