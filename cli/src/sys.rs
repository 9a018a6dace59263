//! The calls of the C library that the standard library does not have.

use std::ffi::{c_char, c_int, c_uint, c_void, CStr, CString};
use std::fs::File;
use std::io::{self, Read};
use std::os::fd::AsRawFd;
use std::sync::atomic::{AtomicBool, Ordering};

#[cfg(target_arch = "aarch64")]
mod flags {
    pub const DIRECTORY: i32 = 0o40000;
    pub const NOFOLLOW: i32 = 0o100000;
}
#[cfg(not(target_arch = "aarch64"))]
mod flags {
    pub const DIRECTORY: i32 = 0o200000;
    pub const NOFOLLOW: i32 = 0o400000;
}

/// A last name that is a symbolic link is not followed.
pub const NOFOLLOW: i32 = flags::NOFOLLOW;
/// Neither the opening nor a read waits for another program.
pub const NONBLOCK: i32 = 0o4000;
/// A file without a name, in the folder that is opened.
pub const TMPFILE: i32 = 0o20000000 | flags::DIRECTORY;

const STANDARD_INPUT: c_int = 0;
const STANDARD_OUTPUT: c_int = 1;
const F_GETFL: c_int = 3;
const O_ACCMODE: c_int = 3;
const O_RDONLY: c_int = 0;
const O_WRONLY: c_int = 1;
const LOCK_EX: c_int = 2;
const LOCK_NB: c_int = 4;
const AT_FDCWD: c_int = -100;
const AT_SYMLINK_FOLLOW: c_int = 0x400;
const RENAME_NOREPLACE: c_uint = 1;
const POLLIN: i16 = 1;
const EINVAL: i32 = 22;

#[repr(C)]
struct PollFd {
    fd: c_int,
    events: i16,
    revents: i16,
}

extern "C" {
    fn fcntl(fd: c_int, operation: c_int, ...) -> c_int;
    fn flock(fd: c_int, operation: c_int) -> c_int;
    fn linkat(
        old_folder: c_int,
        old: *const c_char,
        folder: c_int,
        new: *const c_char,
        flags: c_int,
    ) -> c_int;
    fn renameat2(
        old_folder: c_int,
        old: *const c_char,
        folder: c_int,
        new: *const c_char,
        flags: c_uint,
    ) -> c_int;
    fn poll(fds: *mut PollFd, count: std::ffi::c_ulong, milliseconds: c_int) -> c_int;
    fn flistxattr(fd: c_int, list: *mut c_char, size: usize) -> isize;
    fn fgetxattr(fd: c_int, name: *const c_char, value: *mut c_void, size: usize) -> isize;
    fn fsetxattr(
        fd: c_int,
        name: *const c_char,
        value: *const c_void,
        size: usize,
        flags: c_int,
    ) -> c_int;
    fn fremovexattr(fd: c_int, name: *const c_char) -> c_int;
}

/// Nothing that is written to standard output goes anywhere.
static IS_MUTE: AtomicBool = AtomicBool::new(false);
/// Nothing can be read from standard input.
static IS_DEAF: AtomicBool = AtomicBool::new(false);

/// The stream is closed, or open for no more than this.
fn is_only(stream: c_int, way: c_int) -> bool {
    let how = unsafe { fcntl(stream, F_GETFL) };
    how == -1 || how & O_ACCMODE == way
}

/// Looks at the standard streams as the program was given them.
extern "C" fn look() {
    IS_MUTE.store(is_only(STANDARD_OUTPUT, O_RDONLY), Ordering::Relaxed);
    IS_DEAF.store(is_only(STANDARD_INPUT, O_WRONLY), Ordering::Relaxed);
}

/// Has the look taken before main: by then the standard library has opened what was closed, on nothing.
#[used]
#[link_section = ".init_array"]
static BEFORE_MAIN: extern "C" fn() = look;

/// Standard output was closed, or open for reading alone, when the program started.
pub fn is_mute() -> bool {
    IS_MUTE.load(Ordering::Relaxed)
}

/// Standard input was closed, or open for writing alone, when the program started.
pub fn is_deaf() -> bool {
    IS_DEAF.load(Ordering::Relaxed)
}

/// What a call of the C library that answers 0 or -1 gave.
fn done(answer: c_int) -> io::Result<()> {
    if answer == 0 {
        Ok(())
    } else {
        Err(io::Error::last_os_error())
    }
}

/// Locks the file for this program alone; false where another holds it.
pub fn lock(file: &File) -> io::Result<bool> {
    match done(unsafe { flock(file.as_raw_fd(), LOCK_EX | LOCK_NB) }) {
        Ok(()) => Ok(true),
        Err(e) if e.kind() == io::ErrorKind::WouldBlock => Ok(false),
        Err(e) => Err(e),
    }
}

/// Gives a file without a name this name; never replaces another file.
pub fn give_name(file: &File, name: &CStr) -> io::Result<()> {
    let unnamed = CString::new(format!("/proc/self/fd/{}", file.as_raw_fd()))?;
    done(unsafe { linkat(AT_FDCWD, unnamed.as_ptr(), AT_FDCWD, name.as_ptr(), AT_SYMLINK_FOLLOW) })
}

/// Renames a file, where the new name is free.
pub fn rename_to_free(old: &CStr, new: &CStr) -> io::Result<()> {
    done(unsafe { renameat2(AT_FDCWD, old.as_ptr(), AT_FDCWD, new.as_ptr(), RENAME_NOREPLACE) })
}

/// The file system does not know this kind of call.
pub fn is_unknown(e: &io::Error) -> bool {
    e.raw_os_error() == Some(EINVAL)
}

/// Waits until there is something to read, or the time has passed: false.
pub fn readable(input: &impl AsRawFd, milliseconds: i32) -> io::Result<bool> {
    let mut wait = PollFd { fd: input.as_raw_fd(), events: POLLIN, revents: 0 };
    let ready = unsafe { poll(&mut wait, 1, milliseconds) };
    match ready {
        0 => Ok(false),
        1 => Ok(true),
        _ => Err(io::Error::last_os_error()),
    }
}

/// Runs a call that fills a buffer, with the room that it asks for.
fn filled(call: impl Fn(*mut c_void, usize) -> isize) -> io::Result<Vec<u8>> {
    let size = call(std::ptr::null_mut(), 0);
    if size < 0 {
        return Err(io::Error::last_os_error());
    }
    let mut bytes = vec![0u8; size as usize];
    let got = call(bytes.as_mut_ptr().cast(), bytes.len());
    if got < 0 {
        return Err(io::Error::last_os_error());
    }
    bytes.truncate(got as usize);
    Ok(bytes)
}

/// The names of a file's extended attributes, its access list among them.
pub fn attributes(file: &File) -> io::Result<Vec<CString>> {
    let list = filled(|to, size| unsafe { flistxattr(file.as_raw_fd(), to.cast(), size) });
    let list = match list {
        Err(e) if e.kind() == io::ErrorKind::Unsupported => Vec::new(),
        list => list?,
    };
    let names = list.split(|&b| b == 0).filter(|name| !name.is_empty());
    let mut names: Vec<CString> = names.map(|name| CString::new(name).expect("no zero")).collect();
    names.sort();
    Ok(names)
}

/// What an extended attribute holds.
pub fn attribute(file: &File, name: &CStr) -> io::Result<Vec<u8>> {
    filled(|to, size| unsafe { fgetxattr(file.as_raw_fd(), name.as_ptr(), to, size) })
}

/// Sets an extended attribute.
pub fn set_attribute(file: &File, name: &CStr, value: &[u8]) -> io::Result<()> {
    let bytes = value.as_ptr().cast();
    done(unsafe { fsetxattr(file.as_raw_fd(), name.as_ptr(), bytes, value.len(), 0) })
}

/// Removes an extended attribute.
pub fn remove_attribute(file: &File, name: &CStr) -> io::Result<()> {
    done(unsafe { fremovexattr(file.as_raw_fd(), name.as_ptr()) })
}

/// Eight bytes that nobody can foresee.
pub fn chance() -> io::Result<u64> {
    let mut bytes = [0; 8];
    File::open("/dev/urandom")?.read_exact(&mut bytes)?;
    Ok(u64::from_be_bytes(bytes))
}
