//! A library that is loaded ahead of the system's. Where the file that HOBBYCHAIR_TEST_ASKS names has a number, a gateway asks its
//! node so many times more, and is killed ahead of the next ask, whatever it writes at once. The file is gone then. Where it has
//! `never`, and a number of milliseconds, each gateway is killed ahead of its first ask, so much later, and the file stays.

use std::env;
use std::ffi::{c_int, c_long, c_void};
use std::fs;
use std::path::{Path, PathBuf};
use std::sync::OnceLock;
use std::thread::sleep;
use std::time::Duration;

extern "C" {
    fn syscall(number: c_long, ...) -> c_long;
    fn kill(process: c_int, signal: c_int) -> c_int;
    fn getpid() -> c_int;
    fn getsockopt(file: c_int, level: c_int, name: c_int, value: *mut c_void, size: *mut u32) -> c_int;
}

#[cfg(target_arch = "x86_64")]
const WRITE_AND_SEND: (c_long, c_long) = (1, 44);
#[cfg(target_arch = "aarch64")]
const WRITE_AND_SEND: (c_long, c_long) = (64, 206);

const SIGKILL: c_int = 9;
const SOL_SOCKET: c_int = 1;
const SO_DOMAIN: c_int = 39;
const AF_UNIX: c_int = 1;

/// The kinds of what a gateway tells its node (docs/CLUSTER.md, "The gateway's pipe"): the first one is an ask.
const KINDS: std::ops::RangeInclusive<u8> = 16..=18;

/// # Safety
///
/// As that of the system.
#[no_mangle]
pub unsafe extern "C" fn write(file: c_int, bytes: *const u8, count: usize) -> isize {
    let written = unsafe { before_the_end(file, bytes, count) };
    let done = unsafe { syscall(WRITE_AND_SEND.0, c_long::from(file), bytes, written.unwrap_or(count)) };
    end(written);
    done as isize
}

/// # Safety
///
/// As that of the system.
#[no_mangle]
pub unsafe extern "C" fn send(file: c_int, bytes: *const u8, count: usize, flags: c_int) -> isize {
    let written = unsafe { before_the_end(file, bytes, count) };
    let nobody = (std::ptr::null::<c_void>(), 0usize);
    let (size, flags) = (written.unwrap_or(count), c_long::from(flags));
    let done = unsafe { syscall(WRITE_AND_SEND.1, c_long::from(file), bytes, size, flags, nobody.0, nobody.1) };
    end(written);
    done as isize
}

fn end(written: Option<usize>) {
    if written.is_some() {
        // SAFETY: neither touches memory of this process.
        unsafe { kill(getpid(), SIGKILL) };
    }
}

fn counted() -> Option<&'static Path> {
    static FILE: OnceLock<Option<PathBuf>> = OnceLock::new();
    FILE.get_or_init(|| env::var_os("HOBBYCHAIR_TEST_ASKS").map(PathBuf::from)).as_deref()
}

/// How many of the bytes are written before this process ends, if it ends with them.
unsafe fn before_the_end(file: c_int, bytes: *const u8, count: usize) -> Option<usize> {
    if count < 6 {
        return None;
    }
    let bytes = unsafe { std::slice::from_raw_parts(bytes, count) };
    if bytes[4] != 1 || !KINDS.contains(&bytes[5]) {
        return None;
    }
    let counted = counted()?;
    let said = fs::read_to_string(counted).ok()?;
    if !is_local(file) {
        return None;
    }
    let asks = asks(bytes);
    if let Some(wait) = said.strip_prefix("never ") {
        let first = *asks.first()?;
        sleep(Duration::from_millis(wait.trim().parse().ok()?));
        return Some(first);
    }
    let left: usize = said.trim().parse().ok()?;
    if let Some(place) = asks.get(left) {
        fs::remove_file(counted).ok()?;
        return Some(*place);
    }
    fs::write(counted, (left - asks.len()).to_string()).ok()?;
    None
}

/// Where each ask begins among these frames.
fn asks(bytes: &[u8]) -> Vec<usize> {
    let (mut found, mut place) = (Vec::new(), 0);
    while let Some(head) = bytes.get(place..place + 6) {
        if head[4..] == [1, *KINDS.start()] {
            found.push(place);
        }
        place += 4 + u32::from_le_bytes([head[0], head[1], head[2], head[3]]) as usize;
    }
    found
}

fn is_local(file: c_int) -> bool {
    let (mut domain, mut size): (c_int, u32) = (0, 4);
    // SAFETY: both are there, and of that size.
    let asked = unsafe { getsockopt(file, SOL_SOCKET, SO_DOMAIN, std::ptr::addr_of_mut!(domain).cast(), &mut size) };
    asked == 0 && domain == AF_UNIX
}
