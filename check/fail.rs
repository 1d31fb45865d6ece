//! Loaded into a program ahead of the C library, it lets one call fail: the one of the kind and number that the environment's
//! `FAIL` says, as `memory:12` or `read:3`. Kinds are `memory`, an allocation that is refused; `thread`, one that isn't started;
//! `read` and `write`, which fail;
//! `read-interrupted` and `write-interrupted`; `read-short` and `write-short`, which get one byte; and `write-none`, which gets
//! none. Reads are those of standard input, writes those to standard output. It says on standard error that it did so. Where
//! the environment's `PIECES` has a number, no other read or write gets more bytes than that.
use std::ffi::c_void;
use std::mem::transmute;
use std::ptr::null_mut;
use std::sync::atomic::{AtomicU64, Ordering};

extern "C" {
    fn __libc_malloc(size: usize) -> *mut u8;
    fn __libc_calloc(count: usize, size: usize) -> *mut u8;
    fn __libc_realloc(old: *mut u8, size: usize) -> *mut u8;
    fn __errno_location() -> *mut i32;
    fn dlsym(handle: *mut c_void, name: *const u8) -> *mut c_void;
    fn getenv(name: *const u8) -> *const u8;
    fn syscall(number: i64, file: i64, bytes: i64, len: i64) -> i64;
}

const READ: i64 = 0;
const WRITE: i64 = 1;
const INTERRUPTED: i32 = 4;
const BROKEN: i32 = 5;
const NO_MEMORY: i32 = 12;
const TRY_AGAIN: i32 = 11;

/// What `dlsym` takes for the next library that has the name: the C library's own function.
const NEXT: *mut c_void = -1_isize as *mut c_void;

const SAID: &[u8] = b"a call fails\n";

static ALLOCATIONS: AtomicU64 = AtomicU64::new(0);
static THREADS: AtomicU64 = AtomicU64::new(0);
static READS: AtomicU64 = AtomicU64::new(0);
static WRITES: AtomicU64 = AtomicU64::new(0);

/// The number at the beginning of a text that ends with a byte of 0.
unsafe fn number_in(mut text: *const u8) -> u64 {
    let mut number = 0;
    while (*text).is_ascii_digit() {
        number = number * 10 + u64::from(*text - b'0');
        text = text.add(1);
    }
    number
}

/// The number that `FAIL` says of that kind, or 0. It takes no memory.
fn wanted(kind: &[u8]) -> u64 {
    unsafe {
        let mut text = getenv(b"FAIL\0".as_ptr());
        if text.is_null() {
            return 0;
        }
        for byte in kind {
            if *text != *byte {
                return 0;
            }
            text = text.add(1);
        }
        if *text == b':' { number_in(text.add(1)) } else { 0 }
    }
}

/// The most bytes that a read or a write gets.
fn piece(len: usize) -> usize {
    unsafe {
        let text = getenv(b"PIECES\0".as_ptr());
        if text.is_null() { len } else { len.min(number_in(text) as usize) }
    }
}

/// Whether the call of that number is the one.
fn is_one(kind: &[u8], number: u64) -> bool {
    let found = wanted(kind) == number;
    if found {
        unsafe { syscall(WRITE, 2, SAID.as_ptr() as i64, SAID.len() as i64) };
    }
    found
}

fn is_refused() -> bool {
    let refused = is_one(b"memory", ALLOCATIONS.fetch_add(1, Ordering::Relaxed) + 1);
    if refused {
        fails(NO_MEMORY);
    }
    refused
}

fn fails(error: i32) -> isize {
    unsafe { *__errno_location() = error };
    -1
}

#[no_mangle]
pub unsafe extern "C" fn malloc(size: usize) -> *mut u8 {
    if is_refused() { null_mut() } else { __libc_malloc(size) }
}

#[no_mangle]
pub unsafe extern "C" fn calloc(count: usize, size: usize) -> *mut u8 {
    if is_refused() { null_mut() } else { __libc_calloc(count, size) }
}

#[no_mangle]
pub unsafe extern "C" fn realloc(old: *mut u8, size: usize) -> *mut u8 {
    if is_refused() { null_mut() } else { __libc_realloc(old, size) }
}

type Create = unsafe extern "C" fn(*mut c_void, *const c_void, *const c_void, *mut c_void) -> i32;

#[no_mangle]
pub unsafe extern "C" fn pthread_create(
    thread: *mut c_void,
    attributes: *const c_void,
    start: *const c_void,
    argument: *mut c_void,
) -> i32 {
    if is_one(b"thread", THREADS.fetch_add(1, Ordering::Relaxed) + 1) {
        return TRY_AGAIN;
    }
    let create: Create = transmute(dlsym(NEXT, b"pthread_create\0".as_ptr()));
    create(thread, attributes, start, argument)
}

#[no_mangle]
pub unsafe extern "C" fn read(file: i32, bytes: *mut u8, len: usize) -> isize {
    let mut len = len;
    if file == 0 {
        len = piece(len);
        let number = READS.fetch_add(1, Ordering::Relaxed) + 1;
        if is_one(b"read", number) {
            return fails(BROKEN);
        }
        if is_one(b"read-interrupted", number) {
            return fails(INTERRUPTED);
        }
        if is_one(b"read-short", number) {
            len = len.min(1);
        }
    }
    syscall(READ, file as i64, bytes as i64, len as i64) as isize
}

#[no_mangle]
pub unsafe extern "C" fn write(file: i32, bytes: *const u8, len: usize) -> isize {
    let mut len = len;
    if file == 1 {
        len = piece(len);
        let number = WRITES.fetch_add(1, Ordering::Relaxed) + 1;
        if is_one(b"write", number) {
            return fails(BROKEN);
        }
        if is_one(b"write-interrupted", number) {
            return fails(INTERRUPTED);
        }
        if is_one(b"write-none", number) {
            return 0;
        }
        if is_one(b"write-short", number) {
            len = len.min(1);
        }
    }
    syscall(WRITE, file as i64, bytes as i64, len as i64) as isize
}
