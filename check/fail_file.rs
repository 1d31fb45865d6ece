//! Loaded into a program ahead of the C library, it lets calls on one file fail: those of the kind and from the number on that the
//! environment's `FAIL` says, as `sync:3` for the third one alone, `sync:3+` for it and all behind it, or `read:1,sync:3` for both.
//! Kinds are `open`, `length`, `read`, `write`, `sync` and, of the file's folder, `folder-sync`. A `write` that fails writes nothing,
//! and `write-part` half of its bytes first; `full` says that the disk has no space. Of the reads within a journal's root, which are
//! counted apart, one that is `stale` gives zeros. `FAIL_FILE` is how the file's name ends. It says on standard error once that a call
//! fails, and with `FAIL=count` at the end how many calls there were of each kind. `FAIL_SPACE` names a file that says for how many
//! bytes of the file the disk has space: a write that ends behind them fails. Where it isn't there, the disk has space for all.
use std::ffi::{c_char, c_int, c_void, CStr, CString};
use std::sync::atomic::{AtomicBool, AtomicU64, Ordering};

extern "C" {
    fn __errno_location() -> *mut c_int;
    fn dlsym(handle: *mut c_void, name: *const c_char) -> *mut c_void;
    fn write(file: c_int, bytes: *const c_void, len: usize) -> isize;
}

const BROKEN: c_int = 5;
const NO_SPACE: c_int = 28;

/// What `dlsym` takes for the next library that has the name: the C library's own function.
const NEXT: *mut c_void = -1_isize as *mut c_void;

const KINDS: [&str; 7] = ["open", "length", "read", "write", "sync", "folder-sync", "root-read"];

/// How many bytes the two halves of a root have.
const ROOT: i64 = 2 * 524_288;

static COUNTS: [AtomicU64; 7] = [const { AtomicU64::new(0) }; 7];
static SAID: AtomicBool = AtomicBool::new(false);

/// How a call is to go on.
enum Fate {
    Goes,
    Fails(c_int),
    /// Half of it is done first.
    Breaks,
    /// It gives zeros.
    IsStale,
}

fn variable(name: &str) -> String {
    std::env::var(name).unwrap_or_default()
}

fn say(words: &str) {
    // SAFETY: the bytes are there.
    unsafe { write(2, words.as_ptr().cast(), words.len()) };
}

fn tell_counts() {
    let counts = KINDS.iter().zip(&COUNTS).map(|(kind, count)| format!("{kind} {}", count.load(Ordering::Relaxed)));
    say(&format!("calls: {}\n", counts.collect::<Vec<_>>().join(", ")));
}

/// What becomes of the call with that number of a kind, if this is said of it.
fn fate_said(kind: &str, number: u64, said: &str) -> Option<Fate> {
    let (wanted, from) = said.split_once(':')?;
    let (from, is_for_good) = from.strip_suffix('+').map_or((from, false), |from| (from, true));
    let is_one = from.parse().is_ok_and(|from: u64| number == from || is_for_good && number > from);
    let fate = match wanted {
        "full" if kind == "write" || kind == "length" => Fate::Fails(NO_SPACE),
        "write-part" if kind == "write" => Fate::Breaks,
        "stale" if kind == "root-read" => Fate::IsStale,
        wanted if wanted == kind => Fate::Fails(BROKEN),
        _ => return None,
    };
    is_one.then_some(fate)
}

/// What becomes of the next call of that kind.
fn fate(kind: usize) -> Fate {
    let number = COUNTS[kind].fetch_add(1, Ordering::Relaxed) + 1;
    let said = variable("FAIL");
    let Some(fate) = said.split(',').find_map(|one| fate_said(KINDS[kind], number, one)) else { return Fate::Goes };
    if !SAID.swap(true, Ordering::Relaxed) {
        say("a call fails\n");
    }
    fate
}

/// What becomes of the next read or write, of so many bytes at this place.
fn fate_at(kind: usize, at: i64, len: usize) -> Fate {
    match fate(kind) {
        Fate::Goes if KINDS[kind] == "read" && at < ROOT => fate(6),
        Fate::Goes if KINDS[kind] == "write" && !has_space(at + len as i64) => Fate::Fails(NO_SPACE),
        fate => fate,
    }
}

/// Whether the disk has space for so many bytes of the file.
fn has_space(end: i64) -> bool {
    let said = std::fs::read_to_string(variable("FAIL_SPACE"));
    said.ok().and_then(|space| space.trim().parse().ok()).is_none_or(|space: i64| end <= space)
}

fn failed(error: c_int) -> c_int {
    // SAFETY: it is this thread's.
    unsafe { *__errno_location() = error };
    -1
}

fn is_the_file(path: &str) -> bool {
    let file = variable("FAIL_FILE");
    !file.is_empty() && path.ends_with(&file)
}

fn path_of(file: c_int) -> String {
    std::fs::read_link(format!("/proc/self/fd/{file}")).map_or(String::new(), |path| path.to_string_lossy().into_owned())
}

/// Whether a descriptor is of the file, and whether of the folder that it is in.
fn is_of(file: c_int) -> (bool, bool) {
    if file <= 2 {
        return (false, false);
    }
    let path = path_of(file);
    (is_the_file(&path), !variable("FAIL_FILE").is_empty() && std::path::Path::new(&path).is_dir())
}

/// The C library's own function of that name.
///
/// # Safety
/// `F` is the type of that function.
unsafe fn next<F: Copy>(name: &str) -> F {
    let name = CString::new(name).unwrap_or_default();
    let found = dlsym(NEXT, name.as_ptr());
    assert!(!found.is_null() && size_of::<F>() == size_of::<*mut c_void>());
    *(&raw const found).cast::<F>()
}

type Open = unsafe extern "C" fn(*const c_char, c_int, u32) -> c_int;
type OpenAt = unsafe extern "C" fn(c_int, *const c_char, c_int, u32) -> c_int;
type At = unsafe extern "C" fn(c_int, *mut c_void, usize, i64) -> isize;
type Length = unsafe extern "C" fn(c_int, i64) -> c_int;
type Exit = unsafe extern "C" fn(c_int) -> !;
type Sync = unsafe extern "C" fn(c_int) -> c_int;

macro_rules! opens {
    ($($name:ident)*) => {$(
        #[no_mangle]
        pub unsafe extern "C" fn $name(path: *const c_char, flags: c_int, mode: u32) -> c_int {
            match if is_the_file(&CStr::from_ptr(path).to_string_lossy()) { fate(0) } else { Fate::Goes } {
                Fate::Goes => next::<Open>(stringify!($name))(path, flags, mode),
                Fate::Fails(error) => failed(error),
                Fate::Breaks | Fate::IsStale => failed(BROKEN),
            }
        }
    )*};
}

macro_rules! opens_at {
    ($($name:ident)*) => {$(
        #[no_mangle]
        pub unsafe extern "C" fn $name(folder: c_int, path: *const c_char, flags: c_int, mode: u32) -> c_int {
            match if is_the_file(&CStr::from_ptr(path).to_string_lossy()) { fate(0) } else { Fate::Goes } {
                Fate::Goes => next::<OpenAt>(stringify!($name))(folder, path, flags, mode),
                Fate::Fails(error) => failed(error),
                Fate::Breaks | Fate::IsStale => failed(BROKEN),
            }
        }
    )*};
}

macro_rules! moves {
    ($kind:literal: $($name:ident)*) => {$(
        #[no_mangle]
        pub unsafe extern "C" fn $name(file: c_int, bytes: *mut c_void, len: usize, at: i64) -> isize {
            match if is_of(file).0 { fate_at($kind, at, len) } else { Fate::Goes } {
                Fate::Goes => next::<At>(stringify!($name))(file, bytes, len, at),
                Fate::Fails(error) => failed(error) as isize,
                Fate::Breaks => {
                    next::<At>(stringify!($name))(file, bytes, len / 2, at);
                    failed(BROKEN) as isize
                }
                Fate::IsStale => {
                    let done = next::<At>(stringify!($name))(file, bytes, len, at);
                    bytes.cast::<u8>().write_bytes(0, done.max(0) as usize);
                    done
                }
            }
        }
    )*};
}

macro_rules! lengths {
    ($($name:ident)*) => {$(
        #[no_mangle]
        pub unsafe extern "C" fn $name(file: c_int, len: i64) -> c_int {
            match if is_of(file).0 { fate(1) } else { Fate::Goes } {
                Fate::Goes => next::<Length>(stringify!($name))(file, len),
                Fate::Fails(error) => failed(error),
                Fate::Breaks | Fate::IsStale => failed(BROKEN),
            }
        }
    )*};
}

macro_rules! syncs {
    ($($name:ident)*) => {$(
        #[no_mangle]
        pub unsafe extern "C" fn $name(file: c_int) -> c_int {
            let fate = match is_of(file) {
                (true, _) => fate(4),
                (_, true) => fate(5),
                _ => Fate::Goes,
            };
            match fate {
                Fate::Goes => next::<Sync>(stringify!($name))(file),
                Fate::Fails(error) => failed(error),
                Fate::Breaks | Fate::IsStale => failed(BROKEN),
            }
        }
    )*};
}

/// The program ends by this.
#[no_mangle]
pub unsafe extern "C" fn _exit(status: c_int) -> ! {
    if variable("FAIL") == "count" {
        tell_counts();
    }
    next::<Exit>("_exit")(status)
}

opens!(open open64);
opens_at!(openat openat64);
moves!(2: pread pread64);
moves!(3: pwrite pwrite64);
lengths!(ftruncate ftruncate64);
syncs!(fsync fdatasync);
