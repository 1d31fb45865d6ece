//! A library that is loaded ahead of the system's. A sync of a file waits for as long as a file `hang` is beside it. And where
//! HOBBYCHAIR_TEST_SYNCED names a folder, a sync takes a while, and how much of each file is on the disk stands there behind
//! it: that is what a loss of power would leave.

use std::ffi::{c_int, c_long};
use std::fs::{self, OpenOptions};
use std::io::Write;
use std::path::{Path, PathBuf};
use std::thread::sleep;
use std::time::Duration;

extern "C" {
    fn syscall(number: c_long, ...) -> c_long;
}

#[cfg(target_arch = "x86_64")]
const FSYNC: c_long = 74;
#[cfg(target_arch = "aarch64")]
const FSYNC: c_long = 82;

/// So long a sync takes: what is answered before its end isn't on the disk.
const SLOW: Duration = Duration::from_millis(5);

#[no_mangle]
pub extern "C" fn fdatasync(file: c_int) -> c_int {
    fsync(file)
}

#[no_mangle]
pub extern "C" fn fsync(file: c_int) -> c_int {
    let path = fs::read_link(format!("/proc/self/fd/{file}")).unwrap_or_default();
    while path.with_file_name("hang").exists() {
        sleep(Duration::from_millis(10));
    }
    let size = fs::metadata(&path).map_or(0, |found| found.len());
    let noted = std::env::var_os("HOBBYCHAIR_TEST_SYNCED").map(PathBuf::from);
    if noted.is_some() {
        sleep(SLOW);
    }
    // SAFETY: it touches no memory of this process.
    let done = unsafe { syscall(FSYNC, c_long::from(file)) } as c_int;
    if let Some(folder) = noted.filter(|_| done == 0 && path.is_file()) {
        note(&folder, &path, size);
    }
    done
}

/// One write over what was there, so that a number is there whenever the process is killed.
fn note(folder: &Path, path: &Path, size: u64) {
    let name = path.to_string_lossy().replace('/', "%");
    let noted = OpenOptions::new().create(true).truncate(false).write(true).open(folder.join(name));
    let written = noted.and_then(|mut file| file.write_all(format!("{size:020}").as_bytes()));
    written.expect("the size of a file can't be noted");
}
