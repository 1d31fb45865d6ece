//! Whether the disk of a file has space for it.

use std::os::unix::fs::MetadataExt;
use std::path::Path;

/// A file's space is counted in such blocks (stat(2)).
const BLOCK_BYTES: u64 = 512;

/// What is to be said behind the words of a program that a call on this file failed, which is to have space for so many bytes: that
/// its disk has too little. Nothing, where it has enough, or the words are of something else.
pub fn lack_of_space(words: &str, file: &Path, length: u64) -> String {
    match lack(file, length) {
        Some(bytes) if words.contains("JournalFailed") => {
            format!(", and its disk has {} MiB too little for all of it", bytes.div_ceil(1 << 20))
        }
        _ => String::new(),
    }
}

/// How many bytes the disk has too little. None: it has enough, or that isn't known.
fn lack(file: &Path, length: u64) -> Option<u64> {
    let folder = file.parent().filter(|folder| !folder.as_os_str().is_empty()).unwrap_or(Path::new("."));
    let disk = rustix::fs::statvfs(folder).ok()?;
    let free = disk.f_bavail.saturating_mul(disk.f_frsize);
    length.saturating_sub(taken(file)).checked_sub(free).filter(|bytes| *bytes > 0)
}

/// How many bytes of a disk a file takes.
pub fn taken(file: &Path) -> u64 {
    std::fs::metadata(file).map_or(0, |there| there.blocks() * BLOCK_BYTES)
}

#[cfg(test)]
mod tests {
    use super::*;

    #[test]
    fn a_disk_has_too_little_for_all_bytes_that_there_are_and_enough_for_none() {
        let file = std::env::temp_dir().join("hobbychair-disk-test-of-no-file");
        let failed = "cq: 66 JournalFailed";
        let lacks = lack_of_space(failed, &file, u64::MAX);
        assert!(
            lacks.starts_with(", and its disk has ") && lacks.ends_with(" MiB too little for all of it"),
            "{lacks}"
        );
        assert_eq!(lack_of_space(failed, &file, 0), "");
        assert_eq!(lack_of_space("cq: 69 NotAJournal", &file, u64::MAX), "");
        assert_eq!(lack_of_space(failed, Path::new("/nowhere/at/all"), u64::MAX), "");
    }
}
