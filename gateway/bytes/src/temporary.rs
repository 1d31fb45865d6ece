//! Folders for tests.

use std::path::PathBuf;

/// A folder that goes with this.
pub struct Room(pub PathBuf);

impl Room {
    /// A folder of this process with that name among others.
    pub fn new(name: &str) -> Room {
        let path = std::env::temp_dir().join(format!("hobbychair-{name}-{}", std::process::id()));
        std::fs::create_dir_all(&path).unwrap();
        Room(path)
    }
}

impl Drop for Room {
    fn drop(&mut self) {
        let _ = std::fs::remove_dir_all(&self.0);
    }
}
