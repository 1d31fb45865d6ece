//! How much room the disk of a node's journal has.

use std::io;
use std::path::{Path, PathBuf};
use std::sync::Arc;
use std::time::Duration;

use tokio::time::sleep;

use crate::lock;
use crate::memory::Size;
use crate::records::Disk;

use super::Shared;

/// So often it is looked at.
const PAUSE: Duration = Duration::from_millis(500);

/// Looks at the disk for good. Nobody waits for that, since a disk may hang.
pub async fn watch(node: Arc<Shared>, folder: PathBuf, reserve: u64) {
    let mut was_short = false;
    loop {
        let looked_at = folder.clone();
        let free = tokio::task::spawn_blocking(move || free(&looked_at)).await;
        // What can't be looked at is as it was: the journal says what is wrong with it.
        if let Ok(Ok(free)) = free {
            let disk = Disk { free, reserve };
            *lock(&node.disk) = Some(disk);
            say(&disk, std::mem::replace(&mut was_short, disk.is_short()));
        }
        sleep(PAUSE).await;
    }
}

fn say(disk: &Disk, was_short: bool) {
    let (free, reserve) = (Size(disk.free), Size(disk.reserve));
    match (was_short, disk.is_short()) {
        (false, true) => tracing::warn!("the disk has {free}, less than the reserve of {reserve}: sends are refused"),
        (true, false) => tracing::warn!("the disk has {free} again, and the reserve is {reserve}"),
        _ => {}
    }
}

/// How many bytes whoever isn't root may still write.
fn free(folder: &Path) -> io::Result<u64> {
    let told = rustix::fs::statvfs(folder)?;
    Ok(told.f_bavail.saturating_mul(told.f_frsize))
}

#[cfg(test)]
mod tests {
    use super::*;

    #[test]
    fn a_disk_that_is_there_has_some_room_or_none_and_one_that_is_not_has_no_answer() {
        assert!(free(&std::env::temp_dir()).is_ok());
        assert!(free(Path::new("/nowhere/at/all")).is_err());
        let disk = |free| Disk { free, reserve: 10 };
        assert!(disk(9).is_short() && !disk(10).is_short() && !Disk { free: 0, reserve: 0 }.is_short());
    }
}
