//! How a process is started that speaks these bytes.

use std::io;
use std::os::unix::process::CommandExt;
use std::process::Command;

/// The child is ended when this process ends, in whatever way. The system does that when the thread ends that starts the
/// child: it has to be one that is there until then.
pub fn end_with_this_process(command: &mut Command) {
    let this = std::process::id();
    let set = move || {
        // SAFETY: neither call touches memory of this process.
        let (is_set, parent) = unsafe { (libc::prctl(libc::PR_SET_PDEATHSIG, libc::SIGKILL), libc::getppid()) };
        match is_set {
            0 if u32::try_from(parent) == Ok(this) => Ok(()),
            0 => Err(io::ErrorKind::BrokenPipe.into()),
            _ => Err(io::Error::last_os_error()),
        }
    };
    // SAFETY: what runs between fork and exec takes no locks and no memory.
    unsafe { command.pre_exec(set) };
}
