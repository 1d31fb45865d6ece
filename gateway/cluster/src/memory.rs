//! How much memory there is, and how much a process has.

use std::fmt;
use std::fs;
use std::str::FromStr;

use serde::{Deserialize, Serialize};

/// A number of bytes, as `1048576`, `1024KiB` or `1MiB`. It is above 0.
#[derive(Clone, Copy, Debug, PartialEq, Eq, PartialOrd, Ord, Serialize, Deserialize)]
#[serde(transparent)]
pub struct Size(pub u64);

const UNITS: [(&str, u32); 4] = [("KiB", 10), ("MiB", 20), ("GiB", 30), ("TiB", 40)];

/// What messages may use of a machine's memory, in hundredths: a copy of the store takes as much again, and the gateway has its
/// part.
const SHARE_PERCENT: u64 = 40;

/// Where nothing tells how much memory the machine has.
const UNKNOWN_BYTES: u64 = 1 << 30;

impl FromStr for Size {
    type Err = String;

    fn from_str(text: &str) -> Result<Size, String> {
        let unit = UNITS.iter().find(|(unit, _)| text.ends_with(unit));
        let (digits, shift) = unit.map_or((text, 0), |(unit, shift)| (&text[..text.len() - unit.len()], *shift));
        let number = digits.trim_end().parse::<u64>().ok();
        let bytes = number.and_then(|number| number.checked_mul(1 << shift)).filter(|bytes| *bytes > 0);
        bytes.map(Size).ok_or_else(|| format!("{text} is no size, as 1048576, 512MiB or 2GiB"))
    }
}

/// In the largest unit of which there is one, with at most one digit behind the point.
impl fmt::Display for Size {
    fn fmt(&self, out: &mut fmt::Formatter<'_>) -> fmt::Result {
        let unit = UNITS.iter().rev().find(|(_, shift)| self.0 >= 1 << shift);
        let Some((unit, shift)) = unit else { return write!(out, "{}", self.0) };
        // Tenths, so that no number is rounded up to one that isn't there.
        let tenths = (u128::from(self.0) * 10) >> shift;
        match tenths % 10 {
            0 => write!(out, "{}{unit}", tenths / 10),
            tenth => write!(out, "{}.{tenth}{unit}", tenths / 10),
        }
    }
}

/// The share of this machine's memory, or of what this process may use of it, that messages may have.
pub fn usual_bound() -> Size {
    let of_machine = fs::read_to_string("/proc/meminfo").ok().and_then(|text| total_of(&text));
    let of_group = fs::read_to_string("/sys/fs/cgroup/memory.max").ok().and_then(|text| text.trim().parse().ok());
    let total = of_machine.into_iter().chain(of_group).min().unwrap_or(UNKNOWN_BYTES);
    Size((total / 100 * SHARE_PERCENT).max(1))
}

/// The memory of a machine in bytes, as /proc/meminfo tells it.
fn total_of(text: &str) -> Option<u64> {
    let line = text.lines().find_map(|line| line.strip_prefix("MemTotal:"))?;
    line.trim().strip_suffix("kB")?.trim().parse::<u64>().ok()?.checked_mul(1024)
}

/// How many bytes a process has in memory; 0 where it has ended.
pub fn used_by(process: u32) -> u64 {
    let text = fs::read_to_string(format!("/proc/{process}/status")).unwrap_or_default();
    let line = text.lines().find_map(|line| line.strip_prefix("VmRSS:"));
    line.and_then(|line| line.trim().strip_suffix("kB")?.trim().parse::<u64>().ok()).unwrap_or(0) * 1024
}

#[cfg(test)]
mod tests {
    use super::*;

    #[test]
    fn sizes() {
        for (text, bytes) in [("1", 1), ("1048576", 1 << 20), ("512MiB", 512 << 20), ("2 GiB", 2 << 30)] {
            assert_eq!(text.parse(), Ok(Size(bytes)), "{text}");
        }
        for bad in ["", "0", "MiB", "1MB", "-1", "1.5GiB", "99999999999TiB", "0KiB"] {
            assert!(bad.parse::<Size>().is_err(), "{bad}");
        }
        let shown = [1023, 1024, 1536, (1 << 20) - 1, 5 << 30].map(|bytes| Size(bytes).to_string());
        assert_eq!(shown, ["1023", "1KiB", "1.5KiB", "1023.9KiB", "5GiB"]);
    }

    #[test]
    fn this_machine_and_this_process_have_memory() {
        assert_eq!(total_of("MemFree: 7 kB\nMemTotal:       2048 kB\n"), Some(2 << 20));
        assert_eq!(total_of("MemTotal: many\n"), None);
        assert!(usual_bound().0 > 1 << 20 && used_by(std::process::id()) > 1 << 10);
        assert_eq!(used_by(u32::MAX), 0);
    }
}
