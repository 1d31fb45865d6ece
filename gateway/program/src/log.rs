//! The log: lines on their way to standard error. Whoever writes one doesn't wait for somebody to read it.

use std::io::{self, Write};
use std::sync::atomic::{AtomicU64, Ordering};
use std::sync::mpsc::{channel, sync_channel, Receiver, SyncSender};
use std::sync::OnceLock;
use std::time::Duration;

use hobbychair_bytes::characters::push_escaped;
use tracing_subscriber::fmt::MakeWriter;

/// So many lines wait to be written. What comes then is lost.
const MOST_WAITING_LINES: usize = 1_024;

/// The longest line, in bytes. What is behind is lost.
const LONGEST_LINE_BYTES: usize = 8 << 10;

/// So long the last lines may take before the process ends.
const LAST_MOMENTS: Duration = Duration::from_millis(500);

/// How many lines were lost since the start.
static LOST: AtomicU64 = AtomicU64::new(0);

/// Where lines go once the log has begun.
static LINES: OnceLock<SyncSender<Line>> = OnceLock::new();

enum Line {
    Text(Vec<u8>),
    /// The last one; it may have no bytes. All is written when its sender is dropped, and nothing behind it.
    Last(Vec<u8>, std::sync::mpsc::Sender<()>),
}

/// How many lines were lost since the start, for want of a reader.
pub fn lines_lost() -> u64 {
    LOST.load(Ordering::Relaxed)
}

/// Begins to write lines to standard error, by a thread of its own.
pub fn begin() -> io::Result<LogWriter> {
    let (lines, waiting) = sync_channel(MOST_WAITING_LINES);
    std::thread::Builder::new().name("log".into()).spawn(move || write_all(&waiting, &mut io::stderr()))?;
    Ok(LogWriter { lines: LINES.get_or_init(|| lines).clone() })
}

/// Waits a little for the last lines, and writes one more, behind which none comes: why the process ends.
pub fn end(why: Option<&str>) {
    let last = why.map_or_else(Vec::new, |why| format!("{}\n", why.trim_end()).into_bytes());
    let Some(lines) = LINES.get() else { return drop(io::stderr().write_all(&last)) };
    let (written, all_written) = channel();
    if lines.try_send(Line::Last(last, written)).is_ok() {
        let _ = all_written.recv_timeout(LAST_MOMENTS);
    }
}

fn write_all(waiting: &Receiver<Line>, out: &mut dyn Write) {
    let mut told = 0;
    for line in waiting {
        // Where standard error is closed, there is nobody to tell.
        match line {
            Line::Text(text) => drop(out.write_all(&text)),
            Line::Last(text, _written) => return drop(out.write_all(&text)),
        }
        let lost = lines_lost();
        if lost > told {
            let _ = writeln!(out, "hobbychair: {} lines of the log are lost, since nobody read them", lost - told);
            told = lost;
        }
    }
}

/// Takes whole lines, one at each write.
#[derive(Clone)]
pub struct LogWriter {
    lines: SyncSender<Line>,
}

impl Write for LogWriter {
    fn write(&mut self, line: &[u8]) -> io::Result<usize> {
        if self.lines.try_send(Line::Text(one_line(line))).is_err() {
            LOST.fetch_add(1, Ordering::Relaxed);
        }
        Ok(line.len())
    }

    fn flush(&mut self) -> io::Result<()> {
        Ok(())
    }
}

impl<'w> MakeWriter<'w> for LogWriter {
    type Writer = LogWriter;

    fn make_writer(&'w self) -> LogWriter {
        self.clone()
    }
}

/// The line with a line feed at its end and no other control character: what clients say may stand in it, and is no line
/// of its own. The escapes are those of JSON.
fn one_line(line: &[u8]) -> Vec<u8> {
    let line = line.strip_suffix(b"\n").unwrap_or(line);
    let line = String::from_utf8_lossy(&line[..line.len().min(LONGEST_LINE_BYTES)]);
    let mut one = String::with_capacity(line.len() + 1);
    line.chars().for_each(|character| push_escaped(&mut one, character));
    one.push('\n');
    one.into_bytes()
}

#[cfg(test)]
mod tests {
    use super::*;

    #[test]
    fn a_line_stays_one() {
        assert_eq!(one_line(b"said\n"), b"said\n");
        assert_eq!(one_line("a\nb\r\u{9b}31mé\n\n".as_bytes()), "a\\u000ab\\u000d\\u009b31mé\\u000a\n".as_bytes());
        assert_eq!(one_line(&[b'x'; 3 * LONGEST_LINE_BYTES]).len(), LONGEST_LINE_BYTES + 1);
    }

    #[test]
    fn who_writes_does_not_wait_and_what_is_lost_is_told() {
        let (lines, waiting) = sync_channel(2);
        let mut writer = LogWriter { lines };
        let before = lines_lost();
        for line in ["one\n", "two\n", "three\n"] {
            writer.write_all(line.as_bytes()).unwrap();
        }
        assert_eq!(lines_lost() - before, 1);
        drop(writer);
        let mut out = Vec::new();
        write_all(&waiting, &mut out);
        let told = String::from_utf8(out).unwrap();
        assert!(told.starts_with("one\nhobbychair: ") && told.ends_with("two\n"), "{told}");
    }

    #[test]
    fn nothing_is_written_behind_the_last_line() {
        let (lines, waiting) = sync_channel(3);
        let (written, all_written) = channel();
        lines.send(Line::Text(b"one\n".to_vec())).unwrap();
        lines.send(Line::Last(b"why it ends\n".to_vec(), written)).unwrap();
        lines.send(Line::Text(b"too late\n".to_vec())).unwrap();
        let mut out = Vec::new();
        write_all(&waiting, &mut out);
        assert_eq!(out, b"one\nwhy it ends\n");
        assert!(all_written.recv().is_err());
    }
}
