//! A script as it runs.

use std::io::{BufRead, BufReader, Write};
use std::thread;

use anyhow::{anyhow, bail, Context, Result};

use super::events::Event;
use crate::misuse::Misuse;
use crate::watch::{watching, OutputLine, Reply, Shown, SHOW};

/// What came of one line that isn't blank.
pub struct RunStep {
    /// The number of the line.
    pub line: usize,
    pub event: Event,
    /// What its event gives.
    pub answer: Option<Reply>,
    /// The name of the reason why it is refused.
    pub refused: Option<String>,
    /// What the chain holds then.
    pub after: Shown,
}

/// A whole run.
pub struct Run {
    /// What the chain holds at first.
    pub before: Shown,
    pub steps: Vec<RunStep>,
}

/// The numbers of lines that are none of a script.
const NO_LINE: [u16; 2] = [61, 62];

/// Runs the lines, of which none asks what the chain holds, on so many servers.
pub fn run(program: &str, servers: u8, lines: &[&str]) -> Result<Run> {
    let mut process = watching(program, servers).spawn().with_context(|| format!("{program} can't be started"))?;
    let (input, output) = process.stdin.take().zip(process.stdout.take()).context("the program has no pipes")?;
    // What the chain holds is asked at first, and behind each line.
    let asks = |text: String| text + SHOW + "\n";
    let text = lines.iter().fold(asks(String::new()), |text, line| asks(text + line + "\n"));
    let writer = thread::spawn(move || {
        let mut input = input;
        input.write_all(text.as_bytes())
    });
    let run = read(BufReader::new(output), lines);
    let written = writer.join().map_err(|_| anyhow!("the script can't be written to {program}"))?;
    let run = run?;
    written.with_context(|| format!("the script can't be written to {program}"))?;
    let status = process.wait()?;
    if !status.success() {
        bail!("{program} ended early: {status}");
    }
    Ok(run)
}

/// What stands before the next line that shows, and that line.
fn read_step(lines: &mut impl Iterator<Item = std::io::Result<String>>) -> Result<(Option<OutputLine>, Shown)> {
    let mut earlier = None;
    for line in lines {
        match OutputLine::of(&line?).context("cq said what can't be read")? {
            OutputLine::Shown(shown) => return Ok((earlier, shown)),
            told => earlier = Some(told),
        }
    }
    bail!("cq ended before the script did: this version of it may be too old to show what a chain holds")
}

fn read(output: impl BufRead, script: &[&str]) -> Result<Run> {
    let mut output = output.lines();
    let (_, before) = read_step(&mut output)?;
    let mut steps = Vec::new();
    for (index, text) in script.iter().enumerate() {
        let (told, after) = read_step(&mut output)?;
        if text.trim().is_empty() {
            continue;
        }
        let line = index + 1;
        let (answer, refused) = match told {
            Some(OutputLine::Refused { code, .. }) if NO_LINE.contains(&code) => {
                bail!(Misuse(format!("line {line} is none of a script (docs/LINES.md)")))
            }
            Some(OutputLine::Refused { name, .. }) => (None, Some(name)),
            Some(OutputLine::Answer(answer)) => (Some(answer), None),
            _ => (None, None),
        };
        let event = Event::of(text).with_context(|| format!("line {line} can't be drawn"))?;
        steps.push(RunStep { line, event, answer, refused, after });
    }
    Ok(Run { before, steps })
}
