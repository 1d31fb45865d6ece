//! The session that a shell drives.

use std::io::{BufRead, BufReader, Lines, Write};
use std::process::{Child, ChildStdin, ChildStdout};

use anyhow::{Context, Result};
use serde_json::Value;

use crate::watch::{watching, OutputLine, Reply, Shown, SHOW};

/// What came of a line.
#[derive(Clone, Debug)]
pub enum Outcome {
    Nothing,
    Answer(Reply),
    Refused(String),
}

/// A running `cq watch`. It ends when its input is closed, with this.
pub struct Session {
    _process: Child,
    input: ChildStdin,
    output: Lines<BufReader<ChildStdout>>,
    /// What the chain holds.
    pub shown: Shown,
    /// The lines that happened, but for queries.
    pub script: Vec<String>,
}

impl Session {
    pub fn start(program: &str, servers: u8) -> Result<Session> {
        let mut process = watching(program, servers).spawn().with_context(|| format!("{program} can't be started"))?;
        let (mut input, output) = process.stdin.take().zip(process.stdout.take()).context("cq has no pipes")?;
        input.write_all(format!("{SHOW}\n").as_bytes()).context("cq is gone")?;
        let mut output = BufReader::new(output).lines();
        let (_, shown) = read(&mut output)?;
        Ok(Session { _process: process, input, output, shown, script: Vec::new() })
    }

    /// Runs a line. One that is refused doesn't count as one that happened.
    pub fn run(&mut self, line: &Value) -> Result<Outcome> {
        let text = line.to_string();
        let outcome = self.ask(&text)?;
        if !matches!(outcome, Outcome::Refused(_)) {
            self.script.push(text);
        }
        Ok(outcome)
    }

    /// Runs a line that isn't to be remembered.
    pub fn ask(&mut self, line: &str) -> Result<Outcome> {
        self.input.write_all(format!("{line}\n{SHOW}\n").as_bytes()).context("cq is gone")?;
        let (outcome, shown) = read(&mut self.output)?;
        self.shown = shown;
        Ok(outcome)
    }
}

/// What came of a line, and what the chain holds behind it.
fn read(output: &mut Lines<BufReader<ChildStdout>>) -> Result<(Outcome, Shown)> {
    let mut outcome = Outcome::Nothing;
    for line in output {
        match OutputLine::of(&line?).context("cq said what can't be read")? {
            OutputLine::Shown(shown) => return Ok((outcome, shown)),
            OutputLine::Answer(answer) => outcome = Outcome::Answer(answer),
            OutputLine::Refused { name, .. } => outcome = Outcome::Refused(name),
        }
    }
    anyhow::bail!("cq is gone, or too old to show what a chain holds")
}
