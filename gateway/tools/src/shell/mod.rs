//! A shell for a chain: `hobbychair shell`.
//!
//! A person writes words (`words`). Each becomes lines of `cq watch` (`session`), which carry a request through the chain to
//! its answer (`carrying`), and what the chain holds is drawn (`view`), with the groups of queues by the answers (`groups`).

mod carrying;
mod groups;
mod session;
mod view;
mod words;

use std::io::{self, BufRead, IsTerminal, Write};

use anyhow::{Context, Result};
use clap::Args;
use rustyline::error::ReadlineError;
use rustyline::Editor;

use carrying::Carrier;
use words::{Word, HELP};

/// The options of the shell.
#[derive(Args)]
pub struct Shell {
    /// How many servers the chain begins with, from 1 to 8
    #[arg(long, value_name = "N", default_value_t = 3, value_parser = clap::value_parser!(u8).range(1..=8))]
    servers: u8,
    /// The program cq [default: cq of the path]
    #[arg(long, value_name = "PROGRAM", env = "HOBBYCHAIR_CQ")]
    pub cq: Option<String>,
}

const PROMPT: &str = "chain> ";

/// What comes line by line, from a terminal or from something else.
enum Input {
    Terminal(Box<Editor<()>>),
    Lines(io::Lines<io::StdinLock<'static>>),
}

impl Input {
    fn new() -> Result<Input> {
        if io::stdin().is_terminal() {
            return Ok(Input::Terminal(Box::new(Editor::new())));
        }
        Ok(Input::Lines(io::stdin().lock().lines()))
    }

    /// The next line; none at the end.
    fn next(&mut self) -> Result<Option<String>> {
        match self {
            Input::Terminal(editor) => match editor.readline(PROMPT) {
                Ok(line) => {
                    editor.add_history_entry(line.as_str());
                    Ok(Some(line))
                }
                // A line that is given up.
                Err(ReadlineError::Interrupted) => Ok(Some(String::new())),
                Err(ReadlineError::Eof) => Ok(None),
                Err(error) => Err(error).context("the terminal can't be read"),
            },
            Input::Lines(lines) => Ok(lines.next().transpose()?),
        }
    }
}

/// Runs the shell to the end of its input, or to `quit`.
pub fn run(program: &str, asked: &Shell) -> Result<()> {
    let mut carrier = Carrier::start(program, asked.servers)?;
    let mut input = Input::new()?;
    let mut out = io::stdout();
    if matches!(input, Input::Terminal(_)) {
        writeln!(out, "A chain of {} for queues. `help` lists what can be said.", view::servers(asked.servers))?;
    }
    while let Some(line) = input.next()? {
        match Word::of(&line) {
            Ok(None) => {}
            Ok(Some(Word::Quit)) => break,
            Ok(Some(Word::Help)) => writeln!(out, "{HELP}")?,
            Ok(Some(word)) => writeln!(out, "{}", carrier.obey(&word)?)?,
            Err(why) => writeln!(out, "{why}")?,
        }
        out.flush()?;
    }
    Ok(())
}
