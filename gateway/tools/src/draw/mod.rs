//! Pictures of runs: `hobbychair draw`.
//!
//! A script runs in `cq watch`, which is asked behind each line what the chain holds (`run`). From that come lanes, arrows
//! and marks (`scene`), and from these an SVG (`svg`) or a text (`text`). The same script has the same picture, to the byte.

mod events;
mod run;
mod scene;
mod svg;
#[cfg(test)]
mod tests;
mod text;

use std::io::{Read, Write};

use anyhow::{bail, Context, Result};
use clap::Args;

use crate::misuse::Misuse;
use crate::watch::SHOW;

/// A picture of more lines than that is none that a person can read.
const LINES_LIMIT: usize = 2_000;

#[derive(Args)]
pub struct Drawing {
    /// How many servers the chain begins with, from 1 to 8
    #[arg(long, value_name = "N", default_value_t = 1, value_parser = clap::value_parser!(u8).range(1..=8))]
    servers: u8,
    /// Draw with letters, for a terminal
    #[arg(long)]
    text: bool,
    /// The program cq [default: cq of the path]
    #[arg(long, value_name = "PROGRAM", env = "HOBBYCHAIR_CQ")]
    pub cq: Option<String>,
}

/// Draws the script of the reader.
pub fn draw(program: &str, asked: &Drawing, mut input: impl Read, out: &mut impl Write) -> Result<()> {
    let mut script = String::new();
    input.read_to_string(&mut script).context("the script can't be read")?;
    // A line that asks what the chain holds does nothing.
    let lines: Vec<&str> = script.lines().map(|line| if line == SHOW { "" } else { line }).collect();
    if lines.len() > LINES_LIMIT {
        bail!(Misuse(format!("a picture has {LINES_LIMIT} lines at most, and this script has {}", lines.len())));
    }
    let scene = scene::Scene::of(&run::run(program, asked.servers, &lines)?);
    if asked.text {
        text::write(&scene, out)?;
    } else {
        svg::write(&scene, out)?;
    }
    Ok(())
}
