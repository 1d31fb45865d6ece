//! Whether a recorded history of a service of FIFO queues is one that the rules allow (docs/CHECKING.md).
//!
//! A history is lines of requests with their answers (`line`), in the order in which they took effect. Each answer is
//! compared with what the rules say of it (`service`, `queue`); where they leave a choice, the answer's is followed. The first
//! one that they don't allow is found (`finding`).
//!
//! Lines of a store (`stored`), as `dump --answers` writes them, are judged by the rules of stores alone (`store`).

mod finding;
pub mod line;
mod queue;
mod service;
mod store;
pub mod stored;
#[cfg(test)]
mod tests;

use std::collections::hash_map::Entry;
use std::collections::HashMap;
use std::io::{BufRead, Write};

use anyhow::Result;
use hobbychair_bytes::characters::escaped;

use crate::misuse::Misuse;
use finding::{Finding, Judged};
use line::Line;
use service::Service;
use store::{Loading, Store};
use stored::{chunk_of, request_of, LOAD};

/// What is said of a whole history.
#[derive(Clone, Copy, Debug, Default, PartialEq, Eq)]
pub struct Verdict {
    /// The rules allow so many answers.
    allowed: u64,
    /// They say nothing of so many.
    not_judged: u64,
    /// Whether one isn't allowed: nothing is said of those behind it.
    pub is_refuted: bool,
}

/// Reads a history, and says whether the rules allow it. A line that is none is an error that says which one. Takes time in
/// proportion to the lines, and a receive of fewer messages than it asked for to the groups of its queue.
pub fn check(input: impl BufRead, out: &mut impl Write) -> Result<Verdict> {
    let (mut judges, mut told, mut last) = (Judges::default(), Verdict::default(), 0);
    for (place, text) in input.lines().enumerate() {
        let (number, text) = (place + 1, text?);
        if text.trim().is_empty() {
            continue;
        }
        let bad = |why: String| Misuse(format!("line {number} is no line of a history: {why}"));
        let line: Line = serde_json::from_str(&text).map_err(|error| bad(error.to_string()))?;
        line.test(last).map_err(bad)?;
        last = line.at;
        match judges.judge(&line).map_err(bad)? {
            Ok(Judged::Allowed) => told.allowed += 1,
            Ok(Judged::Not) => told.not_judged += 1,
            Err(finding) => {
                told.is_refuted = true;
                let said = format!("line {number}, {}: {finding}", line.action);
                writeln!(out, "{}", escaped(&said))?;
                return Ok(told);
            }
        }
    }
    let Verdict { allowed, not_judged, .. } = told;
    writeln!(out, "{allowed} answers are as the rules say; of {not_judged} they say nothing")?;
    Ok(told)
}

/// Who says what of a line.
#[derive(Default)]
struct Judges {
    service: Service,
    /// By the numbers of their files.
    stores: HashMap<u64, Store>,
    /// Those that begin with what stands for earlier requests, before their first request.
    loading: HashMap<u64, Loading>,
}

impl Judges {
    /// What the rules say of a line, or why it is none.
    fn judge(&mut self, line: &Line) -> Result<Result<Judged, Finding>, String> {
        let Some(of) = line.store else { return Ok(self.service.judge(line)) };
        if line.action == LOAD {
            return self.load(of.file, &chunk_of(line)?).map(|()| Ok(Judged::Not));
        }
        let request = request_of(line, of)?;
        Ok(self.store(of.file)?.judge(line, &request))
    }

    fn load(&mut self, file: u64, chunk: &[u8]) -> Result<(), String> {
        if self.stores.contains_key(&file) {
            return Err("its store was asked something before".into());
        }
        let loaded = self.loading.entry(file).or_default().feed(chunk);
        loaded.map_err(|fault| format!("its chunk is none that comes next: {fault}"))
    }

    /// The store of the file of this number: an empty one, if nothing was loaded.
    fn store(&mut self, file: u64) -> Result<&mut Store, String> {
        let of_file = match self.stores.entry(file) {
            Entry::Occupied(found) => return Ok(found.into_mut()),
            Entry::Vacant(of_file) => of_file,
        };
        let loaded = self.loading.remove(&file).map(Loading::end).transpose();
        let store = loaded.map_err(|fault| format!("what was loaded before isn't whole: {fault}"))?;
        Ok(of_file.insert(store.unwrap_or_default()))
    }
}
