//! What can be said to the shell.

use serde_json::{json, Value};

/// What is said by one line.
#[derive(Clone, Debug, PartialEq)]
pub enum Word {
    /// A request with this ask.
    Ask(Value),
    /// How many messages the queue has.
    Count {
        queue: String,
    },
    /// The last request once more, under its number.
    Again,
    /// Requests are this client's from now on.
    As {
        client: u32,
    },
    Crash {
        server: u32,
    },
    Detect {
        server: u32,
    },
    Join {
        server: u32,
    },
    /// One message moves.
    Step,
    /// All messages move.
    Go,
    /// Time passes.
    Wait {
        seconds: u64,
    },
    Show,
    Save {
        file: String,
    },
    Help,
    Quit,
}

pub const HELP: &str = "\
Requests, each carried through the chain to its answer:
  create QUEUE [SECONDS]            make a queue, as q.fifo; messages are invisible so long once received
  remove QUEUE                      remove it
  send QUEUE GROUP DEDUP BODY..     send a message: send q.fifo a d1 hello
  receive QUEUE [COUNT [SECONDS]]   receive up to COUNT messages, 1 if not given
  delete RECEIPT [QUEUE]            delete a message by its receipt: delete 1-1-1
  change RECEIPT SECONDS [QUEUE]    let it be invisible so long from now on
  count QUEUE                       how many messages are visible, and in flight
  again                             the last request once more, as a client that had no answer
  as CLIENT                         the requests behind this are that client's; it is 1 at first
  wait SECONDS                      the clock goes on; each request takes a second
The chain:
  crash N, detect N                 server N crashes; the master learns of it
  join N                            a new server N joins behind the last one
  step                              one message moves; from now on none moves by itself
  go                                all messages move, and do so by themselves again
  show                              what the chain holds
The shell:
  save FILE                         write what happened as a script, for cq replay and hobbychair draw
  help, quit";

/// What a queue's visibility timeout may be at most, in seconds.
const LONGEST_TIMEOUT_SECONDS: u64 = 43_200;

fn number<T: TryFrom<u64>>(word: &str, what: &str, least: u64, most: u64) -> Result<T, String> {
    let number = word.parse::<u64>().ok().filter(|number| (least..=most).contains(number));
    let number = number.and_then(|number| T::try_from(number).ok());
    number.ok_or_else(|| format!("{word:?} is no {what}: that is a number from {least} to {most}"))
}

fn server(word: &str) -> Result<u32, String> {
    number(word, "server", 1, 1_000)
}

fn seconds(word: &str) -> Result<u64, String> {
    number(word, "time in seconds", 0, LONGEST_TIMEOUT_SECONDS)
}

/// An ask with those keys that have a value.
fn ask(kind: &str, keys: &[(&str, Value)]) -> Word {
    let mut ask = json!({ "kind": kind });
    for (key, value) in keys.iter().filter(|(_, value)| !value.is_null()) {
        ask[key] = value.clone();
    }
    Word::Ask(ask)
}

/// The body, as it stands in the line: all behind the third word.
fn body(line: &str) -> &str {
    (0..4).fold(line.trim(), |rest, _| rest.split_once(char::is_whitespace).map_or("", |(_, later)| later.trim_start()))
}

/// How a word is used, by its line in the help.
fn usage(verb: &str) -> String {
    let line = HELP.lines().map(str::trim_start).find(|line| line.split([' ', ',']).next() == Some(verb));
    line.map_or_else(|| "`help` lists what can be said".into(), |line| format!("it is {line}"))
}

impl Word {
    /// What the line says; none where it is blank. An error is told as it is.
    pub fn of(line: &str) -> Result<Option<Word>, String> {
        let words: Vec<&str> = line.split_whitespace().collect();
        let Some((verb, rest)) = words.split_first() else { return Ok(None) };
        Word::by(verb, rest, line).map(Some)
    }

    fn by(verb: &str, rest: &[&str], line: &str) -> Result<Word, String> {
        let null = || Value::Null;
        Ok(match (verb, rest) {
            ("create", [queue]) => ask("create", &[("queue", json!(queue))]),
            ("create", [queue, time]) => {
                ask("create", &[("queue", json!(queue)), ("visibility", json!(seconds(time)?))])
            }
            ("remove", [queue]) => ask("remove", &[("queue", json!(queue))]),
            ("send", [queue, group, dedup, _, ..]) => ask(
                "send",
                &[
                    ("queue", json!(queue)),
                    ("group", json!(group)),
                    ("dedup", json!(dedup)),
                    ("body", json!(body(line))),
                ],
            ),
            ("receive", [queue, more @ ..]) if more.len() <= 2 => {
                let size = more.first().map(|word| number::<u64>(word, "count of messages", 1, 10)).transpose()?;
                let time = more.get(1).map(|word| seconds(word)).transpose()?;
                ask("receive", &[("queue", json!(queue)), ("size", json!(size)), ("visibility", json!(time))])
            }
            ("delete", [receipt]) => ask("delete", &[("queue", null()), ("receipt", json!(receipt))]),
            ("delete", [receipt, queue]) => ask("delete", &[("queue", json!(queue)), ("receipt", json!(receipt))]),
            ("change", [receipt, time]) => {
                ask("change", &[("receipt", json!(receipt)), ("visibility", json!(seconds(time)?))])
            }
            ("change", [receipt, time, queue]) => ask(
                "change",
                &[("queue", json!(queue)), ("receipt", json!(receipt)), ("visibility", json!(seconds(time)?))],
            ),
            ("count", [queue]) => Word::Count { queue: (*queue).into() },
            ("again", []) => Word::Again,
            ("as", [client]) => Word::As { client: number(client, "client", 0, u32::MAX.into())? },
            ("crash", [id]) => Word::Crash { server: server(id)? },
            ("detect", [id]) => Word::Detect { server: server(id)? },
            ("join", [id]) => Word::Join { server: server(id)? },
            ("step", []) => Word::Step,
            ("go", []) => Word::Go,
            ("wait", [time]) => Word::Wait { seconds: number(time, "time in seconds", 1, 1_000_000_000)? },
            ("show", []) => Word::Show,
            ("save", [file]) => Word::Save { file: (*file).into() },
            ("help", _) => Word::Help,
            ("quit" | "exit", []) => Word::Quit,
            _ => return Err(Word::unknown(verb)),
        })
    }

    fn unknown(verb: &str) -> String {
        let is_known = HELP.lines().any(|line| line.trim_start().split([' ', ',']).next() == Some(verb));
        if is_known || ["detect", "quit"].contains(&verb) {
            format!("that isn't how `{verb}` is said: {}", usage(verb))
        } else {
            format!("`{verb}` means nothing here; `help` lists what can be said")
        }
    }
}

#[cfg(test)]
mod tests {
    use super::*;

    #[test]
    fn words_say_asks() {
        let said = |line: &str| match Word::of(line) {
            Ok(Some(Word::Ask(ask))) => ask.to_string(),
            other => format!("{other:?}"),
        };
        assert_eq!(said("create q.fifo"), r#"{"kind":"create","queue":"q.fifo"}"#);
        assert_eq!(said("create q.fifo 5"), r#"{"kind":"create","queue":"q.fifo","visibility":5}"#);
        assert_eq!(
            said("  send q.fifo a d1 hello  there "),
            r#"{"body":"hello  there","dedup":"d1","group":"a","kind":"send","queue":"q.fifo"}"#
        );
        assert_eq!(said("receive q.fifo 10"), r#"{"kind":"receive","queue":"q.fifo","size":10}"#);
        assert_eq!(said("delete 1-1-1"), r#"{"kind":"delete","receipt":"1-1-1"}"#);
        assert_eq!(
            said("change 1-1-1 60 q.fifo"),
            r#"{"kind":"change","queue":"q.fifo","receipt":"1-1-1","visibility":60}"#
        );
    }

    #[test]
    fn what_is_no_word_is_told() {
        assert_eq!(Word::of(" "), Ok(None));
        assert_eq!(Word::of("sand"), Err("`sand` means nothing here; `help` lists what can be said".into()));
        assert_eq!(
            Word::of("receive q.fifo 11"),
            Err("\"11\" is no count of messages: that is a number from 1 to 10".into())
        );
        let told = Word::of("send q.fifo a").unwrap_err();
        assert!(told.starts_with("that isn't how `send` is said: it is send QUEUE GROUP DEDUP BODY.."), "{told}");
        assert_eq!(Word::of("crash 0"), Err("\"0\" is no server: that is a number from 1 to 1000".into()));
    }
}
