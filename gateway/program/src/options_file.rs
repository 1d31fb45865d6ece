//! A file with options of a command, which are read as words of its command line.

use std::collections::BTreeMap;
use std::path::Path;

use anyhow::Result;
use clap::parser::ValueSource;
use clap::{Arg, ArgMatches, Command};
use hobbychair_tools::misuse::Misuse;
use toml::{Spanned, Value};

use crate::config::DeclaredQueue;

/// The name of the tables that declare queues.
const QUEUE: &str = "queue";

/// What a file says to a command.
pub struct OptionsFile {
    options: Vec<FileOption>,
    /// Queues that are created at the start.
    pub queues: Vec<DeclaredQueue>,
}

/// An option, and the words that say it on a command line.
struct FileOption {
    id: String,
    words: Vec<String>,
}

impl OptionsFile {
    /// Reads a file for a command. `unknown` says what is wrong with a name that is none of the command's options.
    pub fn read(path: &Path, command: &Command, unknown: impl Fn(&str) -> String) -> Result<OptionsFile> {
        let text = std::fs::read_to_string(path)
            .map_err(|error| Misuse(format!("{}: it can't be read: {error}", path.display())))?;
        OptionsFile::of(&text, command, unknown).map_err(|why| Misuse(format!("{}{why}", path.display())).into())
    }

    /// Reads the text of a file. An error goes on behind the file's name.
    pub fn of(text: &str, command: &Command, unknown: impl Fn(&str) -> String) -> Result<OptionsFile, String> {
        let beside = |why: String| format!(": {why}");
        let mut values: BTreeMap<String, Spanned<Value>> =
            toml::from_str(text).map_err(|error| beside(error.to_string()))?;
        let queues: Vec<DeclaredQueue> = match values.remove(QUEUE) {
            Some(queues) => queues.into_inner().try_into().map_err(|error| beside(format!("[[{QUEUE}]]: {error}")))?,
            None => Vec::new(),
        };
        let mut options = Vec::new();
        for (name, value) in values {
            let at = |why: String| match value.start() {
                // Where a table stands isn't known.
                0 => beside(why),
                start => format!(", line {}: {why}", text[..start].matches('\n').count() + 1),
            };
            let argument = option_of(command, &name).ok_or_else(|| at(unknown(&name)))?;
            let words = words_of(&name, value.get_ref()).ok_or_else(|| at(format!("{name} has no such value")))?;
            test(command, &words).map_err(at)?;
            options.push(FileOption { id: argument.get_id().as_str().into(), words });
        }
        Ok(OptionsFile { options, queues })
    }

    /// The words of the options of which neither the command line nor a variable has said anything.
    pub fn words<'a>(&'a self, given: &'a ArgMatches) -> impl Iterator<Item = String> + 'a {
        let is_left_out = move |option: &&FileOption| {
            matches!(given.value_source(&option.id), None | Some(ValueSource::DefaultValue))
        };
        self.options.iter().filter(is_left_out).flat_map(|option| option.words.iter().cloned())
    }
}

/// The option of a command that has this name in help and in files.
pub fn option_of<'a>(command: &'a Command, name: &str) -> Option<&'a Arg> {
    let is_asked = |argument: &&Arg| argument.get_long() == Some(name) && !argument.is_hide_set() && name != "config";
    command.get_arguments().find(is_asked)
}

/// The words that say an option, if it can have such a value at all: each part of a list is a word.
fn words_of(name: &str, value: &Value) -> Option<Vec<String>> {
    let word = |text: &dyn std::fmt::Display| format!("--{name}={text}");
    match value {
        Value::String(text) => Some(vec![word(text)]),
        Value::Integer(number) => Some(vec![word(number)]),
        Value::Boolean(flag) => Some(vec![word(flag)]),
        Value::Array(parts) => parts.iter().map(|part| part.as_str().map(|text| word(&text))).collect(),
        _ => None,
    }
}

/// Whether a command takes these words. An error has the first paragraph of what it says of them, as one line.
fn test(command: &Command, words: &[String]) -> Result<(), String> {
    let tried = command.clone().no_binary_name(true).try_get_matches_from(words);
    tried.map(|_| ()).map_err(|error| {
        let said = error.to_string();
        let lines: Vec<&str> = said.lines().map(str::trim).take_while(|line| !line.is_empty()).collect();
        lines.join(" ").trim_start_matches("error: ").into()
    })
}

#[cfg(test)]
mod tests {
    use clap::Args;

    use super::*;
    use crate::config::GatewayOptions;

    fn serve() -> Command {
        GatewayOptions::augment_args(Command::new("serve").no_binary_name(true))
    }

    fn read(text: &str) -> Result<OptionsFile, String> {
        OptionsFile::of(text, &serve(), |name| format!("{name} is unknown"))
    }

    fn words(text: &str, given: &[&str]) -> Vec<String> {
        let given = serve().try_get_matches_from(given).unwrap();
        read(text).unwrap().words(&given).collect()
    }

    #[test]
    fn options_are_words_where_nothing_else_says_them() {
        let text =
            "port = 1\nopen = true\nallowed-hosts = [\"a\", \"b\"]\nmemory = \"1MiB\"\nrequest-memory = 67108864\n";
        let all = ["--allowed-hosts=a", "--allowed-hosts=b", "--memory=1MiB", "--open=true", "--port=1"];
        assert_eq!(words(text, &[]), [&all[..], &["--request-memory=67108864"]].concat());
        let rest = words(text, &["--port", "2", "--allowed-hosts=c", "--request-memory=1GiB"]);
        assert_eq!(rest, ["--memory=1MiB", "--open=true"]);
        assert_eq!(words("allowed-hosts = []\n", &[]), [""; 0]);
    }

    #[test]
    fn what_is_wrong_is_told_with_its_line() {
        for (text, why) in [
            ("# a comment\n\nprot = 1\n", ", line 3: prot is unknown"),
            ("host = \"::1\"\nport = 70000\n", ", line 2: Invalid value '70000' for '--port <PORT>'"),
            ("memory = \"1MB\"", ", line 1: Invalid value '1MB' for '--memory <SIZE>': 1MB is no size"),
            ("log = \"xml\"", ", line 1: 'xml' isn't a valid value for '--log <FORM>' [possible values: text, json]"),
            ("port = 1.5", ", line 1: port has no such value"),
            ("host = [\"a\", \"b\"]", ", line 1: The argument '--host <HOST>'"),
            ("host = [1]", ", line 1: host has no such value"),
            ("[host]\nname = 1\n", ": host has no such value"),
            ("port =", ": "),
            ("[[queue]]\nnames = \"a\"\n", ": [[queue]]: "),
            ("queue = 1", ": [[queue]]: "),
        ] {
            let said = read(text).err().unwrap();
            assert!(said.starts_with(why), "{text}: {said}");
        }
        // These are given on the command line alone.
        for hidden in ["config = \"a\"", "clock-file = \"a\"", "beside-node = true", "help = true"] {
            assert!(read(hidden).err().unwrap().ends_with(" is unknown"), "{hidden}");
        }
    }
}
