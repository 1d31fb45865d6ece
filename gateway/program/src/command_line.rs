//! The command `hobbychair`.

use std::ffi::OsString;
use std::future::Future;
use std::io::{self, Write};
use std::os::unix::fs::PermissionsExt;
use std::path::{Path, PathBuf};

use anyhow::{anyhow, Context, Result};
use clap::error::{ContextKind, ContextValue, ErrorKind};
use clap::{ArgMatches, Args, CommandFactory, FromArgMatches, Parser, Subcommand};
use clap_complete::Shell;
use hobbychair_bytes::characters::escaped;
use hobbychair_cluster::command_line as cluster;
use hobbychair_tools::draw::{draw, Drawing};
use hobbychair_tools::misuse::Misuse;
use hobbychair_tools::shell::{self, Shell as ChainShell};
use hobbychair_tools::{answers, history, inspect};

use crate::config::{GatewayOptions, LogFormat, LogLevel, LogSettings};
use crate::front::{self, FrontOptions};
use crate::log;
use crate::options_file::{option_of, OptionsFile};
use crate::serve::{self, serve};

/// The variable that names the program cq.
const PROGRAM: &str = "HOBBYCHAIR_CQ";

/// The variable that names the cluster of a front.
const CLUSTER: &str = "HOBBYCHAIR_CLUSTER";

/// The commands that serve clients. Their options may come from a file.
const SERVE: &str = "serve";
const FRONT: &str = "front";

/// The protocol of Amazon SQS in front of cq, which keeps the queues.
#[derive(Parser)]
#[command(name = "hobbychair", version, arg_required_else_help = true)]
struct CommandLine {
    #[command(subcommand)]
    command: Command,
}

#[derive(Subcommand)]
enum Command {
    /// Serve clients of SQS
    #[command(
        override_usage = "hobbychair serve [OPTIONS]",
        after_help = "The file of --config may have [[queue]] entries, too: queues to create at the start."
    )]
    Serve(Box<GatewayOptions>),
    /// Pass the requests of clients on to the gateway of a cluster that acts
    #[command(override_usage = "hobbychair front --cluster <NAME> --etcd <URL,..> [OPTIONS]")]
    Front(Box<FrontOptions>),
    /// Write the store that a journal has, in chunks
    Dump {
        /// Write instead what the store was asked and answered, as a history for check
        #[arg(long)]
        answers: bool,
        #[command(flatten)]
        journal: Journal,
    },
    /// Say what a journal or a copy of one holds, and where it is damaged
    Verify(Journal),
    /// Copy a journal, also one of a gateway that runs
    Backup {
        #[command(flatten)]
        journal: Journal,
        /// The copy, named in the same way
        copy: PathBuf,
    },
    /// Say whether the rules allow a recorded history of requests and answers, of any service of FIFO queues
    Check {
        /// The history, a line of JSON for each request [default: standard input]
        file: Option<PathBuf>,
    },
    /// Draw a run of a script: who sends which message to whom, and when it is taken
    Draw(Drawing),
    /// Try a chain with words: queues, crashes, joins, message by message
    Shell(ChainShell),
    /// Run a server of a chain on several machines
    Node(Box<cluster::NodeOptions>),
    /// Run a candidate for the master of such a chain
    Master(cluster::MasterOptions),
    /// Make, look at or try a chain on several machines
    #[command(subcommand)]
    Cluster(cluster::ClusterCommand),
    /// Write the completions of this command line for a shell
    Completions {
        /// The shell
        shell: Shell,
    },
}

#[derive(Args)]
struct Journal {
    /// The journal, as serve is given it
    file: PathBuf,
    /// The program cq [default: cq of the path]
    #[arg(long, value_name = "PROGRAM", env = PROGRAM)]
    cq: Option<String>,
}

/// Does what the command line says, and tells the exit status: 0, 1 if it couldn't begin or go on, or 2 if what it was
/// told is at fault.
pub fn main() -> i32 {
    forget_empty_variables();
    match read(std::env::args_os().collect()).and_then(|command_line| run(command_line.command)) {
        Ok(()) => {
            log::end(None);
            0
        }
        Err(error) => {
            if let Some(error) = error.downcast_ref::<clap::Error>() {
                error.exit();
            }
            let is_broken_pipe = error.downcast_ref::<io::Error>().map(io::Error::kind);
            let said = escaped(&format!("hobbychair: {error:#}"));
            log::end((is_broken_pipe != Some(io::ErrorKind::BrokenPipe)).then_some(&said));
            if error.is::<Misuse>() {
                2
            } else {
                1
            }
        }
    }
}

/// A variable that is empty says nothing: so a container can be told less than its image says.
fn forget_empty_variables() {
    let is_ours = |name: &str| name.starts_with("HOBBYCHAIR_");
    let empty = std::env::vars_os().filter(|(name, value)| value.is_empty() && name.to_str().is_some_and(is_ours));
    empty.for_each(|(name, _)| std::env::remove_var(name));
}

/// What the words of this process say, and behind them those of the file that they or a variable name.
fn read(mut words: Vec<OsString>) -> Result<CommandLine> {
    let given = matches(&words)?;
    let mut queues = Vec::new();
    if let Some((command, given)) = given.subcommand().filter(|(command, _)| [SERVE, FRONT].contains(command)) {
        // The file may be a pipe that nobody writes to.
        serve::ignore_hangups();
        if let Some(path) = given.get_one::<PathBuf>("config") {
            let file = read_file(path, command)?;
            // They stand behind the command's name.
            words.splice(2..2, file.words(given).map(OsString::from));
            queues = file.queues;
        }
    }
    let mut command_line = CommandLine::from_arg_matches(&matches(&words)?)?;
    if let Command::Serve(options) = &mut command_line.command {
        options.queues = queues;
    }
    Ok(command_line)
}

fn matches(words: &[OsString]) -> Result<ArgMatches> {
    CommandLine::command().try_get_matches_from(words).map_err(|error| explained(error, words))
}

fn read_file(path: &Path, command: &str) -> Result<OptionsFile> {
    let commands = CommandLine::command();
    let own = commands.find_subcommand(command).context("there is no such command")?;
    let unknown =
        |name: &str| of_the_other(command, name).unwrap_or_else(|| format!("{name} is no option of {command}"));
    let file = OptionsFile::read(path, own, unknown)?;
    if command == FRONT && !file.queues.is_empty() {
        return Err(Misuse(format!("{}: [[queue]] {NOT_OF_FRONT}", path.display())).into());
    }
    Ok(file)
}

const NOT_OF_FRONT: &str =
    "is nothing that a front is told: it is for `hobbychair serve`, and for the gateways beside \
                            nodes (--gateway-config)";
const NOT_OF_GATEWAY: &str =
    "is nothing that a gateway is told: it is for a front of a cluster. Use `hobbychair front`";

/// What is said of an option that only the other one of the two commands has.
fn of_the_other(command: &str, option: &str) -> Option<String> {
    let (other, why) = match command {
        SERVE => (FRONT, NOT_OF_GATEWAY),
        FRONT => (SERVE, NOT_OF_FRONT),
        _ => return None,
    };
    let commands = CommandLine::command();
    option_of(commands.find_subcommand(other)?, option.trim_start_matches("--"))?;
    Some(format!("{option} {why}"))
}

/// The error, or what is to be said instead.
fn explained(error: clap::Error, words: &[OsString]) -> anyhow::Error {
    let option = error.context().find_map(|(kind, value)| match (kind, value) {
        (ContextKind::InvalidArg, ContextValue::String(option)) => Some(option),
        _ => None,
    });
    let command = words.get(1).and_then(|word| word.to_str());
    let said = match (error.kind(), command, option) {
        (ErrorKind::UnknownArgument, Some(command), Some(option)) => of_the_other(command, option),
        _ => None,
    };
    said.map_or_else(|| error.into(), |said| Misuse(said).into())
}

fn run(command: Command) -> Result<()> {
    let mut out = io::BufWriter::new(io::stdout());
    match command {
        Command::Serve(options) => serve_by(*options)?,
        Command::Front(options) => {
            begin_log(options.common.log())?;
            serve_on(options.common.threads()?, front::serve(options.settings()?))?;
        }
        Command::Dump { answers: true, journal: Journal { file, cq } } => {
            answers::dump(&program(cq)?, &file, &mut out)?
        }
        Command::Dump { journal: Journal { file, cq }, .. } => inspect::dump(&program(cq)?, &file, &mut out)?,
        Command::Verify(Journal { file, cq }) => inspect::verify(&program(cq)?, &file, &mut out)?,
        Command::Backup { journal: Journal { file, cq }, copy } => {
            inspect::back_up(&program(cq)?, &file, &copy, &mut out)?;
        }
        Command::Check { file } => {
            let told = match file {
                Some(file) => {
                    let input = std::fs::File::open(&file).with_context(|| file.display().to_string())?;
                    history::check(io::BufReader::new(input), &mut out)?
                }
                None => history::check(io::stdin().lock(), &mut out)?,
            };
            out.flush()?;
            anyhow::ensure!(!told.is_refuted, "the rules don't allow this history");
        }
        Command::Draw(asked) => draw(&program(asked.cq.clone())?, &asked, io::stdin().lock(), &mut out)?,
        Command::Shell(asked) => shell::run(&program(asked.cq.clone())?, &asked)?,
        Command::Node(node) => {
            begin_log(plain_log())?;
            let program = program(node.cq.clone())?;
            cluster::run_node(*node, program)?;
        }
        Command::Master(master) => {
            begin_log(plain_log())?;
            cluster::run_master(&master, &program(master.cq.clone())?)?;
        }
        Command::Cluster(asked) => {
            begin_log(plain_log())?;
            let program = asked.cq().map(program).transpose()?;
            cluster::run_cluster(asked, program)?;
        }
        Command::Completions { shell } => {
            clap_complete::generate(shell, &mut CommandLine::command(), "hobbychair", &mut out);
        }
    }
    Ok(out.flush()?)
}

fn serve_by(options: GatewayOptions) -> Result<()> {
    // One that is told so wanted a front, and no store of its own.
    if !options.beside_node && std::env::var_os(CLUSTER).is_some() {
        return Err(Misuse(format!("{CLUSTER} {NOT_OF_GATEWAY}")).into());
    }
    begin_log(options.common.log())?;
    serve_on(options.common.threads()?, serve(options.settings(program)?))
}

/// Serves on so many threads until that ends.
fn serve_on(threads: usize, serving: impl Future<Output = Result<()>>) -> Result<()> {
    let runtime = tokio::runtime::Builder::new_multi_thread().worker_threads(threads).enable_all().build()?;
    let served = runtime.block_on(serving);
    // What still waits for a client or a disk is of no use any more.
    runtime.shutdown_background();
    served
}

/// The log goes to standard error.
fn begin_log(how: LogSettings) -> Result<()> {
    let level = match how.level {
        LogLevel::Error => tracing::Level::ERROR,
        LogLevel::Warn => tracing::Level::WARN,
        LogLevel::Info => tracing::Level::INFO,
        LogLevel::Debug => tracing::Level::DEBUG,
    };
    let lines = tracing_subscriber::fmt().with_writer(log::begin()?).with_ansi(false).with_max_level(level);
    match how.format {
        LogFormat::Text => lines.with_target(false).init(),
        LogFormat::Json => lines.json().flatten_event(true).with_target(false).init(),
    }
    Ok(())
}

fn plain_log() -> LogSettings {
    LogSettings { level: LogLevel::Info, format: LogFormat::Text }
}

fn program(given: Option<String>) -> Result<String> {
    let named = given.filter(|named| !named.is_empty());
    let path = std::env::var_os("PATH").unwrap_or_default();
    let on_path =
        |name: &str| std::env::split_paths(&path).map(|folder| folder.join(name)).find(|file| is_program(file));
    match named {
        Some(named) if named.contains('/') => {
            is_program(Path::new(&named)).then(|| named.clone()).ok_or_else(|| no_program(&named))
        }
        Some(named) => match on_path(&named) {
            Some(file) => Ok(file.to_string_lossy().into_owned()),
            None => Err(no_program(&named)),
        },
        None => match on_path("cq") {
            Some(file) => Ok(file.to_string_lossy().into_owned()),
            None => Err(anyhow!("there is no cq: give it by --cq or {PROGRAM}, or put it on the path")),
        },
    }
}

fn no_program(named: &str) -> anyhow::Error {
    anyhow!("{named} is no program: ./cq --build at the top of the repository builds cq")
}

fn is_program(file: &Path) -> bool {
    let metadata = std::fs::metadata(file);
    metadata.is_ok_and(|metadata| metadata.is_file() && metadata.permissions().mode() & 0o111 != 0)
}
