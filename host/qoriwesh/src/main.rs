//! The command line: which command, and how it ends.

mod cpulist;
mod cycle;
mod evacuation;
mod examples;
mod explain;
mod find;
mod help;
mod input;
mod log;
mod marked;
mod night;
mod parse;
mod progress;
mod record;
mod recording;
mod render;
mod script;
mod show;
mod stdout;
mod text;
mod words;

use find::Question;
use input::Input;
use parse::wrong_form;
use recording::{End, Recording};
use show::Failure;
use std::env;
use std::ffi::{OsStr, OsString};
use std::io::{self, BufWriter, ErrorKind, Write};
use std::process::ExitCode;

/// What the command line asks for.
#[derive(Debug, PartialEq, Eq)]
enum Command {
    Say(String),
    Examples(Vec<String>),
    Explain(Input),
    Find(Input, Question),
    Replay(Vec<Input>),
    Record(Input),
    Text(Input),
}

/// How a command ends: its exit status. The larger the worse.
#[derive(Clone, Copy, Debug, PartialEq, Eq, PartialOrd, Ord)]
enum Status {
    Well = 0,
    /// It has told what is not.
    Told = 1,
    Wrong = 2,
}

impl Status {
    fn of(well: bool) -> Status {
        match well {
            true => Status::Well,
            false => Status::Told,
        }
    }
}

fn main() -> ExitCode {
    let args: Vec<OsString> = env::args_os().skip(1).collect();
    match command(&args) {
        Ok(command) => run(command),
        Err(message) => error(&format!("{message}; 'qoriwesh --help' says more")),
    }
}

/// Runs a command. What it reads, of several files each, is read whole before anything is shown.
fn run(command: Command) -> ExitCode {
    match command {
        Command::Say(text) => finish(|out| Ok(write!(out, "{text}").map(|()| Status::Well)?)),
        Command::Examples(names) => match examples::Chosen::new(&names) {
            Ok(chosen) => finish(|out| chosen.show(out).map(Status::of)),
            Err(message) => error(&message),
        },
        Command::Explain(input) => match explain::read(&input) {
            Ok(lines) => finish(|out| explain::show(out, &lines).map(Status::of)),
            Err(message) => error(&message),
        },
        Command::Find(input, question) => match find::Asked::read(&input, question) {
            Ok(asked) => finish(|out| asked.show(out).map(Status::of)),
            Err(message) => error(&message),
        },
        Command::Replay(inputs) => finish(|out| night::show(out, &inputs)),
        Command::Record(input) => match record::read(&input) {
            Ok(bytes) => finish(|out| Ok(out.write_all(&bytes).map(|()| Status::Well)?)),
            Err(message) => error(&message),
        },
        Command::Text(input) => match text::read(&input) {
            Ok(recording) => finish(|out| as_text(out, &input.name(), &recording)),
            Err(message) => error(&message),
        },
    }
}

/// Writes a recording as a text, and says how it ends if it is not whole.
fn as_text(out: &mut dyn Write, name: &str, recording: &Recording) -> Result<Status, Failure> {
    text::write(out, recording)?;
    out.flush()?;
    let whole = recording.end == End::Whole;
    if !whole {
        complain(&format!("{name}: {}", recording.ended()));
    }
    Ok(Status::of(whole))
}

/// Writes to standard output through a buffer. If the reader goes away, as `head` does, the rest is left unsaid, and all is
/// well.
fn finish(show: impl FnOnce(&mut dyn Write) -> Result<Status, Failure>) -> ExitCode {
    match written(show) {
        Ok(status) => ExitCode::from(status as u8),
        Err(Failure::Output(broken)) if broken.kind() == ErrorKind::BrokenPipe => ExitCode::SUCCESS,
        Err(Failure::Output(failed)) => error(&format!("standard output: {failed}")),
        Err(Failure::Defect(what)) => error(&format!(
            "defect: {what}; what is shown above was compared, no more events were run"
        )),
    }
}

fn written(
    show: impl FnOnce(&mut dyn Write) -> Result<Status, Failure>,
) -> Result<Status, Failure> {
    stdout::open()?;
    let mut out = BufWriter::new(io::stdout().lock());
    let status = show(&mut out);
    let flushed = out.flush().map_err(Failure::Output);
    status.and_then(|status| flushed.map(|()| status))
}

/// Says each line of the message with the program's name.
fn complain(message: &str) {
    let mut stderr = io::stderr().lock();
    for line in message.lines() {
        let _ = writeln!(stderr, "qoriwesh: {line}");
    }
}

/// Says the message, and ends with 2.
fn error(message: &str) -> ExitCode {
    complain(message);
    ExitCode::from(Status::Wrong as u8)
}

fn command(args: &[OsString]) -> Result<Command, String> {
    let Some((first, rest)) = args.split_first() else {
        return Err(
            "expected a command: examples, explain, find, replay, record, text or help".to_string(),
        );
    };
    match first.to_str() {
        Some("-h" | "--help") => Ok(say(help::MAIN)),
        Some("-V" | "--version") => Ok(Command::Say(version())),
        Some("help") => help_on(rest),
        Some("examples") => examples_command(rest),
        Some("explain") => Ok(one_input(rest)?.map_or(say(help::EXPLAIN), Command::Explain)),
        Some("find") => find_command(rest),
        Some("replay") => replay_command(rest),
        Some("record") => Ok(one_input(rest)?.map_or(say(help::RECORD), Command::Record)),
        Some("text") => Ok(one_input(rest)?.map_or(say(help::TEXT), Command::Text)),
        _ if is_option(first) => Err(unknown_option(first)),
        _ => Err(format!("unknown command '{}'", first.to_string_lossy())),
    }
}

fn version() -> String {
    format!("qoriwesh {}\n", env!("CARGO_PKG_VERSION"))
}

fn help_on(rest: &[OsString]) -> Result<Command, String> {
    let text = match rest {
        [] => help::MAIN,
        [command] => match command.to_str() {
            Some("examples") => help::EXAMPLES,
            Some("explain") => help::EXPLAIN,
            Some("find") => help::FIND,
            Some("replay") => help::REPLAY,
            Some("record") => help::RECORD,
            Some("text") => help::TEXT,
            _ => return Err(format!("no help on '{}'", command.to_string_lossy())),
        },
        _ => return Err("expected one command to help with".to_string()),
    };
    Ok(say(text))
}

fn say(text: &str) -> Command {
    Command::Say(text.to_string())
}

/// Splits off the options: `--help` asks for help, `--` ends them, and there is no other.
fn operands(rest: &[OsString]) -> Result<Option<Vec<&OsString>>, String> {
    let mut operands = Vec::new();
    let mut ended = false;
    for word in rest {
        if !ended && word == "--" {
            ended = true;
        } else if !ended && (word == "-h" || word == "--help") {
            return Ok(None);
        } else if !ended && is_option(word) {
            return Err(unknown_option(word));
        } else {
            operands.push(word);
        }
    }
    Ok(Some(operands))
}

fn examples_command(rest: &[OsString]) -> Result<Command, String> {
    let Some(names) = operands(rest)? else {
        return Ok(say(help::EXAMPLES));
    };
    let name = |name: &&OsString| name.to_string_lossy().into_owned();
    Ok(Command::Examples(names.iter().map(name).collect()))
}

/// A file or none, then the level and the CPUs.
fn find_command(rest: &[OsString]) -> Result<Command, String> {
    let Some(words) = operands(rest)? else {
        return Ok(say(help::FIND));
    };
    let (file, level, cpus) = match words[..] {
        [level, cpus] => (None, level, cpus),
        [file, level, cpus] => (Some(file.clone()), level, cpus),
        _ => return Err(wrong_form("find [FILE] LEVEL CPUS", &words)),
    };
    let question = Question::read(&level.to_string_lossy(), &cpus.to_string_lossy())?;
    Ok(Command::Find(Input::of(file), question))
}

fn replay_command(rest: &[OsString]) -> Result<Command, String> {
    let Some(files) = operands(rest)? else {
        return Ok(say(help::REPLAY));
    };
    let mut inputs: Vec<Input> = files
        .into_iter()
        .map(|file| Input::of(Some(file.clone())))
        .collect();
    if inputs.is_empty() {
        inputs.push(Input::of(None));
    }
    Ok(Command::Replay(inputs))
}

/// The one file that a command reads, or standard input; none, if help is asked for.
fn one_input(rest: &[OsString]) -> Result<Option<Input>, String> {
    match operands(rest)?.as_deref() {
        None => Ok(None),
        Some([]) => Ok(Some(Input::of(None))),
        Some([file]) => Ok(Some(Input::of(Some((*file).clone())))),
        Some(files) => Err(format!("expected one file, found {}", files.len())),
    }
}

fn is_option(word: &OsStr) -> bool {
    let bytes = word.as_encoded_bytes();
    bytes.len() > 1 && bytes[0] == b'-'
}

fn unknown_option(word: &OsStr) -> String {
    format!("unknown option '{}'", word.to_string_lossy())
}
