//! Times the library against the plain version and the second scheduler, in one run.

mod by_hand;
mod finder;
mod grid;
mod hotplug;
mod keep;
mod kernel;
mod leaving;
mod machines;
mod night;
mod ours;
mod over;
mod replays;
mod rng;
mod say;
mod second;
mod side;
mod table;
mod timing;
mod worst;

use keep::Keep;
use say::say;
use std::env;
use std::io;
use std::path::PathBuf;
use std::process::ExitCode;
use timing::{Effort, Run};

const HELP: &str = "\
bench [--quick | --once] [--only N,TASKS] [--case TEXT] [--keep FILE] [SECTION...]

Times the proved library against the same scheduler in plain Rust and against
the second scheduler, and prints tables with the time of one call and ratios.
The versions take turns, the shortest of many rounds counts, and getting the
tables ready is not timed. Before a row is timed, its versions are compared:
answers and all tables must be the same.

Sections, all if none is named:
  check   the check of all tables
  event   an event with its check, in a mix of events
  over    what the same events take over their checks
  inner   the same mix without the check, told that the machine is settled
  untold  the same, not told so
  worst   inner events that cost the most
  hotplug inner events that take a CPU offline or bring it back
  find    the finder, and its search alone against the kernel's
  replay  recordings of 65,535 events

  --quick         a few seconds, and less exact
  --once          each row once, for a tool that counts instructions
  --only N,TASKS  of check, event, over, inner, untold and replay the one row
  --case TEXT     of worst, hotplug and find the rows whose names begin so
  --keep FILE     show the shortest times of this run and of all earlier ones with
                  this file, and the ratios that single runs had. Each should be
                  a build with another BENCH_SEED: where the linker puts a short
                  loop changes its time
  --help          this text";

type Section = (&'static str, fn(&mut Run));

const SECTIONS: [Section; 9] = [
    ("check", grid::check),
    ("event", grid::event),
    ("over", grid::over),
    ("inner", grid::inner),
    ("untold", grid::untold),
    ("worst", worst::worst),
    ("hotplug", hotplug::hotplug),
    ("find", finder::find),
    ("replay", replays::replay),
];

/// What the command line asks for.
#[derive(Debug)]
struct Command {
    help: bool,
    effort: Effort,
    case: String,
    keep: Option<PathBuf>,
    sections: Vec<Section>,
}

fn command(args: impl Iterator<Item = String>) -> Result<Command, String> {
    let mut args = args;
    let mut only = None;
    let mut asked = Command {
        help: false,
        effort: Effort::FULL,
        case: String::new(),
        keep: None,
        sections: Vec::new(),
    };
    while let Some(arg) = args.next() {
        match arg.as_str() {
            "--help" => asked.help = true,
            "--quick" => asked.effort = Effort::QUICK,
            "--once" => asked.effort = Effort::ONCE,
            "--only" => only = Some(size(args.next())?),
            "--case" => asked.case = args.next().ok_or("--case: which?")?,
            "--keep" => asked.keep = Some(args.next().ok_or("--keep: which file?")?.into()),
            name => asked.sections.push(section(name)?),
        }
    }
    asked.effort.only = only;
    if asked.sections.is_empty() {
        asked.sections.extend(SECTIONS);
    }
    Ok(asked)
}

fn section(name: &str) -> Result<Section, String> {
    let found = SECTIONS.iter().find(|(known, _)| *known == name);
    found
        .copied()
        .ok_or_else(|| format!("no section or option '{name}'"))
}

/// N and TASKS of a row.
fn size(word: Option<String>) -> Result<(usize, usize), String> {
    let word = word.unwrap_or_default();
    word.split_once(',')
        .and_then(|(n, tasks)| Some((n.parse().ok()?, tasks.parse().ok()?)))
        .filter(|size| grid::has(*size) || replays::has(*size))
        .ok_or_else(|| format!("--only: no row '{word}'"))
}

fn run(asked: Command) -> io::Result<()> {
    if asked.help {
        say(HELP);
        return Ok(());
    }
    let mut run = Run {
        effort: asked.effort,
        case: asked.case,
        keep: Keep::open(asked.keep)?,
    };
    for (_, section) in asked.sections {
        section(&mut run);
    }
    run.keep.save()
}

fn main() -> ExitCode {
    let ended = command(env::args().skip(1)).map(run);
    let message = match ended {
        Ok(Ok(())) => return ExitCode::SUCCESS,
        Ok(Err(error)) => format!("--keep: {error}"),
        Err(message) => format!("{message}; 'bench --help' says more"),
    };
    eprintln!("bench: {message}");
    ExitCode::from(2)
}
