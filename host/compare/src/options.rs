//! The words of the command line.

use reference::Mutant;

pub const HELP: &str = "\
usage: compare [options] [random|damaged|exhaustive|replay|vectors|mutants|all]

Compares the library with an independent second scheduler. Without a mode: all.
An event on tables that pass the check is compared once more without the check,
and if the machine is settled a third time, told so.

  --seed S      the seed of random, damaged and replay (1)
  --calls N     calls in each of random and damaged (1000000 and 300000; quick 100000 and 60000),
                and at most in each search of exhaustive (no limit)
  --recordings N  random recordings in replay (20000; quick 500)
  --quick       the shorter run
  --step K      of damaged's single numbers, event numbers and machines with all full slices and online
                masks, and of replay's cuts, slices, stamps and changed bytes, one in K (1: all); all
                lengths; the longest recordings with 1 alone
  --case K      this case of random, damaged or replay alone
  --mutant M    with the error M in the second scheduler: a difference is expected
  --help        this

Ends with 0 if all agree, 1 if something differs, 2 if these words are not understood.";

pub struct Options {
    pub seed: u64,
    pub calls: Option<u64>,
    pub recordings: Option<u64>,
    pub quick: bool,
    pub step: usize,
    pub case: Option<u64>,
    pub mutant: Mutant,
    pub mode: String,
}

/// The options, none if help is asked for, or what is wrong.
pub fn parse(mut words: impl Iterator<Item = String>) -> Result<Option<Options>, String> {
    let mut options = Options {
        seed: 1,
        calls: None,
        recordings: None,
        quick: false,
        step: 1,
        case: None,
        mutant: Mutant::None,
        mode: String::from("all"),
    };
    while let Some(word) = words.next() {
        let mut value = || words.next().ok_or(format!("{word} needs a value"));
        match word.as_str() {
            "--help" | "-h" => return Ok(None),
            "--quick" => options.quick = true,
            "--seed" => options.seed = number(&value()?)?,
            "--calls" => options.calls = Some(number(&value()?)?),
            "--recordings" => options.recordings = Some(number(&value()?)?),
            "--step" => options.step = step(&value()?)?,
            "--case" => options.case = Some(number(&value()?)?),
            "--mutant" => options.mutant = mutant(&value()?)?,
            "random" | "damaged" | "exhaustive" | "replay" | "vectors" | "mutants" | "all" => {
                options.mode = word
            }
            _ => return Err(format!("what is {word}?")),
        }
    }
    let has_cases = matches!(options.mode.as_str(), "random" | "damaged" | "replay");
    match options.case.is_some() && !has_cases {
        true => Err(String::from("--case goes with random, damaged or replay")),
        false => Ok(Some(options)),
    }
}

fn number(word: &str) -> Result<u64, String> {
    word.parse().map_err(|_| format!("{word} is no number"))
}

fn step(word: &str) -> Result<usize, String> {
    match word.parse() {
        Ok(step) if step > 0 => Ok(step),
        _ => Err(format!("{word} is no step")),
    }
}

fn mutant(name: &str) -> Result<Mutant, String> {
    let found = Mutant::ALL.iter().find(|m| format!("{m:?}") == name);
    found.copied().ok_or(format!("no mutant {name}"))
}
