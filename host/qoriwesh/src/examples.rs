//! `qoriwesh examples`: runs the marked examples and compares each with what document 01 says.

use crate::marked::{Example, Fact, Part, EXAMPLES};
use crate::parse::parse_after;
use crate::render;
use crate::show::{Failure, Show, Step};
use binding::Tables;
use std::io::{self, Write};

/// The examples of these names (all, if there are none), in document 01's order; or a name that is none.
fn chosen(names: &[String]) -> Result<Vec<&'static Example>, String> {
    let same = |name: &String, example: &Example| name.eq_ignore_ascii_case(example.name);
    for name in names {
        if !EXAMPLES.iter().any(|example| same(name, example)) {
            return Err(format!("no marked example '{name}': they are K1 to K12"));
        }
    }
    let asked = |example: &&Example| names.is_empty() || names.iter().any(|n| same(n, example));
    Ok(EXAMPLES.iter().filter(asked).collect())
}

/// Examples that were asked for.
pub struct Chosen(Vec<&'static Example>);

impl Chosen {
    pub fn new(names: &[String]) -> Result<Chosen, String> {
        chosen(names).map(Chosen)
    }

    /// Shows them. Whether document 01 and the library agree on all.
    pub fn show(&self, out: &mut dyn Write) -> Result<bool, Failure> {
        let mut differ = Vec::new();
        for example in &self.0 {
            if !show(out, EXAMPLES, example)? {
                differ.push(example.name);
            }
            writeln!(out)?;
        }
        let count = match self.0.len() {
            1 => "1 example".to_string(),
            many => format!("{many} examples"),
        };
        if differ.is_empty() {
            writeln!(out, "{count}: as document 01 says")?;
        } else {
            writeln!(
                out,
                "{count}: {} not as document 01 says",
                differ.join(", ")
            )?;
        }
        Ok(differ.is_empty())
    }
}

/// Shows one of all examples from its title on. Whether it agrees, with what it goes on from.
fn show(out: &mut dyn Write, all: &[Example], example: &Example) -> Result<bool, Failure> {
    writeln!(out, "{}: {}", example.name, example.title)?;
    let Some(base) = example.after else {
        return parts(&mut Show::new(out), example);
    };
    let (tables, agrees) = quietly(all, base)?;
    let differs = if agrees { "" } else { ", which DIFFERS" };
    writeln!(out, "      after {base}{differs}:")?;
    Ok(parts(&mut Show::resume(out, tables)?, example)? && agrees)
}

/// The machine that another example ends with, and whether that one agrees.
fn quietly(all: &[Example], name: &str) -> Result<(Tables, bool), Failure> {
    let example = all.iter().find(|example| example.name == name);
    let example = example.ok_or_else(|| Failure::Defect(format!("no example {name}")))?;
    let mut sink = io::sink();
    let mut agrees = true;
    let mut show = match example.after {
        None => Show::new(&mut sink),
        Some(base) => {
            let (tables, base_agrees) = quietly(all, base)?;
            agrees = base_agrees;
            Show::resume(&mut sink, tables)?
        }
    };
    agrees &= parts(&mut show, example)?;
    Ok((show.tables, agrees))
}

/// Runs the parts and compares after each.
fn parts(show: &mut Show, example: &Example) -> Result<bool, Failure> {
    let mut agrees = true;
    let mut number = 0;
    let mut last = Step::default();
    for (index, Part(text, facts)) in example.parts.iter().enumerate() {
        let machine = index > 0 || example.after.is_some();
        let lines = parse_after(text.as_bytes(), machine)
            .map_err(|problems| Failure::Defect(format!("{}: {problems:?}", example.name)))?;
        for line in lines {
            number += 1;
            last = show.action(number, line.action)?;
        }
        agrees &= compare(show, facts, &last)?;
    }
    Ok(agrees)
}

/// Says what document 01 says, and whether it is so.
fn compare(show: &mut Show, facts: &[Fact], last: &Step) -> Result<bool, Failure> {
    let expected = |fact: &Fact| render::tied(&fact.expected());
    let all: Vec<String> = facts.iter().map(expected).collect();
    let mut differ = Vec::new();
    for fact in facts {
        let (expected, found) = (fact.expected(), fact.found(&show.tables, last));
        if expected != found {
            differ.push(format!("DIFFERS: {found} instead of {expected}"));
        }
    }
    let so = if differ.is_empty() { "as " } else { "" };
    show.line(&format!("{so}document 01 says: {}", all.join("; ")))?;
    for line in &differ {
        show.line(line)?;
    }
    Ok(differ.is_empty())
}

#[cfg(test)]
mod tests {
    use super::*;
    use crate::marked::Fact::*;

    fn told(example: &Example) -> (String, bool) {
        let mut out = Vec::new();
        let agrees = show(&mut out, EXAMPLES, example).unwrap();
        (String::from_utf8(out).unwrap(), agrees)
    }

    #[test]
    fn every_marked_example_agrees() {
        let names: Vec<&str> = EXAMPLES.iter().map(|example| example.name).collect();
        let expected: Vec<String> = (1..=12).map(|k| format!("K{k}")).collect();
        assert_eq!(names, expected);
        for example in EXAMPLES {
            let (text, agrees) = told(example);
            assert!(agrees, "{text}");
            assert!(text.contains("as document 01 says: "), "{text}");
        }
    }

    /// Each kind of value, given wrongly, is seen.
    #[test]
    fn a_value_that_differs_is_told() {
        let wrong: [&'static [Fact]; 9] = [
            &[Moves(1)],
            &[Log(&[[0, 0, 1, 0]])],
            &[Moved { task: 0, to: 1 }],
            &[Rows(&[&[1]])],
            &[Counts(&[2])],
            &[Levels(&[51])],
            &[CpuOfTasks(&[0, 1])],
            &[Slice { task: 0, ticks: 99 }],
            &[Idle { cpu: 0 }],
        ];
        for facts in wrong {
            assert!(!differing(facts).1);
        }
        let (text, agrees) = differing(&[Answer(5)]);
        assert!(!agrees);
        assert!(
            text.contains("DIFFERS: accepted instead of refused (5)"),
            "{text}"
        );
        assert!(!text.contains("as document 01"), "{text}");
    }

    /// The level in a log entry, if nothing else is wrong. K2 has 0.
    #[test]
    fn a_level_that_differs_is_told() {
        let parts = EXAMPLES[1].parts;
        let (text, agrees) = part(Part(parts[0].0, &[Log(&[[1, 0, 1, 1]])]));
        assert!(!agrees);
        assert!(
            text.contains("DIFFERS: log (1,0,1,0) instead of log (1,0,1,1)"),
            "{text}"
        );
    }

    fn differing(facts: &'static [Fact]) -> (String, bool) {
        part(Part("cpus 1\nadd 0 fifo 50 0\nwake 0", facts))
    }

    fn part(part: Part) -> (String, bool) {
        told(&Example {
            name: "K1",
            title: "wrong",
            after: None,
            parts: Box::leak(Box::new([part])),
        })
    }

    /// C goes on from B, which is right, and B from A, which is not.
    #[test]
    fn what_goes_on_from_one_that_differs_differs() {
        let example = |name, after, parts| Example {
            name,
            title: "",
            after,
            parts,
        };
        let all = [
            example("A", None, &[Part("cpus 1\nadd 0 fifo 5 0", &[Answer(5)])]),
            example("B", Some("A"), &[Part("wake 0", &[Answer(0)])]),
            example("C", Some("B"), &[Part("sleep 0", &[Answer(0)])]),
        ];
        for last in &all {
            let mut out = Vec::new();
            assert!(!show(&mut out, &all, last).unwrap());
            let text = String::from_utf8(out).unwrap();
            assert!(text.contains("DIFFERS"), "{text}");
        }
    }

    #[test]
    fn names_are_chosen_in_any_case_and_unknown_ones_told() {
        let names =
            |names: &[&str]| -> Vec<String> { names.iter().map(|n| n.to_string()).collect() };
        let found = chosen(&names(&["k5", "K2"])).unwrap();
        let found: Vec<&str> = found.iter().map(|example| example.name).collect();
        assert_eq!(found, ["K2", "K5"]);
        assert_eq!(chosen(&[]).unwrap().len(), 12);
        assert!(chosen(&names(&["K13"])).is_err());
    }
}
