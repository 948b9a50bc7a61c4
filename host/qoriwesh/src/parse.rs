//! The text of events that `explain`, `find` and `record` read: one command a line.
//!
//! A number that the library can be asked with is passed on, in range or not: refusing is the library's. A
//! line is wrong only if it gives no event at all.

use crate::cpulist;
use binding::Event;

/// The most ticks that one line may ask for.
pub const MOST_TICKS: u32 = 10_000;

/// What some editors put before a text in UTF-8.
const BYTE_ORDER_MARK: &[u8] = b"\xef\xbb\xbf";

/// What a line asks for.
#[derive(Clone, Copy, Debug, PartialEq, Eq)]
pub enum Action {
    /// A fresh machine of so many CPUs, and the ticks of its full slice, if they are given; `named`: a recording names them,
    /// even if they are 100.
    Machine {
        cpus: usize,
        slice: Option<u32>,
        named: bool,
    },
    /// The same event, so many times, and its time in microseconds, if that is given.
    Event {
        stamp: Option<u32>,
        event: Event,
        times: u32,
    },
}

/// A line that asks for something, with its number from 1.
#[derive(Clone, Copy, Debug, PartialEq, Eq)]
pub struct Line {
    pub number: usize,
    pub action: Action,
}

/// A line that cannot be read, and why.
#[derive(Clone, Debug, PartialEq, Eq)]
pub struct Problem {
    pub line: usize,
    pub message: String,
}

const COMMANDS: &str =
    "cpus, add, remove, wake, sleep, prio, affinity, tick, yield, ordinary, offline, online or event";

/// All lines, or every line that cannot be read. A byte order mark may stand before the first.
pub fn parse(text: &[u8]) -> Result<Vec<Line>, Vec<Problem>> {
    parse_after(text.strip_prefix(BYTE_ORDER_MARK).unwrap_or(text), false)
}

/// The same; `machine`: there is a machine already, so that the text need not begin with `cpus`.
pub fn parse_after(text: &[u8], mut machine: bool) -> Result<Vec<Line>, Vec<Problem>> {
    let mut lines = Vec::new();
    let mut problems = Vec::new();
    for (index, bytes) in text.split(|&byte| byte == b'\n').enumerate() {
        let number = index + 1;
        match read_line(bytes, machine) {
            Ok(None) => {}
            Ok(Some(action)) => lines.push(Line { number, action }),
            Err(message) => problems.push(Problem {
                line: number,
                message,
            }),
        }
        // Also after a wrong `cpus` line, so that the lines below are not told for its sake.
        machine = machine || bytes.trim_ascii_start().starts_with(b"cpus");
    }
    if problems.is_empty() {
        Ok(lines)
    } else {
        Err(problems)
    }
}

/// One line: nothing, if it is blank or a comment. `machine`: a `cpus` line stands above it.
fn read_line(bytes: &[u8], machine: bool) -> Result<Option<Action>, String> {
    let text = std::str::from_utf8(bytes).map_err(|_| "expected text in UTF-8".to_string())?;
    let text = text.split('#').next().unwrap_or("");
    let words: Vec<&str> = text.split_whitespace().collect();
    let (stamp, words) = read_stamp(&words)?;
    let Some((command, rest)) = words.split_first() else {
        return Ok(None);
    };
    let action = read_action(stamp, command, rest)?;
    if !machine && !matches!(action, Action::Machine { .. }) {
        return Err(format!(
            "expected 'cpus N' before the first event, found {}",
            quoted(command)
        ));
    }
    Ok(Some(action))
}

/// The stamp before an event, if there is one, and the words behind it.
fn read_stamp<'a, 'b>(words: &'b [&'a str]) -> Result<(Option<u32>, &'b [&'a str]), String> {
    let Some(digits) = words.first().and_then(|word| word.strip_prefix('@')) else {
        return Ok((None, words));
    };
    let stamp: u32 = number(digits, "microseconds after '@'")?;
    let found = match words.get(1) {
        None => "nothing".to_string(),
        Some(&"cpus") => quoted("cpus"),
        Some(_) => return Ok((Some(stamp), &words[1..])),
    };
    let stamp = quoted(words[0]);
    Err(format!("expected an event after {stamp}, found {found}"))
}

fn read_action(stamp: Option<u32>, command: &str, rest: &[&str]) -> Result<Action, String> {
    let (event, times) = match command {
        "cpus" => return read_machine(rest),
        "tick" => read_tick(rest)?,
        _ => (read_event(command, rest)?, 1),
    };
    Ok(Action::Event {
        stamp,
        event,
        times,
    })
}

fn read_machine(rest: &[&str]) -> Result<Action, String> {
    let (cpus, ticks, named) = match *rest {
        [cpus] => (cpus, None, false),
        [cpus, "slice", ticks] => (cpus, Some(ticks), false),
        [cpus, "slice", ticks, "named"] => (cpus, Some(ticks), true),
        [_, "slice", _, word] => return Err(format!("expected 'named', found {}", quoted(word))),
        [_, word, _] => return Err(format!("expected 'slice', found {}", quoted(word))),
        _ => return Err(wrong_form("cpus N [slice TICKS [named]]", rest)),
    };
    let cpus = number(cpus, "a number of CPUs")?;
    let ticks = ticks.map(|ticks| number(ticks, "a number of ticks"));
    Ok(Action::Machine {
        cpus,
        slice: ticks.transpose()?,
        named,
    })
}

fn read_tick(rest: &[&str]) -> Result<(Event, u32), String> {
    let (cpu, times) = match *rest {
        [cpu] => (cpu, 1),
        [cpu, times] => (cpu, number(times, "how many ticks")?),
        _ => return Err(wrong_form("tick CPU [TIMES]", rest)),
    };
    if !(1..=MOST_TICKS).contains(&times) {
        return Err(format!("expected 1 to {MOST_TICKS} ticks, found {times}"));
    }
    Ok((Event::new(7, cpu_number(cpu)?, 0, 0, 0), times))
}

fn read_event(command: &str, rest: &[&str]) -> Result<Event, String> {
    let of_task = |kind, form| -> Result<Event, String> {
        let [task] = exactly(rest, form)?;
        Ok(Event::new(kind, task_number(task)?, 0, 0, 0))
    };
    let of_cpu = |kind, form| -> Result<Event, String> {
        let [cpu] = exactly(rest, form)?;
        Ok(Event::new(kind, cpu_number(cpu)?, 0, 0, 0))
    };
    match command {
        "add" => read_add(rest),
        "remove" => of_task(2, "remove TASK"),
        "wake" => of_task(3, "wake TASK"),
        "sleep" => of_task(4, "sleep TASK"),
        "prio" => {
            let [task, prio] = exactly(rest, "prio TASK PRIORITY")?;
            Ok(Event::new(5, task_number(task)?, 0, priority(prio)?, 0))
        }
        "affinity" => {
            let [task, cpus] = exactly(rest, "affinity TASK CPUS")?;
            Ok(Event::new(
                6,
                task_number(task)?,
                0,
                0,
                cpulist::read(cpus)?,
            ))
        }
        "yield" => of_cpu(8, "yield CPU"),
        "ordinary" => {
            let [cpu, flag] = exactly(rest, "ordinary CPU on|off")?;
            Ok(Event::new(9, cpu_number(cpu)?, 0, on_or_off(flag)?, 0))
        }
        "offline" => of_cpu(10, "offline CPU"),
        "online" => of_cpu(11, "online CPU"),
        "event" => read_raw(rest),
        _ => Err(format!("expected {COMMANDS}, found {}", quoted(command))),
    }
}

fn read_add(rest: &[&str]) -> Result<Event, String> {
    let [task, class, prio, cpus] = exactly(rest, "add TASK POLICY PRIORITY CPUS")?;
    let (task, class, prio) = (task_number(task)?, policy(class)?, priority(prio)?);
    Ok(Event::new(1, task, class, prio, cpulist::read(cpus)?))
}

/// The five numbers as the library takes them, so that any event can be tried.
fn read_raw(rest: &[&str]) -> Result<Event, String> {
    let [kind, who, a, b, mask] = exactly(rest, "event KIND WHO A B MASK")?;
    let mask = match cpulist::read_hex(mask) {
        Some(mask) => mask?,
        None => number(mask, "a mask")?,
    };
    Ok(Event::new(
        number(kind, "a kind of event")?,
        number(who, "a number")?,
        number(a, "a number")?,
        number(b, "a number")?,
        mask,
    ))
}

fn exactly<'a, const K: usize>(rest: &[&'a str], form: &str) -> Result<[&'a str; K], String> {
    rest.try_into().map_err(|_| wrong_form(form, rest))
}

/// What is wrong with the words after a command.
pub fn wrong_form<Word>(form: &str, rest: &[Word]) -> String {
    let command = form.split(' ').next().unwrap_or(form);
    let found = match rest.len() {
        0 => "nothing".to_string(),
        1 => "1 word".to_string(),
        many => format!("{many} words"),
    };
    format!("expected '{form}', found {found} after '{command}'")
}

fn task_number(word: &str) -> Result<u32, String> {
    number(word, "a task number")
}

fn cpu_number(word: &str) -> Result<u32, String> {
    number(word, "a CPU number")
}

fn priority(word: &str) -> Result<u32, String> {
    number(word, "a priority")
}

/// A decimal number that fits its type: the library can be asked with no other.
pub fn number<T: std::str::FromStr>(word: &str, what: &str) -> Result<T, String> {
    if word.is_empty() || !word.bytes().all(|byte| byte.is_ascii_digit()) {
        return Err(format!("expected {what}, found {}", quoted(word)));
    }
    word.parse().map_err(|_| {
        let bits = 8 * std::mem::size_of::<T>();
        format!("expected {what} of {bits} bits, found {}", quoted(word))
    })
}

/// The kernel's names and numbers. Only fifo and rr are handled; the library refuses the others.
fn policy(word: &str) -> Result<u32, String> {
    let lower = word.to_ascii_lowercase();
    match lower.strip_prefix("sched_").unwrap_or(&lower) {
        "other" | "normal" => Ok(0),
        "fifo" => Ok(1),
        "rr" => Ok(2),
        "batch" => Ok(3),
        "idle" => Ok(5),
        "deadline" => Ok(6),
        _ => number(word, "a policy (fifo, rr or a number)"),
    }
}

fn on_or_off(word: &str) -> Result<u32, String> {
    match word {
        "on" => Ok(1),
        "off" => Ok(0),
        _ => number(word, "on, off or a number"),
    }
}

/// What stands in the text, short and without control characters.
pub fn quoted(word: &str) -> String {
    let shown: String = word.chars().take(40).flat_map(char::escape_debug).collect();
    let rest = if word.chars().nth(40).is_some() {
        "..."
    } else {
        ""
    };
    format!("'{shown}{rest}'")
}

#[cfg(test)]
mod tests {
    use super::*;

    fn one(line: &str) -> Result<Action, String> {
        let text = format!("cpus 4\n{line}\n");
        match parse(text.as_bytes()) {
            Ok(lines) => {
                assert_eq!(lines.len(), 2, "{line}");
                assert_eq!(lines[1].number, 2);
                Ok(lines[1].action)
            }
            Err(problems) => {
                assert_eq!(problems.len(), 1, "{line}");
                assert_eq!(problems[0].line, 2);
                Err(problems[0].message.clone())
            }
        }
    }

    fn is(line: &str, kind: u32, who: u32, a: u32, b: u32, mask: u64) {
        let expected = Action::Event {
            stamp: None,
            event: Event::new(kind, who, a, b, mask),
            times: 1,
        };
        assert_eq!(one(line), Ok(expected), "{line}");
    }

    #[test]
    fn every_command_is_its_event() {
        is("add 0 fifo 30 0-1", 1, 0, 1, 30, 3);
        is("add 511 rr 99 3", 1, 511, 2, 99, 8);
        is("remove 7", 2, 7, 0, 0, 0);
        is("wake 7", 3, 7, 0, 0, 0);
        is("sleep 7", 4, 7, 0, 0, 0);
        is("prio 7 45", 5, 7, 0, 45, 0);
        is("affinity 7 1,2", 6, 7, 0, 0, 6);
        is("tick 1", 7, 1, 0, 0, 0);
        is("yield 1", 8, 1, 0, 0, 0);
        is("ordinary 1 on", 9, 1, 0, 1, 0);
        is("ordinary 1 off", 9, 1, 0, 0, 0);
        is("offline 1", 10, 1, 0, 0, 0);
        is("online 1", 11, 1, 0, 0, 0);
        is("event 12 1 2 3 0xff", 12, 1, 2, 3, 255);
        is("event 3 0 0 0 18446744073709551615", 3, 0, 0, 0, u64::MAX);
    }

    #[test]
    fn a_tick_may_be_repeated() {
        let ticks = |stamp| {
            Ok(Action::Event {
                stamp,
                event: Event::new(7, 2, 0, 0, 0),
                times: 99,
            })
        };
        assert_eq!(one("tick 2 99"), ticks(None));
        assert_eq!(one("@7 tick 2 99"), ticks(Some(7)));
        assert_eq!(
            one("tick 2 0").unwrap_err(),
            "expected 1 to 10000 ticks, found 0"
        );
        assert!(one("tick 2 10000").is_ok());
        assert!(one("tick 2 10001").is_err());
    }

    #[test]
    fn policies_by_name_and_number() {
        for (word, number) in [
            ("fifo", 1),
            ("FIFO", 1),
            ("SCHED_FIFO", 1),
            ("rr", 2),
            ("sched_rr", 2),
            ("other", 0),
            ("deadline", 6),
            ("1", 1),
            ("77", 77),
        ] {
            assert_eq!(policy(word), Ok(number), "{word}");
        }
        assert!(policy("fif").is_err());
        assert!(policy("-1").is_err());
    }

    #[test]
    fn numbers_that_the_library_can_refuse_are_events() {
        is("wake 600", 3, 600, 0, 0, 0);
        is("add 0 9 100 5", 1, 0, 9, 100, 32);
        is("add 0 fifo 0 0x0", 1, 0, 1, 0, 0);
        is("yield 4294967295", 8, u32::MAX, 0, 0, 0);
        is("ordinary 0 2", 9, 0, 0, 2, 0);
        is("offline 64", 10, 64, 0, 0, 0);
        is("online 4294967295", 11, u32::MAX, 0, 0, 0);
        for cpus in [0, 65, usize::MAX] {
            let action = Action::Machine {
                cpus,
                slice: None,
                named: false,
            };
            assert_eq!(one(&format!("cpus {cpus}")), Ok(action));
        }
    }

    #[test]
    fn a_machine_may_name_its_slice() {
        for ticks in [0, 1, 25, 1000, 1001, 65561, u32::MAX] {
            let action = |named| Action::Machine {
                cpus: 2,
                slice: Some(ticks),
                named,
            };
            let line = format!("cpus 2 slice {ticks}");
            assert_eq!(one(&line), Ok(action(false)));
            assert_eq!(one(&format!("{line} named")), Ok(action(true)));
        }
    }

    #[test]
    fn an_event_may_have_a_stamp() {
        for stamp in [0, 1500, u32::MAX] {
            let wake = Action::Event {
                stamp: Some(stamp),
                event: Event::new(3, 7, 0, 0, 0),
                times: 1,
            };
            assert_eq!(one(&format!("@{stamp} wake 7")), Ok(wake));
            assert_eq!(one(&format!("\t@{stamp}\twake 7 # so")), Ok(wake));
        }
    }

    #[test]
    fn wrong_forms_say_what_was_expected() {
        for (line, message) in [
            ("wake", "expected 'wake TASK', found nothing after 'wake'"),
            ("wake 1 2", "expected 'wake TASK', found 2 words after 'wake'"),
            ("cpus", "expected 'cpus N [slice TICKS [named]]', found nothing after 'cpus'"),
            ("cpus 2 slice", "expected 'cpus N [slice TICKS [named]]', found 2 words after 'cpus'"),
            ("cpus 2 ticks 25 named", "expected 'cpus N [slice TICKS [named]]', found 4 words after 'cpus'"),
            ("cpus 2 slice 25 ticks", "expected 'named', found 'ticks'"),
            ("cpus 2 ticks 25", "expected 'slice', found 'ticks'"),
            ("cpus two slice 25", "expected a number of CPUs, found 'two'"),
            ("cpus 2 slice long", "expected a number of ticks, found 'long'"),
            ("cpus 2 slice -1", "expected a number of ticks, found '-1'"),
            ("cpus 2 slice 4294967296", "expected a number of ticks of 32 bits, found '4294967296'"),
            ("@x wake 0", "expected microseconds after '@', found 'x'"),
            ("@ 5 wake 0", "expected microseconds after '@', found ''"),
            ("@-5 wake 0", "expected microseconds after '@', found '-5'"),
            ("@4294967296 wake 0", "expected microseconds after '@' of 32 bits, found '4294967296'"),
            ("@5", "expected an event after '@5', found nothing"),
            ("@5 cpus 2", "expected an event after '@5', found 'cpus'"),
            ("@5 @6 wake 0", "expected cpus, add, remove, wake, sleep, prio, affinity, tick, yield, ordinary, offline, online or event, found '@6'"),
            ("wake @5 0", "expected 'wake TASK', found 2 words after 'wake'"),
            ("wake x", "expected a task number, found 'x'"),
            ("wake -1", "expected a task number, found '-1'"),
            ("wake +1", "expected a task number, found '+1'"),
            ("wake 4294967296", "expected a task number of 32 bits, found '4294967296'"),
            ("tick", "expected 'tick CPU [TIMES]', found nothing after 'tick'"),
            ("yield c", "expected a CPU number, found 'c'"),
            ("prio 0 high", "expected a priority, found 'high'"),
            ("ordinary 0 yes", "expected on, off or a number, found 'yes'"),
            ("offline", "expected 'offline CPU', found nothing after 'offline'"),
            ("online 0 1", "expected 'online CPU', found 2 words after 'online'"),
            ("offline 0-1", "expected a CPU number, found '0-1'"),
            ("online all", "expected a CPU number, found 'all'"),
            ("add 0 fifo 30", "expected 'add TASK POLICY PRIORITY CPUS', found 3 words after 'add'"),
            ("add 0 edf 3 0", "expected a policy (fifo, rr or a number), found 'edf'"),
            ("affinity 0 x", "expected CPUs as a list (0-1,3) or a mask (0x0b), found 'x'"),
            ("affinity 0 64", "expected CPUs 0 to 63, which a mask of 64 bits can name, found '64'"),
            ("event 1 2 3 4 x", "expected a mask, found 'x'"),
            ("halt 1", "expected cpus, add, remove, wake, sleep, prio, affinity, tick, yield, ordinary, offline, online or event, found 'halt'"),
            ("wake \u{7}", "expected a task number, found '\\u{7}'"),
        ] {
            assert_eq!(one(line), Err(message.to_string()), "{line}");
        }
    }

    #[test]
    fn comments_blank_lines_and_line_ends() {
        let text = b"# first\n\n  cpus 2 # two\r\n\twake\t0\r\n#\n   \nsleep 0#end";
        let lines = parse(text).unwrap();
        let numbers: Vec<usize> = lines.iter().map(|line| line.number).collect();
        assert_eq!(numbers, [3, 4, 7]);
    }

    #[test]
    fn every_wrong_line_is_told() {
        let text = b"wake 0\ncpus 2\nwake\nwake 0\nwak 0\n\xff\n";
        let problems = parse(text).unwrap_err();
        let lines: Vec<usize> = problems.iter().map(|problem| problem.line).collect();
        assert_eq!(lines, [1, 3, 5, 6]);
        assert_eq!(
            problems[0].message,
            "expected 'cpus N' before the first event, found 'wake'"
        );
        assert_eq!(problems[3].message, "expected text in UTF-8");
    }

    #[test]
    fn a_wrong_cpus_line_does_not_spoil_the_lines_below() {
        let problems = parse(b"cpus x\nwake 0\n").unwrap_err();
        assert_eq!(problems.len(), 1);
    }

    #[test]
    fn a_byte_order_mark_stands_before_the_first_line_alone() {
        let expected = parse(b"cpus 2\nwake 0\n");
        assert_eq!(parse(b"\xef\xbb\xbfcpus 2\nwake 0\n"), expected);
        assert_eq!(parse(b"\xef\xbb\xbf"), Ok(Vec::new()));
        for text in ["\u{feff}\u{feff}cpus 2\n", "cpus 2\n\u{feff}wake 0\n"] {
            assert_eq!(parse(text.as_bytes()).unwrap_err().len(), 1, "{text:?}");
        }
    }
}
