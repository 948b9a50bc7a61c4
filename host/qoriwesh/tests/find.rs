//! The finder, asked by the built program.

mod common;
mod page;
mod terminal;

use common::run;
use page::{blocks, page};
use std::fs;
use std::io::Write;
use std::process::{Output, Stdio};
use std::sync::atomic::AtomicBool;
use std::thread;
use std::time::Duration;
use terminal::{spawned, terminal, watched};

/// CPU 0 runs priority 61 at level 63, CPU 1 priority 62 at level 64, CPU 2 has ordinary work, CPUs 3 and 4 are idle and CPU 5
/// is offline.
const TEXT: &str = "\
cpus 6
add 0 fifo 61 0
add 1 rr 62 1
wake 0
wake 1
ordinary 2 on
offline 5
";

/// What is shown of that machine.
const ROWS: [&str; 6] = [
    "      CPU 0    level  63  task 0 (61)",
    "      CPU 1    level  64  task 1 (62, rr 25)",
    "      CPU 2    level   1  ordinary work",
    "      CPU 3-4  level   0  idle",
    "      CPU 5    offline",
    "6 accepted, 0 refused, 0 moves in all",
];

/// The status, and what is said of a question below the rows of that machine.
fn asked(level: &str, cpus: &str) -> (i32, Vec<String>) {
    let ended = run(&["find", level, cpus], TEXT.as_bytes());
    assert_eq!(ended.err, "");
    let lines: Vec<String> = ended.out.lines().map(str::to_string).collect();
    assert_eq!(lines[..ROWS.len()], ROWS);
    (ended.status, lines[ROWS.len()..].to_vec())
}

#[test]
fn what_is_found_is_told() {
    for (level, cpus, asked_words, found, masks_read) in [
        ("101", "0-5", "CPUs 0-5", "level 0 (idle) on CPUs 3-4", 1),
        ("1", "3,5", "CPUs 3,5", "level 0 (idle) on CPU 3", 1),
        (
            "101",
            "0-2",
            "CPUs 0-2",
            "level 1 (ordinary work) on CPU 2",
            2,
        ),
        (
            "64",
            "0x23",
            "CPUs 0-1,5",
            "level 63 (priority 61) on CPU 0",
            3,
        ),
        ("101", "1", "CPU 1", "level 64 (priority 62) on CPU 1", 4),
    ] {
        let (status, said) = asked(level, cpus);
        let expected = [
            format!("asked       {asked_words}, below level {level}"),
            format!("found       {found}"),
            format!("masks read  {masks_read}"),
        ];
        assert_eq!((status, said), (0, expected.to_vec()));
    }
}

/// That is no refusal.
#[test]
fn none_is_told() {
    for (level, cpus, asked_words, masks_read) in [
        ("64", "1", "CPU 1", 3),
        ("63", "0-1", "CPUs 0-1", 2),
        ("1", "0-2", "CPUs 0-2", 1),
        ("101", "5", "CPU 5", 4),
        ("0", "0-5", "CPUs 0-5", 0),
    ] {
        let (status, said) = asked(level, cpus);
        let expected = [
            format!("asked       {asked_words}, below level {level}"),
            format!("found       none: no such CPU is below level {level}"),
            format!("masks read  {masks_read}"),
        ];
        assert_eq!((status, said), (0, expected.to_vec()));
    }
}

#[test]
fn a_refused_question_ends_with_1() {
    for (level, cpus, asked_words, why) in [
        ("102", "0", "CPU 0", "(7): a level is 0 to 101, not 102"),
        (
            "4294967295",
            "0x0",
            "no CPU",
            "(7): a level is 0 to 101, not 4294967295",
        ),
        ("101", "0x0", "no CPU", "(8): the mask has no CPU"),
        ("0", "0,6-7", "CPUs 0,6-7", "(8): CPUs are 0 to 5, not 6-7"),
    ] {
        let (status, said) = asked(level, cpus);
        let expected = [
            format!("asked       {asked_words}, below level {level}"),
            format!("refused {why}; no mask was read"),
        ];
        assert_eq!((status, said), (1, expected.to_vec()));
    }
}

/// There are no rows then. The finder is handed no slice: it sees that the record is not one.
#[test]
fn without_a_machine_every_question_is_refused() {
    for (text, why) in [
        ("cpus 65\n", "(1): a machine has 1 to 64 CPUs, not 65"),
        (
            "cpus 2 slice 1001\n",
            "(2): the record is not consistent, there is no machine",
        ),
    ] {
        let ended = run(&["find", "101", "0"], text.as_bytes());
        assert_eq!((ended.status, ended.err.as_str()), (1, ""));
        let expected = format!(
            "0 accepted, 1 refused, 0 moves in all\n\
             asked       CPU 0, below level 101\n\
             refused {why}; no mask was read\n"
        );
        assert!(ended.out.ends_with(&expected), "{}", ended.out);
        assert!(!ended.out.contains(" level  "), "{}", ended.out);
    }
}

/// They are shown as `explain` shows them, and no other event is. The machine is the last that was made.
#[test]
fn refused_events_are_shown_and_end_with_1() {
    let text = "cpus 4\n@5 wake 3\ncpus 1\ncpus 65\nadd 0 fifo 9 0\nwake 0\ntick 1 7\n";
    let ended = run(&["find", "12", "0"], text.as_bytes());
    let expected = "   2  @5  wake task 3
      refused (5): there is no task 3, its place is free; nothing was changed
   4  a machine of 65 CPUs
      refused (1): a machine has 1 to 64 CPUs, not 65; the earlier machine stays
        as it was
   7  tick on CPU 1
      refused (4): the only CPU is 0, not 1; nothing was changed
      CPU 0  level  11  task 0 (9)
2 accepted, 3 refused, 0 moves in all
asked       CPU 0, below level 12
found       level 11 (priority 9) on CPU 0
masks read  1
";
    assert_eq!(ended.out, expected);
    assert_eq!((ended.status, ended.err.as_str()), (1, ""));
}

#[test]
fn a_file_or_standard_input() {
    let path = std::env::temp_dir().join(format!("qoriwesh-find-{}.txt", std::process::id()));
    fs::write(&path, TEXT).unwrap();
    let file = path.to_str().unwrap();
    let piped = run(&["find", "101", "0-5"], TEXT.as_bytes());
    let dash = run(&["find", "-", "101", "0-5"], TEXT.as_bytes());
    let named = [
        run(&["find", file, "101", "0-5"], b""),
        run(&["find", "--", file, "101", "0-5"], b""),
    ];
    fs::remove_file(&path).unwrap();
    for ended in [dash].iter().chain(&named) {
        assert_eq!((ended.status, ended.err.as_str()), (0, ""));
        assert_eq!(ended.out, piped.out);
    }
}

#[test]
fn wrong_questions_are_told_before_the_text_is_read() {
    for (args, message) in [
        (
            &["find"][..],
            "expected 'find [FILE] LEVEL CPUS', found nothing after 'find'",
        ),
        (
            &["find", "8"],
            "expected 'find [FILE] LEVEL CPUS', found 1 word after 'find'",
        ),
        (
            &["find", "a", "8", "0", "1"],
            "expected 'find [FILE] LEVEL CPUS', found 4 words after 'find'",
        ),
        (&["find", "file", "8"], "expected a level, found 'file'"),
        (&["find", "+8", "0"], "expected a level, found '+8'"),
        (&["find", "-8", "0"], "unknown option '-8'"),
        (
            &["find", "4294967296", "0"],
            "expected a level of 32 bits, found '4294967296'",
        ),
        (
            &["find", "8", ""],
            "expected CPUs as a list (0-1,3) or a mask (0x0b), found ''",
        ),
        (
            &["find", "8", "64"],
            "expected CPUs 0 to 63, which a mask of 64 bits can name, found '64'",
        ),
    ] {
        let ended = run(args, b"wrong");
        assert_eq!((ended.status, ended.out.as_str()), (2, ""), "{args:?}");
        let said = format!("qoriwesh: {message}; 'qoriwesh --help' says more\n");
        assert_eq!(ended.err, said);
    }
}

#[test]
fn a_text_that_cannot_be_read_is_not_run() {
    let ended = run(&["find", "8", "0"], b"cpus 2\nwake\n");
    assert_eq!((ended.status, ended.out.as_str()), (2, ""));
    assert_eq!(
        ended.err,
        "qoriwesh: <stdin>:2: expected 'wake TASK', found nothing after 'wake'\n\
         qoriwesh: <stdin>: 1 line could not be read; no event was run\n"
    );
    let ended = run(&["find", "/nonexistent/events", "8", "0"], b"");
    assert_eq!((ended.status, ended.out.as_str()), (2, ""));
    assert!(ended.err.starts_with("qoriwesh: /nonexistent/events: "));
}

/// Every other CPU of 64, in the question, in the answer and in a refusal.
#[test]
fn long_lists_fit_80_columns() {
    let idle = run(&["find", "8", "0-63:2"], b"cpus 64\n");
    let refused = run(&["find", "8", "0-63:2"], b"cpus 1\n");
    for (ended, status) in [(idle, 0), (refused, 1)] {
        assert_eq!(ended.status, status);
        assert!(ended.out.lines().count() > 6, "{}", ended.out);
        assert!(
            ended.out.lines().all(|line| line.len() <= 80),
            "{}",
            ended.out
        );
    }
}

/// What docs/TOOL.md shows of its first text of events is what the program says.
#[test]
fn the_page_shows_what_the_program_says() {
    let page = page();
    let (events, shown) = (blocks(&page, "events"), blocks(&page, "found"));
    let questions = [["42", "1"], ["22", "1-2"], ["102", "0-2"]];
    let said = questions.map(|[level, cpus]| {
        assert!(page.contains(&format!("`qoriwesh find FILE {level} {cpus}`")));
        let ended = run(&["find", level, cpus], events[0].as_bytes());
        assert_eq!(ended.status, 1);
        ended.out
    });
    assert_eq!(said.len(), shown.len());
    assert_eq!(said[0], shown[0]);
    for (said, end) in said.iter().zip(shown) {
        assert!(said.ends_with(end), "{said}");
    }
}

/// Asks after a text whose end comes so much later than its beginning. The output, and what the terminal shows.
fn fed(wait: Duration) -> (Output, String) {
    let (seen, given) = terminal();
    let mut child = spawned(&["find", "101", "0-5"], Stdio::piped(), given.into());
    let mut input = child.stdin.take().unwrap();
    let (first, rest) = TEXT.split_at(20);
    thread::scope(|scope| {
        let watcher = scope.spawn(|| watched(seen, &AtomicBool::default()));
        input.write_all(first.as_bytes()).unwrap();
        thread::sleep(wait);
        input.write_all(rest.as_bytes()).unwrap();
        drop(input);
        (child.wait_with_output().unwrap(), watcher.join().unwrap())
    })
}

/// The text comes slowly, so that the line is due when its events run, however fast they do. It is gone when the answer comes.
/// However slow the computer is to start the program: if the line was not due yet, the text comes twice as slowly.
#[test]
fn a_long_text_says_how_far_it_is() {
    let mut slower = (1..=7).map(|doubled| fed(Duration::from_secs(1 << doubled)));
    let (output, shown) = slower.find(|(_, shown)| !shown.is_empty()).unwrap();
    let at_once = run(&["find", "101", "0-5"], TEXT.as_bytes());
    assert_eq!(output.stdout, at_once.out.as_bytes());
    assert!(
        shown.starts_with("\r\x1b[Kqoriwesh: line 1 of 7\r"),
        "{shown:?}"
    );
    assert!(shown.ends_with("\r\x1b[K"), "{shown:?}");
}
