//! The built program: its output, byte for byte, and its exit statuses.

mod common;
mod page;

use common::{run, PROGRAM};
use page::{blocks, here, page};
use std::fs;
use std::io::{Read, Write};
use std::process::{Command, Stdio};

/// Holds an output to a file. If it is to change, run the program into the file, and read the difference.
fn held(out: &str, path: &str) {
    let expected = fs::read_to_string(here(path)).unwrap();
    for (number, (found, line)) in out.lines().zip(expected.lines()).enumerate() {
        assert_eq!(found, line, "{path}, line {}", number + 1);
    }
    assert!(out == expected, "{path}: one of the two is longer");
}

const COMMANDS: [&str; 6] = ["examples", "explain", "find", "replay", "record", "text"];

fn script(name: &str) -> String {
    here(name).to_str().unwrap().to_string()
}

#[test]
fn examples_are_as_recorded() {
    let ended = run(&["examples"], b"");
    held(&ended.out, "tests/golden/examples.txt");
    assert_eq!((ended.status, ended.err.as_str()), (0, ""));
}

#[test]
fn one_example_by_name() {
    let all = run(&["examples"], b"").out;
    let one = run(&["examples", "k5"], b"");
    let end = one.out.rfind("\n\n").unwrap();
    assert!(one.out.starts_with("K5: "));
    assert!(all.contains(&one.out[..end]));
    assert!(one.out.ends_with("\n1 example: as document 01 says\n"));
    assert_eq!(one.status, 0);
}

#[test]
fn a_name_that_is_no_example() {
    for name in ["K0", "K13", "x", ""] {
        let ended = run(&["examples", "K1", name], b"");
        assert_eq!((ended.status, ended.out.as_str()), (2, ""));
        assert!(ended.err.contains("they are K1 to K12"), "{}", ended.err);
    }
}

#[test]
fn the_walk_is_as_recorded() {
    let ended = run(&["explain", &script("tests/scripts/walk.txt")], b"");
    held(&ended.out, "tests/golden/walk.txt");
    assert_eq!((ended.status, ended.err.as_str()), (1, ""));
}

#[test]
fn cpus_that_go_and_come_back_are_as_recorded() {
    let ended = run(&["explain", &script("tests/scripts/hotplug.txt")], b"");
    held(&ended.out, "tests/golden/hotplug.txt");
    assert_eq!((ended.status, ended.err.as_str()), (1, ""));
}

#[test]
fn every_line_fits_80_columns() {
    for name in ["examples", "hotplug", "walk"] {
        let path = &format!("tests/golden/{name}.txt");
        for line in fs::read_to_string(here(path)).unwrap().lines() {
            assert!(line.chars().count() <= 80, "{path}: {line}");
            assert_eq!(line, line.trim_end(), "{path}");
        }
    }
    let helps = COMMANDS.map(|command| run(&["help", command], b"").out);
    for help in helps.iter().chain([&run(&["--help"], b"").out]) {
        assert!(help.lines().all(|line| line.len() <= 80), "{help}");
    }
}

/// The two worked examples of docs/TOOL.md that are explained are what the program says.
#[test]
fn the_page_shows_what_the_program_says() {
    let page = page();
    let (events, outputs) = (blocks(&page, "events"), blocks(&page, "output"));
    assert_eq!((events.len(), outputs.len()), (2, 2));
    for (events, output) in events.iter().zip(outputs) {
        let ended = run(&["explain"], events.as_bytes());
        assert_eq!(ended.out, output);
        assert_eq!(ended.status, 1);
    }
    let help = run(&["help", "explain"], b"").out;
    assert!(
        page.contains(&help),
        "the page does not have the help's words"
    );
}

#[test]
fn standard_input_with_and_without_a_dash() {
    let text = b"cpus 1\nadd 0 fifo 50 0\nwake 0\n";
    let plain = run(&["explain"], text);
    let dash = run(&["explain", "-"], text);
    assert_eq!(plain.status, 0);
    assert!(plain.out.contains("CPU 0  level  52  task 0 (50)\n"));
    assert!(plain
        .out
        .ends_with("2 accepted, 0 refused, 0 moves in all\n"));
    assert_eq!((dash.status, &dash.out), (0, &plain.out));
    assert_eq!(plain.err, "");
}

#[test]
fn a_refused_event_ends_with_1_and_the_next_follows() {
    let ended = run(&["explain"], b"cpus 1\nwake 3\nadd 3 rr 1 0\n");
    assert_eq!((ended.status, ended.err.as_str()), (1, ""));
    assert!(ended
        .out
        .contains("refused (5): there is no task 3, its place is free; nothing was changed"));
    assert!(ended.out.contains("add task 3: rr, priority 1, CPU 0"));
}

#[test]
fn a_refused_slice_ends_with_1_and_a_wrong_one_with_2() {
    let ended = run(&["explain"], b"cpus 1 slice 1001\n");
    assert_eq!((ended.status, ended.err.as_str()), (1, ""));
    assert!(ended
        .out
        .contains("refused (1): a slice has 1 to 1000 ticks, not 1001; there is no machine"));
    let ended = run(&["explain"], b"cpus 1 slice 4294967296\n");
    assert_eq!((ended.status, ended.out.as_str()), (2, ""));
    assert!(ended
        .err
        .contains("<stdin>:1: expected a number of ticks of 32 bits, found '4294967296'\n"));
}

#[test]
fn wrong_lines_are_told_and_nothing_is_run() {
    let ended = run(&["explain"], b"cpus 2\nwake\n\nadd 0 fifo x 0\n");
    assert_eq!((ended.status, ended.out.as_str()), (2, ""));
    assert_eq!(
        ended.err,
        "qoriwesh: <stdin>:2: expected 'wake TASK', found nothing after 'wake'\n\
         qoriwesh: <stdin>:4: expected a priority, found 'x'\n\
         qoriwesh: <stdin>: 2 lines could not be read; no event was run\n"
    );
}

#[test]
fn a_wrong_line_of_a_file_has_its_name() {
    let path = std::env::temp_dir().join(format!("qoriwesh-{}.txt", std::process::id()));
    fs::write(&path, b"cpus 2\n\xff\xfe\n").unwrap();
    let name = path.to_str().unwrap();
    let ended = run(&["explain", name], b"");
    fs::remove_file(&path).unwrap();
    assert_eq!(ended.status, 2);
    let expected = format!("qoriwesh: {name}:2: expected text in UTF-8\n");
    assert!(ended.err.starts_with(&expected), "{}", ended.err);
}

#[test]
fn a_text_without_a_command_has_no_wrong_line() {
    for text in ["", "\n\n", "# only this\n", "\u{feff}"] {
        let ended = run(&["explain"], text.as_bytes());
        assert_eq!((ended.status, ended.out.as_str()), (2, ""), "{text:?}");
        assert_eq!(
            ended.err,
            "qoriwesh: <stdin>: expected 'cpus N' and events, found nothing; no event was run\n"
        );
    }
}

#[test]
fn a_byte_order_mark_is_no_part_of_the_text() {
    let text = "cpus 1\nadd 0 fifo 50 0\nwake 0\n";
    let plain = run(&["explain"], text.as_bytes());
    let marked = run(&["explain"], format!("\u{feff}{text}").as_bytes());
    assert_eq!((marked.status, marked.err.as_str()), (0, ""));
    assert_eq!(marked.out, plain.out);
}

#[test]
fn a_list_of_many_cpus_is_read() {
    let list = "0,".repeat(400_000);
    let explained = |text: &str| run(&["explain"], text.as_bytes());
    let ended = explained(&format!("cpus 1\nadd 0 fifo 50 {list}0\n"));
    assert_eq!((ended.status, ended.err.as_str()), (0, ""));
    let ended = explained(&format!("cpus 1\nadd 0 fifo 50 {list}64\n"));
    assert_eq!(
        ended.err,
        "qoriwesh: <stdin>:2: expected CPUs 0 to 63, which a mask of 64 bits can name, found '64'\n\
         qoriwesh: <stdin>: 1 line could not be read; no event was run\n"
    );
}

#[test]
fn a_file_that_cannot_be_read() {
    for name in ["/nonexistent/events", "/"] {
        let ended = run(&["explain", name], b"");
        assert_eq!((ended.status, ended.out.as_str()), (2, ""), "{name}");
        assert!(ended.err.starts_with(&format!("qoriwesh: {name}: ")));
        assert!(ended.err.ends_with("; no event was run\n"), "{}", ended.err);
    }
}

#[test]
fn a_text_that_is_too_long_is_not_run() {
    let mut text = b"cpus 1\n".to_vec();
    text.resize((1 << 22) + 1, b'\n');
    let ended = run(&["explain"], &text);
    assert_eq!((ended.status, ended.out.as_str()), (2, ""));
    assert!(ended.err.contains("at most 4194304 bytes"), "{}", ended.err);
    text.pop();
    assert_eq!(run(&["explain"], &text).status, 0);
}

#[test]
fn wrong_command_lines() {
    for (args, message) in [
        (&[][..], "expected a command"),
        (&["expalin"], "unknown command 'expalin'"),
        (&["--verbose"], "unknown option '--verbose'"),
        (&["-x"], "unknown option '-x'"),
        (&["explain", "--all"], "unknown option '--all'"),
        (&["examples", "-v"], "unknown option '-v'"),
        (&["find", "-l", "8", "0"], "unknown option '-l'"),
        (&["replay", "-n"], "unknown option '-n'"),
        (&["record", "-o"], "unknown option '-o'"),
        (&["text", "--all"], "unknown option '--all'"),
        (&["explain", "a", "b"], "expected one file, found 2"),
        (&["record", "a", "b"], "expected one file, found 2"),
        (&["text", "a", "b", "c"], "expected one file, found 3"),
        (&["help", "replai"], "no help on 'replai'"),
        (&["help", "explain", "examples"], "expected one command"),
    ] {
        let ended = run(args, b"");
        assert_eq!((ended.status, ended.out.as_str()), (2, ""), "{args:?}");
        assert!(
            ended.err.starts_with(&format!("qoriwesh: {message}")),
            "{args:?}"
        );
        assert_eq!(ended.err.lines().count(), 1);
    }
}

#[test]
fn help_and_version() {
    let version = format!("qoriwesh {}\n", env!("CARGO_PKG_VERSION"));
    for args in [["--version"], ["-V"]] {
        let ended = run(&args, b"");
        assert_eq!((ended.status, ended.out.as_str()), (0, version.as_str()));
    }
    let main = run(&["--help"], b"");
    assert!(main.out.contains("usage: qoriwesh examples"));
    assert_eq!((main.status, main.err.as_str()), (0, ""));
    assert_eq!(run(&["-h"], b"").out, main.out);
    assert_eq!(run(&["help"], b"").out, main.out);
    for command in COMMANDS {
        assert!(main.out.contains(&format!(" qoriwesh {command} [")));
        let help = run(&["help", command], b"");
        assert!(help.out.starts_with(&format!("usage: qoriwesh {command}")));
        assert_eq!(run(&[command, "--help"], b"").out, help.out);
        assert_eq!((help.status, help.err.as_str()), (0, ""));
    }
}

#[test]
fn two_dashes_end_the_options() {
    let ended = run(&["explain", "--", "--help"], b"");
    assert_eq!(ended.status, 2);
    assert!(ended.err.starts_with("qoriwesh: --help: "), "{}", ended.err);
}

/// More is written than a pipe holds, and its reader goes away after ten bytes.
#[test]
fn a_reader_that_goes_away_is_no_error() {
    let mut text = b"cpus 64\nadd 0 fifo 50 0-63\n".to_vec();
    text.extend(b"wake 0\nsleep 0\n".repeat(3000));
    let mut child = Command::new(PROGRAM)
        .arg("explain")
        .stdin(Stdio::piped())
        .stdout(Stdio::piped())
        .stderr(Stdio::piped())
        .spawn()
        .unwrap();
    child.stdin.take().unwrap().write_all(&text).unwrap();
    let mut out = child.stdout.take().unwrap();
    out.read_exact(&mut [0; 10]).unwrap();
    drop(out);
    let output = child.wait_with_output().unwrap();
    assert_eq!(output.stderr, b"");
    assert_eq!(output.status.code(), Some(0));
}

#[test]
fn an_output_that_cannot_be_written_is_an_error() {
    let Ok(full) = fs::OpenOptions::new().write(true).open("/dev/full") else {
        return;
    };
    let output = Command::new(PROGRAM)
        .arg("examples")
        .stdout(full)
        .output()
        .unwrap();
    assert_eq!(output.status.code(), Some(2));
    let err = String::from_utf8(output.stderr).unwrap();
    assert!(err.starts_with("qoriwesh: standard output: "), "{err}");
}

#[test]
fn a_closed_output_is_an_error() {
    for args in COMMANDS.into_iter().chain(["--help"]) {
        let question = match args {
            "find" => &["8", "0"][..],
            _ => &[],
        };
        let mut child = Command::new("sh")
            .args(["-c", "exec \"$0\" \"$@\" >&-", PROGRAM, args])
            .args(question)
            .stdin(Stdio::piped())
            .stderr(Stdio::piped())
            .spawn()
            .unwrap();
        let _ = child.stdin.take().unwrap().write_all(b"cpus 1\n");
        let output = child.wait_with_output().unwrap();
        assert_eq!(output.status.code(), Some(2), "{args}");
        let err = String::from_utf8(output.stderr).unwrap();
        assert!(err.starts_with("qoriwesh: standard output: "), "{err}");
    }
}
