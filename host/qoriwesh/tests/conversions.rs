//! Recordings, made of texts and made to texts by the built program.

mod common;
mod nights;
mod terminal;

use common::run;
use nights::{recorded, replayed, said, Folder, Random, NIGHT};
use std::process::Stdio;
use std::sync::atomic::AtomicBool;
use terminal::{spawned, terminal, watched};

/// The text of a recording that is whole.
fn text_of(bytes: &[u8]) -> String {
    let ended = run(&["text"], bytes);
    assert_eq!((ended.status, ended.err.as_str()), (0, ""));
    ended.out
}

/// Each kind with numbers whose bytes differ.
#[test]
fn every_kind_has_its_bytes() {
    let records: [(&str, &[u8]); 12] = [
        ("cpus 3 slice 258", &[12, 3, 2, 1]),
        (
            "@67305985 add 513 rr 99 0-1,63",
            &[1, 1, 2, 3, 4, 1, 2, 2, 99, 3, 0, 0, 0, 0, 0, 0, 128],
        ),
        ("@256 remove 256", &[2, 0, 1, 0, 0, 0, 1]),
        ("@1 wake 1", &[3, 1, 0, 0, 0, 1, 0]),
        ("@0 sleep 511", &[4, 0, 0, 0, 0, 255, 1]),
        ("@4294967295 prio 2 45", &[5, 255, 255, 255, 255, 2, 0, 45]),
        (
            "@5 affinity 3 9",
            &[6, 5, 0, 0, 0, 3, 0, 0, 2, 0, 0, 0, 0, 0, 0],
        ),
        ("@6 tick 1", &[7, 6, 0, 0, 0, 1]),
        ("@7 yield 2", &[8, 7, 0, 0, 0, 2]),
        ("@8 ordinary 2 on", &[9, 8, 0, 0, 0, 2, 1]),
        ("@9 offline 63", &[10, 9, 0, 0, 0, 63]),
        ("@16777216 online 0", &[11, 0, 0, 0, 1, 0]),
    ];
    let text: String = records
        .iter()
        .map(|(line, _)| format!("{line}\n"))
        .collect();
    let bytes: Vec<u8> = records
        .iter()
        .flat_map(|(_, bytes)| bytes.to_vec())
        .collect();
    assert_eq!(recorded(&text), bytes);
    assert_eq!(text_of(&bytes), text);
}

#[test]
fn first_records() {
    for (line, bytes) in [
        ("cpus 1", &[12, 1, 25, 0][..]),
        ("cpus 64 slice 25", &[12, 64, 25, 0]),
        ("cpus 64 slice 25 named", &[12, 64, 25, 0]),
        ("cpus 2 slice 100", &[0, 2]),
        ("cpus 2 slice 100 named", &[12, 2, 100, 0]),
        ("cpus 2 slice 1000", &[12, 2, 232, 3]),
    ] {
        assert_eq!(recorded(line), bytes, "{line}");
    }
    for text in [
        "cpus 2 slice 100\n",
        "cpus 2 slice 100 named\n",
        "cpus 2 slice 1\n",
    ] {
        assert_eq!(text_of(&recorded(text)), text);
    }
}

#[test]
fn an_event_without_a_stamp_has_that_of_the_one_before() {
    let text = "cpus 1 slice 100\nwake 0\n@5 wake 1\nwake 2\n\n@3 tick 0 2\ntick 0 2\nsleep 0\n";
    let expected = "cpus 1 slice 100\n@0 wake 0\n@5 wake 1\n@5 wake 2\n\
                    @3 tick 0\n@3 tick 0\n@3 tick 0\n@3 tick 0\n@3 sleep 0\n";
    assert_eq!(text_of(&recorded(text)), expected);
}

/// Numbers that are out of range, and the form that `text` has for them; the last two lists have 18 and 19 characters.
/// `explain` runs it, and refuses every event.
#[test]
fn odd_numbers_can_be_said() {
    let text = "cpus 2 slice 100\n\
                @4294967295 add 65535 7 255 0x0\n\
                @0 add 0 0 1 0\n\
                @1 add 511 255 0 0-63\n\
                @2 affinity 65535 0x5555555555555555\n\
                @3 affinity 0 60-63\n\
                @4 prio 512 255\n\
                @5 ordinary 200 9\n\
                @6 ordinary 2 off\n\
                @7 tick 200\n\
                @8 yield 255\n\
                @9 offline 64\n\
                @10 online 2\n\
                @11 affinity 1 0,2,4,6,8,10,12,14\n\
                @12 affinity 1 0xd455\n";
    assert_eq!(text_of(&recorded(text)), text);
    let ended = run(&["explain"], text.as_bytes());
    assert_eq!((ended.status, ended.err.as_str()), (1, ""));
    assert!(ended
        .out
        .ends_with("\n0 accepted, 14 refused, 0 moves in all\n"));
    assert!(ended
        .out
        .contains("  @4294967295  add task 65535: policy 7, "));
}

/// Policies by all their names, masks in all their forms, and raw events, which lose what their kind does not use.
#[test]
fn what_is_written_otherwise_gives_the_same() {
    let other = "cpus 2 slice 100 # two\r\n\
                 add 0 SCHED_RR 5 0x3\n  add 1 deadline 5 0,1\nevent 3 1 7 8 9\nordinary 0 1\n";
    let plain = "cpus 2 slice 100\n\
                 @0 add 0 rr 5 0-1\n@0 add 1 6 5 0-1\n@0 wake 1\n@0 ordinary 0 on\n";
    assert_eq!(text_of(&recorded(other)), plain);
}

/// Bytes to text and back, and what `explain` counts is what `replay` reports.
#[test]
fn random_recordings_come_back_as_they_were() {
    let mut random = Random(2);
    let (mut accepted, mut refused) = (0, 0);
    for _ in 0..150 {
        let bytes = random.recording();
        let text = text_of(&bytes);
        assert_eq!(recorded(&text), bytes, "{text}");
        let explained = run(&["explain"], text.as_bytes());
        let report = replayed(&bytes);
        assert_eq!(explained.status, report.status);
        let events: u32 = said(&report.out, "events").parse().unwrap();
        let not: u32 = said(&report.out, "refused").parse().unwrap();
        let moves = match said(&report.out, "moves") {
            "1" => "1 move".to_string(),
            many => format!("{many} moves"),
        };
        let counts = format!("{} accepted, {not} refused, {moves} in all\n", events - not);
        assert!(explained.out.ends_with(&counts), "{counts}");
        (accepted, refused) = (accepted + events - not, refused + not);
    }
    assert!(accepted > 500 && refused > 500, "{accepted} {refused}");
}

/// The longest recording's text is read back.
#[test]
fn the_longest_text_comes_back() {
    let add = [1, 255, 255, 255, 255, 255, 255, 255, 255].into_iter();
    let add: Vec<u8> = add.chain(0x5555_5555_5555_5555_u64.to_le_bytes()).collect();
    let bytes = [vec![12, 64, 232, 3], add.repeat(65535)].concat();
    let text = text_of(&bytes);
    assert!(text.lines().all(|line| line.len() <= 48));
    assert!(recorded(&text) == bytes);
    let ended = run(&["explain"], text.as_bytes());
    assert!(ended
        .out
        .ends_with("\n0 accepted, 65535 refused, 0 moves in all\n"));
}

#[test]
fn what_no_recording_holds_is_told_and_nothing_is_written() {
    for (line, message) in [
        (
            "wake 65536",
            "expected a task number of 16 bits, as a recording has it, found 65536",
        ),
        (
            "add 70000 fifo 5 0",
            "expected a task number of 16 bits, as a recording has it, found 70000",
        ),
        (
            "add 0 256 5 0",
            "expected a policy of 8 bits, as a recording has it, found 256",
        ),
        (
            "add 0 fifo 256 0",
            "expected a priority of 8 bits, as a recording has it, found 256",
        ),
        (
            "prio 0 1000",
            "expected a priority of 8 bits, as a recording has it, found 1000",
        ),
        (
            "tick 256",
            "expected a CPU number of 8 bits, as a recording has it, found 256",
        ),
        (
            "online 4294967295",
            "expected a CPU number of 8 bits, as a recording has it, found 4294967295",
        ),
        (
            "ordinary 0 256",
            "expected a number for ordinary work of 8 bits, as a recording has it, found 256",
        ),
        (
            "event 12 1 25 0 0",
            "expected an event of kind 1 to 11, as a recording has them, found 12",
        ),
        (
            "event 0 1 0 0 0",
            "expected an event of kind 1 to 11, as a recording has them, found 0",
        ),
        (
            "event 259 1 0 0 0",
            "expected an event of kind 1 to 11, as a recording has them, found 259",
        ),
        ("cpus 2", "expected one 'cpus', found another"),
        (
            "@4294967296 wake 0",
            "expected microseconds after '@' of 32 bits, found '4294967296'",
        ),
    ] {
        let ended = run(
            &["record"],
            format!("cpus 2\nwake 0\n{line}\n@5 wake 1\n").as_bytes(),
        );
        assert_eq!((ended.status, ended.out.as_str()), (2, ""), "{line}");
        let first = ended.err.lines().next();
        assert_eq!(first, Some(&*format!("qoriwesh: <stdin>:3: {message}")));
        assert!(
            ended.err.ends_with("; nothing was written\n"),
            "{}",
            ended.err
        );
    }
}

#[test]
fn every_line_that_no_recording_holds_is_told() {
    let folder = Folder::new("lines");
    let file = folder.file("text", b"cpus 65\nwake 70000\ncpus 2 slice 0\n");
    let ended = run(&["record", &file], b"");
    assert_eq!((ended.status, ended.out.as_str()), (2, ""));
    assert_eq!(
        ended.err,
        format!(
            "qoriwesh: {file}:1: expected 1 to 64 CPUs, found 65\n\
             qoriwesh: {file}:2: expected a task number of 16 bits, as a recording has it, found 70000\n\
             qoriwesh: {file}:3: expected one 'cpus', found another\n\
             qoriwesh: {file}: 3 lines could not be recorded; nothing was written\n"
        )
    );
    for (text, message) in [
        ("cpus 0", "<stdin>:1: expected 1 to 64 CPUs, found 0\n"),
        (
            "cpus 1 slice 0",
            "<stdin>:1: expected a slice of 1 to 1000 ticks, found 0\n",
        ),
        (
            "cpus 1 slice 1001",
            "<stdin>:1: expected a slice of 1 to 1000 ticks, found 1001\n",
        ),
        (
            "cpus 2\nwake x",
            "<stdin>:2: expected a task number, found 'x'\n",
        ),
        (
            "",
            "<stdin>: expected 'cpus N' and events, found nothing; nothing was written\n",
        ),
    ] {
        let ended = run(&["record"], text.as_bytes());
        assert_eq!((ended.status, ended.out.as_str()), (2, ""), "{text}");
        assert!(
            ended.err.starts_with(&format!("qoriwesh: {message}")),
            "{}",
            ended.err
        );
    }
}

/// The line with which there are too many is told, and no later one.
#[test]
fn too_many_records_are_told_once() {
    let ticks = "tick 0 10000\n".repeat(6);
    for (last, line) in [
        ("tick 0 5535\nwake 0\nwake 1\n", 9),
        ("wake 0\ntick 0 5535\nwake 1\n", 9),
        ("tick 0 5536\nwake 1\n", 8),
    ] {
        let ended = run(&["record"], format!("cpus 1\n{ticks}{last}").as_bytes());
        assert_eq!((ended.status, ended.out.as_str()), (2, ""));
        assert_eq!(
            ended.err,
            format!(
                "qoriwesh: <stdin>:{line}: expected at most 65536 records, found more\n\
                 qoriwesh: <stdin>: 1 line could not be recorded; nothing was written\n"
            )
        );
    }
}

#[test]
fn the_text_of_what_is_not_whole_goes_as_far_as_its_records() {
    let night = recorded(NIGHT);
    let whole = text_of(&night);
    let lines: Vec<&str> = whole.split_inclusive('\n').collect();
    for (bytes, count, words) in [
        (
            night[..77].to_vec(),
            8,
            "cut: the record at byte 72 is not whole",
        ),
        (
            [&night[..72], &[13]].concat(),
            8,
            "stopped at byte 72: unknown kind 13",
        ),
        (
            night[..5].to_vec(),
            1,
            "cut: the record at byte 4 is not whole",
        ),
        (
            night[..3].to_vec(),
            0,
            "cut: the record at byte 0 is not whole",
        ),
        (Vec::new(), 0, "cut: the recording is empty"),
    ] {
        let ended = run(&["text"], &bytes);
        assert_eq!(ended.status, 1, "{words}");
        assert_eq!(ended.err, format!("qoriwesh: <stdin>: {words}\n"));
        assert_eq!(ended.out, lines[..count].concat());
    }
    let ended = run(&["text", "/nonexistent/night"], b"");
    assert_eq!((ended.status, ended.out.as_str()), (2, ""));
    assert!(ended.err.starts_with("qoriwesh: /nonexistent/night: "));
}

#[test]
fn no_recording_is_written_to_a_terminal() {
    let (seen, given) = terminal();
    let child = spawned(&["record"], given.into(), Stdio::piped());
    let output = child.wait_with_output().unwrap();
    assert_eq!(output.status.code(), Some(2));
    assert_eq!(
        String::from_utf8(output.stderr).unwrap(),
        "qoriwesh: standard output: expected a file or a pipe, found a terminal; nothing was written\n"
    );
    assert_eq!(watched(seen, &AtomicBool::default()), "");
}
