//! Recordings, replayed by the built program.

mod common;
mod nights;
mod page;
mod terminal;

use common::{run, run_bytes, PROGRAM};
use nights::{recorded, replayed, said, Folder, Random, BODIES, NIGHT};
use page::{blocks, page};
use std::io::Write;
use std::process::{Command, Output, Stdio};
use std::sync::atomic::{AtomicBool, Ordering};
use std::thread;
use std::time::Duration;
use terminal::{spawned, terminal, watched};

/// The last line of a report: how the recording ended.
fn ending(report: &str) -> &str {
    let last = report.lines().last().unwrap();
    last.strip_prefix("  ").unwrap()
}

#[test]
fn a_night_is_told() {
    let ended = replayed(&recorded(NIGHT));
    let expected = "\
<stdin>
  machine        4 CPUs, slice 7
  events         8
  refused        2
    with 4       1  no such task or CPU
    with 5       1  the task is not in the state that the event needs
  moves          1
  night          0.001200 s
  stamps         @4294967196 to @1100
  with a real-time task
    CPU 0        0.000800 s   66.67 %
    CPU 1        0.000400 s   33.33 %
    for no time  CPUs 2-3
  whole: 78 bytes
";
    assert_eq!(ended.out, expected);
    assert_eq!(ended.status, 1);
}

#[test]
fn a_night_of_hours_is_told_in_hours_too() {
    let stamps = "@0 wake 0\n@3600000000 tick 0\n@2905032704 sleep 0\n";
    let ended = replayed(&recorded(&format!(
        "cpus 1 slice 100\nadd 0 fifo 1 0\n{stamps}"
    )));
    assert_eq!(ended.status, 0);
    assert_eq!(said(&ended.out, "night"), "7200.000000 s (2:00:00)");
    assert_eq!(said(&ended.out, "CPU 0"), "7200.000000 s  100.00 %");
    assert!(!ended.out.contains("for no time"), "{}", ended.out);
}

/// One step back is a whole round less one.
#[test]
fn equal_stamps_and_a_step_back() {
    let ended = replayed(&recorded("cpus 1\n@7 add 0 fifo 1 0\nwake 0\n@7 tick 0\n"));
    assert_eq!(said(&ended.out, "night"), "0.000000 s");
    assert_eq!(said(&ended.out, "stamps"), "@7 to @7");
    assert_eq!(said(&ended.out, "for no time"), "CPU 0");
    let ended = replayed(&recorded("cpus 1\n@7 add 0 fifo 1 0\nwake 0\n@6 tick 0\n"));
    assert_eq!(said(&ended.out, "night"), "4294.967295 s (1:11:34)");
    assert_eq!(said(&ended.out, "CPU 0"), "4294.967295 s  100.00 %");
}

#[test]
fn every_ending_in_words() {
    let night = recorded(NIGHT);
    let behind = |bytes: &[u8]| [&night[..], bytes].concat();
    for (bytes, words) in [
        (night.clone(), "whole: 78 bytes"),
        (vec![0, 64], "whole: 2 bytes"),
        (vec![12, 1, 232, 3], "whole: 4 bytes"),
        (vec![], "cut: the recording is empty"),
        (vec![0], "cut: the record at byte 0 is not whole"),
        (vec![12], "cut: the record at byte 0 is not whole"),
        (vec![12, 64, 1], "cut: the record at byte 0 is not whole"),
        (
            night[..77].to_vec(),
            "cut: the record at byte 72 is not whole",
        ),
        (behind(&[11]), "cut: the record at byte 78 is not whole"),
        (
            behind(&[12]),
            "stopped at byte 78: unknown kind 12, which only the first record has",
        ),
        (
            behind(&[0, 4]),
            "stopped at byte 78: unknown kind 0, which only the first record has",
        ),
        (behind(&[14; 50]), "stopped at byte 78: unknown kind 14"),
        (behind(&[255]), "stopped at byte 78: unknown kind 255"),
        (
            vec![1; 17],
            "stopped at byte 0: the first record's kind is 1, not 0 or 12",
        ),
        (
            vec![13],
            "stopped at byte 0: the first record's kind is 13, not 0 or 12",
        ),
        (
            vec![0, 65],
            "stopped at byte 0: the first record's N is 65, not 1 to 64",
        ),
        (
            vec![12, 0],
            "stopped at byte 0: the first record's N is 0, not 1 to 64",
        ),
        (
            vec![12, 65, 0, 0],
            "stopped at byte 0: the first record's N is 65, not 1 to 64",
        ),
        (
            vec![12, 1, 0, 0],
            "stopped at byte 0: the first record's slice is 0, not 1 to 1000",
        ),
        (
            vec![12, 64, 233, 3],
            "stopped at byte 0: the first record's slice is 1001, not 1 to 1000",
        ),
    ] {
        let ended = replayed(&bytes);
        assert_eq!(ending(&ended.out), words);
        // NIGHT has refused events.
        let well = words.starts_with("whole") && bytes.len() < 10;
        assert_eq!(ended.status, i32::from(!well), "{words}");
        let first = !words.contains("byte 0") && !words.contains("empty");
        assert_eq!(ended.out.contains("machine"), first, "{words}");
    }
}

/// What a cut or stopped recording gives is what its whole records give.
#[test]
fn whole_records_alone_are_told() {
    let night = recorded(NIGHT);
    let whole = replayed(&night[..72]).out;
    assert_eq!(ending(&whole), "whole: 72 bytes");
    let report = |bytes: &[u8]| {
        let out = replayed(bytes).out;
        let end = out.trim_end().rfind('\n').unwrap();
        out[..end].to_string()
    };
    assert_eq!(report(&night[..72]), report(&night[..75]));
    assert_eq!(
        report(&night[..72]),
        report(&[&night[..72], &[99, 1]].concat())
    );
    assert_ne!(report(&night[..72]), report(&night));
}

/// Refusal 4 once, 5 twice and so on.
#[test]
fn refused_events_are_counted_by_their_numbers() {
    let mut text = "cpus 2\nadd 0 fifo 9 0\nwake 0\n".to_string();
    for (index, line) in [
        "wake 600",
        "wake 0",
        "add 1 7 9 0",
        "prio 0 100",
        "affinity 0 0x0",
        "yield 1",
        "offline 0",
        "online 0",
    ]
    .iter()
    .enumerate()
    {
        text += &format!("{line}\n").repeat(index + 1);
    }
    text += "sleep 0\noffline 1\n";
    text += &"offline 0\n".repeat(9);
    let ended = replayed(&recorded(&text));
    let refusals = "  refused        45
    with 4        1  no such task or CPU
    with 5        2  the task is not in the state that the event needs
    with 6        3  a policy other than fifo and rr
    with 7        4  a priority not 1 to 99, or ordinary work not 0 or 1
    with 8        5  a mask with no CPU, or with one that is not there
    with 9        6  a yield on a CPU with no task
    with 10       7  no allowed CPU online for a runnable or waking task
    with 11       8  the CPU is offline, or already as it should become
    with 12       9  the last online CPU stays online
";
    assert!(ended.out.contains(refusals), "{}", ended.out);
    assert_eq!(said(&ended.out, "events"), "49");
    assert_eq!(ended.status, 1);
}

#[test]
fn each_file_is_a_night_of_its_own() {
    let folder = Folder::new("files");
    let whole = folder.file("whole", &[0, 3]);
    let cut = folder.file("cut", &recorded(NIGHT)[..75]);
    let one = |name: &str| {
        let ended = run(&["replay", name], b"");
        assert!(ended.out.starts_with(&format!("{name}\n")));
        (ended.status, ended.out)
    };
    let ((well, first), (told, second)) = (one(&whole), one(&cut));
    assert_eq!((well, told), (0, 1));
    let both = run(&["replay", &whole, &cut], b"");
    assert_eq!((both.status, both.err.as_str()), (1, ""));
    assert_eq!(both.out, format!("{first}\n{second}"));
    let twice = run(&["replay", &whole, &whole], b"");
    assert_eq!((twice.status, twice.out), (0, format!("{first}\n{first}")));

    for wrong in ["/nonexistent/night", "/"] {
        let ended = run(&["replay", wrong, &cut, wrong, &whole], b"");
        assert_eq!(ended.status, 2);
        assert_eq!(ended.out, format!("{second}\n{first}"));
        let told: Vec<&str> = ended.err.lines().collect();
        assert_eq!(told.len(), 2, "{}", ended.err);
        assert!(told[1].starts_with(&format!("qoriwesh: {wrong}: ")));
    }
}

#[test]
fn standard_input_with_and_without_a_dash() {
    let night = recorded(NIGHT);
    let folder = Folder::new("dash");
    let file = folder.file("night", &night);
    let plain = replayed(&night);
    let dash = run(&["replay", "-"], &night);
    assert_eq!((dash.status, &dash.out), (1, &plain.out));
    let named = run(&["replay", &file], b"").out;
    assert_eq!(named, plain.out.replace("<stdin>", &file));
    let between = run(&["replay", &file, "-", &file], &night).out;
    assert_eq!(between, format!("{named}\n{}\n{named}", plain.out));
    for command in ["record", "text"] {
        let input = if command == "text" {
            &night[..]
        } else {
            NIGHT.as_bytes()
        };
        let plain = run_bytes(&[command], input);
        assert_eq!(run_bytes(&[command, "-"], input).out, plain.out);
        assert_eq!(plain.status, 0);
    }
}

/// 65,536 records with the first are whole; a byte more, whatever it is, stops the replay.
#[test]
fn a_record_too_many() {
    let ticks = "tick 0 10000\n".repeat(6);
    let mut bytes = recorded(&format!("cpus 1\n{ticks}tick 0 5535\n"));
    let ended = replayed(&bytes);
    assert_eq!(said(&ended.out, "events"), "65535");
    assert_eq!(ending(&ended.out), "whole: 393214 bytes");
    assert_eq!(ended.status, 0);
    for byte in [0, 7, 12, 255] {
        bytes.push(byte);
        let ended = replayed(&bytes);
        bytes.pop();
        let words = "stopped at byte 393214: more than 65536 records";
        assert_eq!(ending(&ended.out), words);
        assert_eq!(said(&ended.out, "events"), "65535");
        assert_eq!(ended.status, 1);
    }
}

/// The longest recording has 1,114,099 bytes, and no more than one byte behind them is read.
#[test]
fn the_longest_recording_and_an_endless_input() {
    let add = &recorded("cpus 1\nadd 0 fifo 1 0\n")[4..];
    let longest = [&[12, 1, 25, 0], &add.repeat(65535)[..]].concat();
    let ended = |bytes: &[u8]| ending(&replayed(bytes).out).to_string();
    assert_eq!(ended(&longest), "whole: 1114099 bytes");
    let cut = "cut: the record at byte 1114082 is not whole";
    assert_eq!(ended(&longest[..1114098]), cut);

    for command in ["replay", "text"] {
        let mut child = Command::new(PROGRAM)
            .arg(command)
            .stdin(Stdio::piped())
            .stdout(Stdio::piped())
            .stderr(Stdio::piped())
            .spawn()
            .unwrap();
        let mut input = child.stdin.take().unwrap();
        let feeder = std::thread::spawn(move || {
            input.write_all(&[12, 1, 25, 0]).unwrap();
            while input.write_all(&[1; 17]).is_ok() {}
        });
        let output = child.wait_with_output().unwrap();
        feeder.join().unwrap();
        assert_eq!(output.status.code(), Some(1));
        let told = [output.stdout, output.stderr].concat();
        let words = "stopped at byte 1114099: more than 65536 records\n";
        assert!(told.ends_with(words.as_bytes()), "{command}");
    }
}

/// The largest numbers: every second CPU has a task from the first event on, and each stamp is a step back.
#[test]
fn every_line_of_a_report_fits_80_columns() {
    let mut text = "cpus 64 slice 1000\n".to_string();
    for cpu in (0..64).step_by(2) {
        text += &format!("@7 add {cpu} fifo 9 {cpu}\nwake {cpu}\n");
    }
    for back in 0..20_000 {
        text += &format!(
            "@{} wake 600\n@{} offline 0\n",
            60_000 - back,
            59_999 - back
        );
    }
    let out = replayed(&recorded(&text)).out;
    for line in out.lines() {
        assert!(line.len() <= 80, "{line}");
        assert_eq!(line, line.trim_end());
    }
    assert_eq!(
        said(&out, "with 10"),
        "20000  no allowed CPU online for a runnable or waking task"
    );
    let list: Vec<String> = (1..64).step_by(2).map(|cpu| cpu.to_string()).collect();
    let none = out
        .split("for no time")
        .nth(1)
        .unwrap()
        .split("whole")
        .next()
        .unwrap();
    let none: String = none.split_whitespace().collect();
    assert_eq!(none, format!("CPUs{}", list.join(",")));
}

/// The events and the night of random recordings, worked out here.
#[test]
fn random_nights_are_counted() {
    let mut random = Random(1);
    for _ in 0..100 {
        let bytes = random.recording();
        let mut place = if bytes[0] == 0 { 2 } else { 4 };
        let mut stamps = Vec::new();
        while place < bytes.len() {
            let stamp = bytes[place + 1..place + 5].try_into().unwrap();
            stamps.push(u32::from_le_bytes(stamp));
            place += 1 + BODIES[bytes[place] as usize - 1];
        }
        let step = |pair: &[u32]| u64::from(pair[1].wrapping_sub(pair[0]));
        let night: u64 = stamps.windows(2).map(step).sum();
        let out = replayed(&bytes).out;
        assert_eq!(said(&out, "events"), stamps.len().to_string());
        let seconds = format!("{}.{:06} s", night / 1_000_000, night % 1_000_000);
        assert!(said(&out, "night").starts_with(&seconds), "{out}");
        assert_eq!(
            said(&out, "machine").split(' ').next().unwrap(),
            bytes[1].to_string()
        );
        assert_eq!(ending(&out), format!("whole: {} bytes", bytes.len()));
    }
}

/// Replays a recording that comes piece by piece until the terminal shows something; then the rest comes at once. The output,
/// and what the terminal shows.
fn fed_until_told(night: &[u8]) -> (Output, String) {
    let (seen, given) = terminal();
    let mut child = spawned(&["replay"], Stdio::piped(), given.into());
    let mut input = child.stdin.take().unwrap();
    let told = AtomicBool::new(false);
    thread::scope(|scope| {
        let watcher = scope.spawn(|| watched(seen, &told));
        for piece in night.chunks(8) {
            input.write_all(piece).unwrap();
            if !told.load(Ordering::Relaxed) {
                thread::sleep(Duration::from_millis(10));
            }
        }
        drop(input);
        (child.wait_with_output().unwrap(), watcher.join().unwrap())
    })
}

/// However slow the computer is: the input waits for the line. (When the line is due is tested with the line.)
#[test]
fn a_long_replay_says_how_far_it_is() {
    let night = recorded(&format!("cpus 1\n{}", "tick 0\n".repeat(10_000)));
    let (output, shown) = fed_until_told(&night);
    assert_eq!(output.stdout, replayed(&night).out.as_bytes());
    let rest = shown
        .strip_prefix("\r\x1b[Kqoriwesh: file 1 of 1, ")
        .unwrap();
    let (count, rest) = rest.split_once(' ').unwrap();
    assert!((1..=night.len()).contains(&count.parse().unwrap()));
    assert!(rest.starts_with("bytes: <stdin>\r\x1b[K"), "{rest:?}");
    assert!(rest.ends_with("\r\x1b[K"), "{rest:?}");
}

/// A file is not told, however slow the input is.
#[test]
fn no_file_is_told_how_far_a_replay_is() {
    let night = recorded(NIGHT);
    let mut child = spawned(&["replay"], Stdio::piped(), Stdio::piped());
    let mut input = child.stdin.take().unwrap();
    let (first, second) = night.split_at(night.len() / 2);
    input.write_all(first).unwrap();
    thread::sleep(Duration::from_millis(1300));
    input.write_all(second).unwrap();
    drop(input);
    let output = child.wait_with_output().unwrap();
    assert_eq!(output.stdout, replayed(&night).out.as_bytes());
    assert_eq!(output.stderr, b"");
}

/// The worked example of docs/TOOL.md is what the program says.
#[test]
fn the_page_replays_what_the_program_does() {
    let page = page();
    let (nights, reports) = (blocks(&page, "night"), blocks(&page, "report"));
    assert_eq!((nights.len(), reports.len()), (1, 1));
    let night = recorded(nights[0]);
    let text = run(&["text"], &night).out;
    let indented: String = text
        .lines()
        .take(3)
        .map(|line| format!("    {line}\n"))
        .collect();
    assert!(page.contains(&indented), "{indented}");
    let folder = Folder::new("page");
    folder.file("night.rec", &night);
    let output = Command::new(PROGRAM)
        .args(["replay", "night.rec"])
        .current_dir(&folder.0)
        .output()
        .unwrap();
    assert_eq!(String::from_utf8(output.stdout).unwrap(), reports[0]);
    assert_eq!(output.status.code(), Some(1));
}
