//! `qoriwesh text`: a recording, written as the text of its events.

use crate::cpulist;
use crate::input::Input;
use crate::recording::{First, Recording, Stamped, ENOUGH};
use binding::Event;
use replay::RECORDED_SLICE;
use std::io::{self, Write};

/// A list of CPUs that is longer is written as a mask, which never is.
const LONGEST_LIST: usize = 18;

/// The whole records of a recording; else what to say.
pub fn read(input: &Input) -> Result<Recording, String> {
    let bytes = input.read(ENOUGH, "the bytes of a recording", |_| {});
    let bytes = bytes.map_err(|error| format!("{}: {error}", input.name()))?;
    Ok(Recording::read(&bytes))
}

/// A line for each record.
pub fn write(out: &mut dyn Write, recording: &Recording) -> io::Result<()> {
    if let Some(first) = recording.first {
        writeln!(out, "{}", machine(first))?;
    }
    for &Stamped { stamp, event } in &recording.events {
        writeln!(out, "@{stamp} {}", command(event))?;
    }
    Ok(())
}

/// `named`, if only that says that the record names the slice.
fn machine(first: First) -> String {
    let First { cpus, slice, named } = first;
    let named = match named && slice == RECORDED_SLICE {
        true => " named",
        false => "",
    };
    format!("cpus {cpus} slice {slice}{named}")
}

fn command(e: Event) -> String {
    let Event {
        kind,
        who,
        a,
        b,
        mask,
    } = e;
    match kind {
        1 => format!("add {who} {} {b} {}", policy(a), cpus(mask)),
        2 => format!("remove {who}"),
        3 => format!("wake {who}"),
        4 => format!("sleep {who}"),
        5 => format!("prio {who} {b}"),
        6 => format!("affinity {who} {}", cpus(mask)),
        7 => format!("tick {who}"),
        8 => format!("yield {who}"),
        9 => format!("ordinary {who} {}", flag(b)),
        10 => format!("offline {who}"),
        11 => format!("online {who}"),
        _ => format!("event {kind} {who} {a} {b} {mask:#x}"),
    }
}

/// A policy that is neither is written as its number, and so is a flag.
fn policy(number: u32) -> String {
    match number {
        1 => "fifo".to_string(),
        2 => "rr".to_string(),
        _ => number.to_string(),
    }
}

fn flag(number: u32) -> String {
    match number {
        0 => "off".to_string(),
        1 => "on".to_string(),
        _ => number.to_string(),
    }
}

/// The CPUs as a list; as a mask, if there are none or the list is long.
fn cpus(mask: u64) -> String {
    let list = cpulist::write(mask);
    if mask == 0 || list.len() > LONGEST_LIST {
        return format!("{mask:#x}");
    }
    list
}
