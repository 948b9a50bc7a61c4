//! A recording of L1, "Replay a night", with L7's first kind 12 and L8's kinds 10 and 11: bytes, read into records.

use crate::mutant::Mutant;
use crate::tables::{Event, DEFAULT_SLICE};

/// "At most 65,536 records, the first included."
const RECORDS: usize = 65_536;
/// "In recordings kind 0 still means 100"
const SLICE: u32 = 100;

/// A recording "says 'cut' unless the cut falls between records"; some records stop the replay.
#[derive(Clone, Copy, Debug, PartialEq, Eq)]
pub enum Ending {
    Whole,
    Cut,
    Stopped,
}

/// The first record: N, and the full slice.
#[derive(Clone, Copy, Debug, PartialEq, Eq)]
pub(crate) struct First {
    pub n: usize,
    pub full_slice: u32,
}

/// An event, and its "four-byte stamp in microseconds".
#[derive(Clone, Copy, Debug, PartialEq, Eq)]
pub struct Recorded {
    pub stamp: u32,
    pub event: Event,
}

/// The whole records before the end, and the place where they end.
#[derive(Clone, Debug)]
pub(crate) struct Recording {
    /// None if it is not a good one; then there are no events.
    pub first: Option<First>,
    pub events: Vec<Recorded>,
    pub ending: Ending,
    pub place: usize,
}

impl Recording {
    pub(crate) fn read(bytes: &[u8], m: Mutant) -> Recording {
        let mut recording = Recording {
            first: None,
            events: Vec::new(),
            ending: Ending::Stopped,
            place: 0,
        };
        match first(bytes, m) {
            Err(ending) => recording.ending = ending,
            Ok((first, length)) => {
                recording.first = Some(first);
                recording.place = length;
                recording.read_events(bytes, m);
            }
        }
        recording
    }

    /// One record after another, until there is no whole one.
    fn read_events(&mut self, bytes: &[u8], m: Mutant) {
        let mut records = 1;
        self.ending = loop {
            let rest = &bytes[self.place..];
            if let Some(ending) = end(rest, records, m) {
                break ending;
            }
            let record = &rest[..length(rest[0], m).expect("a known kind")];
            if (1..=11).contains(&record[0]) {
                self.events.push(recorded(record, m));
            }
            self.place += record.len();
            records += 1;
        };
        self.spoil_place(bytes, m);
    }

    /// The errors about the place. By the paper it is where the whole records end.
    fn spoil_place(&mut self, bytes: &[u8], m: Mutant) {
        let last = self.events.last().map(|last| last.event.kind as u8);
        match (m, self.ending) {
            (Mutant::PlaceAfterKind, Ending::Stopped) => self.place += 1,
            (Mutant::PlaceBeforeStop, Ending::Stopped) => {
                self.place -= last.and_then(|kind| length(kind, m)).unwrap_or(0)
            }
            (Mutant::PlaceOfCutEnd, Ending::Cut) => self.place = bytes.len(),
            (Mutant::PlaceWholeZero, Ending::Whole) => self.place = 0,
            (Mutant::FirstAloneCut, Ending::Whole) if last.is_none() => self.ending = Ending::Cut,
            _ => (),
        }
    }
}

/// "Kind 0 comes first and only there: one byte, N"; "a new first kind 12, body three bytes (N, then slice)". The record and
/// its length, or how a recording ends that has no good one: "empty is cut"; "a first kind not 0, an N out of range", and "a
/// slice out of range [...] or a bad N, its slice cut or not, stops the replay".
fn first(bytes: &[u8], m: Mutant) -> Result<(First, usize), Ending> {
    use Ending::*;
    let good = |n: u8, full_slice, length| {
        let n = n.into();
        Ok((First { n, full_slice }, length))
    };
    match *bytes {
        [] if m == Mutant::EmptyWhole => Err(Whole),
        [12, ..] if m == Mutant::FirstTwelveStops => Err(Stopped),
        [12, _] | [12, _, _] if m == Mutant::BadCpusSliceCut => Err(Cut),
        [12, _] | [12, _, _] if m == Mutant::CutSliceStops => Err(Stopped),
        [] | [0 | 12] => Err(Cut),
        [0 | 12, 0 | 65.., ..] if m == Mutant::BadCpusCut => Err(Cut),
        [0 | 12, 64, ..] if m == Mutant::AllCpusStop => Err(Stopped),
        [0 | 12, 0 | 65.., ..] => Err(Stopped),
        [0, n, ..] if m == Mutant::FirstZeroDefault => good(n, DEFAULT_SLICE, 2),
        [0, n, ..] => good(n, SLICE, 2),
        [12, _] | [12, _, _] => Err(Cut),
        [12, n, low, high, ..] => good(n, recorded_slice([low, high], m)?, 4),
        _ if m == Mutant::FirstKindCut => Err(Cut),
        _ => Err(Stopped),
    }
}

/// "a number of the machine, 1 to 1,000"; "a slice out of range [...] stops the replay".
fn recorded_slice(bytes: [u8; 2], m: Mutant) -> Result<u32, Ending> {
    let slice = match m {
        Mutant::SliceLowByte => bytes[0].into(),
        Mutant::SliceHighFirst => number(&bytes, true) as u32,
        _ => number(&bytes, false) as u32,
    };
    match slice {
        1000 if m == Mutant::LongestSliceStops => Err(Ending::Stopped),
        1..=1000 => Ok(slice),
        _ if m == Mutant::BadSliceClamped => Ok(slice.clamp(1, 1000)),
        _ if m == Mutant::BadSliceCut => Err(Ending::Cut),
        _ => Err(Ending::Stopped),
    }
}

/// "low byte first like all numbers here"
fn number(bytes: &[u8], high_first: bool) -> u64 {
    let add = |sum, &byte: &u8| 256 * sum + u64::from(byte);
    match high_first {
        true => bytes.iter().fold(0, add),
        false => bytes.iter().rev().fold(0, add),
    }
}

/// "A record is one byte of kind, then a body whose length the kind fixes." Both together, if the kind is known after the
/// first record; "a later 0 is" not, nor "a later 12".
fn length(kind: u8, m: Mutant) -> Option<usize> {
    let body = match kind {
        0 if m == Mutant::LaterZeroSkipped => 1,
        12 if m == Mutant::LaterTwelveSkipped => 3,
        10 | 11 if m == Mutant::HotplugStops => return None,
        10 | 11 if m == Mutant::HotplugBodySix => 6,
        1 => 16,
        2..=4 => 6,
        5 => 7,
        6 => 14,
        7 | 8 | 10 | 11 => 5,
        9 => 6,
        _ if m == Mutant::UnknownSkipped => 0,
        _ => return None,
    };
    Some(1 + body)
}

/// Whether, and how, the recording ends where this rest of it begins, after so many records. "An unknown kind [...] or any
/// byte after record 65,536 [...] goes before 'cut'."
fn end(rest: &[u8], records: usize, m: Mutant) -> Option<Ending> {
    let most = match m {
        Mutant::RecordsOneLess => RECORDS - 1,
        Mutant::RecordsOneMore => RECORDS + 1,
        Mutant::RecordsUnlimited => usize::MAX,
        _ => RECORDS,
    };
    let Some(&kind) = rest.first() else {
        return Some(Ending::Whole);
    };
    let length = length(kind, m);
    let cut = length.is_some_and(|length| rest.len() < length);
    match m {
        Mutant::LastUnknownCut if rest.len() == 1 => return Some(Ending::Cut),
        Mutant::TooManyCut if records == most => return Some(Ending::Cut),
        Mutant::TooManyCutCut if records == most && cut => return Some(Ending::Cut),
        _ => (),
    }
    match length {
        _ if records == most => Some(Ending::Stopped),
        None => Some(Ending::Stopped),
        Some(_) if cut => Some(Ending::Cut),
        Some(_) => None,
    }
}

/// What a whole record of an event says: the stamp, then the task or CPU, the policy, the priority or flag, and the mask, as
/// far as its kind has them. "Unused ones are ignored".
fn recorded(record: &[u8], m: Mutant) -> Recorded {
    let (kind, body) = (record[0], &record[1..]);
    let (stamp, rest) = body.split_at(4);
    let (who, rest) = rest.split_at(if kind <= 6 { 2 } else { 1 });
    let (a, b, mask): (u8, u8, &[u8]) = match (kind, rest) {
        (1, &[b, a, ref mask @ ..]) if m == Mutant::PriorityBeforePolicy => (a, b, mask),
        (1, &[a, b, ref mask @ ..]) => (a, b, mask),
        (5 | 9, &[b, ..]) => (0, b, &[]),
        (6, mask) => (0, 0, mask),
        _ => (0, 0, &[]),
    };
    let event = Event {
        kind: kind.into(),
        who: match m {
            Mutant::TaskLowByte => who[0].into(),
            _ => number(who, m == Mutant::TaskHighFirst) as u32,
        },
        a: a.into(),
        b: b.into(),
        mask: match m {
            Mutant::MaskFourBytes => number(&mask[..mask.len() / 2], false),
            _ => number(mask, m == Mutant::MaskHighFirst),
        },
    };
    let stamp = stamp_of(stamp, m);
    Recorded { stamp, event }
}

/// "Stamps are 32 bits"
pub(crate) fn stamp_of(bytes: &[u8], m: Mutant) -> u32 {
    match m {
        Mutant::StampThreeBytes => number(&bytes[..3], false) as u32,
        _ => number(bytes, m == Mutant::StampHighFirst) as u32,
    }
}
