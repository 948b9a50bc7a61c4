//! The records of a recording.

use crate::event::Event;
use crate::record::CPUS;
use crate::tables::SLICE_MAX;

/// Records at most, the first included.
const RECORDS: usize = 65536;
/// The full slice where the first record names none.
const RECORDED_SLICE: u16 = 100;
/// Bytes of the longest record.
const LONGEST: usize = 17;

/// How a recording ends: behind a record, within one, or at one that stops the replay.
#[derive(Clone, Copy, Debug, PartialEq, Eq)]
pub enum Ending {
    Whole,
    Cut,
    Stopped,
}

/// The first record: N, the full slice, and the place behind it; or the recording ends there.
pub fn first(bytes: &[u8]) -> Result<(usize, u16, usize), Ending> {
    match *bytes {
        [] | [0 | 12] => Err(Ending::Cut),
        [0 | 12, n, ..] if !(1..=CPUS).contains(&n.into()) => Err(Ending::Stopped),
        [0, n, ..] => Ok((n.into(), RECORDED_SLICE, 2)),
        [12, n, low, high, ..] => {
            let full_slice = u16::from_le_bytes([low, high]);
            match (1..=SLICE_MAX).contains(&full_slice.into()) {
                true => Ok((n.into(), full_slice, 4)),
                false => Err(Ending::Stopped),
            }
        }
        [12, ..] => Err(Ending::Cut),
        _ => Err(Ending::Stopped),
    }
}

/// How the records of a kind differ from others: their length, the bits of who, and the places of b and of the mask. A
/// number that a kind does not have may be read from anywhere, for it is ignored: so no kind needs a branch.
struct Layout {
    length: usize,
    who: u16,
    b: usize,
    mask: usize,
}

const fn layout(length: usize, who: u16, b: usize, mask: usize) -> Layout {
    Layout {
        length,
        who,
        b,
        mask,
    }
}

/// A task has two bytes, a CPU one.
const TASK: u16 = 0xffff;
const CPU: u16 = 0xff;
/// Kinds without b and mask.
const OF_TASK: Layout = layout(7, TASK, 0, 0);
const OF_CPU: Layout = layout(6, CPU, 0, 0);

/// By kind, from 1 on.
const LAYOUTS: [Layout; 11] = [
    layout(LONGEST, TASK, 8, 9),
    OF_TASK,
    OF_TASK,
    OF_TASK,
    layout(8, TASK, 7, 0),
    layout(15, TASK, 0, 7),
    OF_CPU,
    OF_CPU,
    layout(7, CPU, 6, 0),
    OF_CPU,
    OF_CPU,
];

/// The event records from a place on.
pub struct Events<'a> {
    bytes: &'a [u8],
    rest: &'a [u8],
    /// How many may still come.
    room: usize,
}

impl<'a> Events<'a> {
    pub fn new(bytes: &'a [u8], from: usize) -> Events<'a> {
        Events {
            bytes,
            rest: &bytes[from..],
            room: RECORDS - 1,
        }
    }

    /// The byte where the records end that were read.
    pub fn place(&self) -> usize {
        self.bytes.len() - self.rest.len()
    }

    /// The next event and its stamp, or how the recording ends.
    pub fn next(&mut self) -> Result<(u32, Event), Ending> {
        let &kind = self.rest.first().ok_or(Ending::Whole)?;
        let layout = match LAYOUTS.get(usize::from(kind).wrapping_sub(1)) {
            Some(layout) if self.room > 0 => layout,
            _ => return Err(Ending::Stopped),
        };
        let event = match self.rest.first_chunk() {
            Some(record) => decode(record, layout),
            None if self.rest.len() < layout.length => return Err(Ending::Cut),
            None => decode(&padded(self.rest), layout),
        };
        self.rest = &self.rest[layout.length..];
        self.room -= 1;
        Ok(event)
    }
}

/// The last bytes, with zeros behind them.
fn padded(rest: &[u8]) -> [u8; LONGEST] {
    let mut record = [0; LONGEST];
    record[..rest.len()].copy_from_slice(rest);
    record
}

/// The event of a record and its stamp. There may be bytes of other records behind it.
fn decode(record: &[u8; LONGEST], layout: &Layout) -> (u32, Event) {
    let [kind, s0, s1, s2, s3, w0, w1, a, ..] = *record;
    let mut mask = [0; 8];
    mask.copy_from_slice(&record[layout.mask..][..8]);
    let event = Event {
        kind: kind.into(),
        who: (u16::from_le_bytes([w0, w1]) & layout.who).into(),
        a: a.into(),
        b: record[layout.b].into(),
        mask: u64::from_le_bytes(mask),
    };
    (u32::from_le_bytes([s0, s1, s2, s3]), event)
}
