//! Recordings: the bytes of document 02's request L1, read into events and written from them.

use binding::{Event, CPUS, SLICE_MAX, SLICE_MIN};
use replay::{Ending, RECORDED_SLICE, RECORDS};

/// The kinds of a first record: N alone, and N with the full slice.
const FIRST: u8 = 0;
const FIRST_SLICE: u8 = 12;
/// Bytes of a stamp, with which every event's body begins.
const STAMP: usize = 4;
/// Bytes of the longest recording: its first record names the slice, and all others add a task.
const LONGEST: usize = 4 + (RECORDS - 1) * 17;
/// The most bytes of an input that matter: with one more than the longest recording it has a record too many, whatever follows.
pub const ENOUGH: usize = LONGEST + 1;

/// A number of an event, as a body has it behind the stamp.
#[derive(Clone, Copy)]
enum Field {
    Task,
    Cpu,
    Policy,
    Priority,
    Flag,
    Mask,
}

/// The numbers of a kind's body; there are kinds 1 to 11.
fn fields(kind: u32) -> Option<&'static [Field]> {
    Some(match kind {
        1 => &[Field::Task, Field::Policy, Field::Priority, Field::Mask],
        2..=4 => &[Field::Task],
        5 => &[Field::Task, Field::Priority],
        6 => &[Field::Task, Field::Mask],
        7 | 8 | 10 | 11 => &[Field::Cpu],
        9 => &[Field::Cpu, Field::Flag],
        _ => return None,
    })
}

impl Field {
    /// Its bytes.
    fn width(self) -> usize {
        match self {
            Field::Mask => 8,
            Field::Task => 2,
            Field::Cpu | Field::Policy | Field::Priority | Field::Flag => 1,
        }
    }

    fn get(self, e: Event) -> u64 {
        match self {
            Field::Task | Field::Cpu => u64::from(e.who),
            Field::Policy => u64::from(e.a),
            Field::Priority | Field::Flag => u64::from(e.b),
            Field::Mask => e.mask,
        }
    }

    fn set(self, e: &mut Event, value: u64) {
        match self {
            Field::Task | Field::Cpu => e.who = value as u32,
            Field::Policy => e.a = value as u32,
            Field::Priority | Field::Flag => e.b = value as u32,
            Field::Mask => e.mask = value,
        }
    }

    fn name(self) -> &'static str {
        match self {
            Field::Task => "a task number",
            Field::Cpu => "a CPU number",
            Field::Policy => "a policy",
            Field::Priority => "a priority",
            Field::Flag => "a number for ordinary work",
            Field::Mask => "a mask",
        }
    }
}

/// A number of at most eight bytes, low byte first.
fn read_number(bytes: &[u8]) -> u64 {
    bytes
        .iter()
        .rev()
        .fold(0, |n, &byte| n << 8 | u64::from(byte))
}

/// What the first record says.
#[derive(Clone, Copy, Debug, PartialEq, Eq)]
pub struct First {
    pub cpus: usize,
    pub slice: u32,
    /// It names the slice (kind 12). If not, that is 100.
    pub named: bool,
}

impl First {
    /// The record, or that no recording begins so.
    pub fn write(self) -> Result<Vec<u8>, String> {
        let First { cpus, slice, named } = self;
        if !(1..=CPUS).contains(&cpus) {
            return Err(format!("expected 1 to {CPUS} CPUs, found {cpus}"));
        }
        if !(SLICE_MIN..=SLICE_MAX).contains(&slice) {
            return Err(format!(
                "expected a slice of {SLICE_MIN} to {SLICE_MAX} ticks, found {slice}"
            ));
        }
        let [low, high, ..] = slice.to_le_bytes();
        Ok(match named || slice != RECORDED_SLICE {
            true => vec![FIRST_SLICE, cpus as u8, low, high],
            false => vec![FIRST, cpus as u8],
        })
    }

    /// The record and its length.
    fn read(bytes: &[u8]) -> Result<(First, usize), End> {
        let &kind = bytes.first().ok_or(End::Empty)?;
        if kind != FIRST && kind != FIRST_SLICE {
            return Err(End::FirstKind(kind));
        }
        let named = kind == FIRST_SLICE;
        let &cpus = bytes.get(1).ok_or(End::Cut)?;
        let first = |slice| First {
            cpus: cpus.into(),
            slice,
            named,
        };
        if !(1..=CPUS).contains(&cpus.into()) {
            return Err(End::Cpus(cpus));
        }
        if !named {
            return Ok((first(RECORDED_SLICE), 2));
        }
        let slice = read_number(bytes.get(2..4).ok_or(End::Cut)?) as u32;
        if !(SLICE_MIN..=SLICE_MAX).contains(&slice) {
            return Err(End::Slice(slice));
        }
        Ok((first(slice), 4))
    }
}

/// An event and its time in microseconds.
#[derive(Clone, Copy, Debug, PartialEq, Eq)]
pub struct Stamped {
    pub stamp: u32,
    pub event: Event,
}

impl Stamped {
    /// The record; or that no record holds the event. Numbers that its kind does not use are not kept.
    pub fn write(self) -> Result<Vec<u8>, String> {
        let Stamped { stamp, event } = self;
        let Some(fields) = fields(event.kind) else {
            return Err(format!(
                "expected an event of kind 1 to 11, as a recording has them, found {}",
                event.kind
            ));
        };
        let mut record = vec![event.kind as u8];
        record.extend(stamp.to_le_bytes());
        for &field in fields {
            let (value, width) = (field.get(event), field.width());
            let bytes = value.to_le_bytes();
            if bytes[width..].iter().any(|&byte| byte != 0) {
                return Err(format!(
                    "expected {} of {} bits, as a recording has it, found {value}",
                    field.name(),
                    8 * width
                ));
            }
            record.extend(&bytes[..width]);
        }
        Ok(record)
    }

    /// The record that begins the bytes, and its length.
    fn read(bytes: &[u8]) -> Result<(Stamped, usize), End> {
        let &kind = bytes.first().ok_or(End::Whole)?;
        let fields = fields(kind.into()).ok_or(End::Kind(kind))?;
        let length = 1 + STAMP + fields.iter().map(|field| field.width()).sum::<usize>();
        let body = bytes.get(1..length).ok_or(End::Cut)?;
        let (stamp, mut rest) = body.split_at(STAMP);
        let mut event = Event::new(kind.into(), 0, 0, 0, 0);
        for &field in fields {
            let (number, behind) = rest.split_at(field.width());
            field.set(&mut event, read_number(number));
            rest = behind;
        }
        let stamp = read_number(stamp) as u32;
        Ok((Stamped { stamp, event }, length))
    }
}

/// Why a recording ends where its whole records do.
#[derive(Clone, Copy, Debug, PartialEq, Eq)]
pub enum End {
    Whole,
    /// There is no byte.
    Empty,
    /// The next record is not whole.
    Cut,
    /// The next record is of a kind that no event has.
    Kind(u8),
    FirstKind(u8),
    /// The first record's number of CPUs is out of range.
    Cpus(u8),
    /// The first record's slice is out of range.
    Slice(u32),
    /// The next record is one too many.
    TooMany,
}

/// The whole records of a recording, and how it ends.
#[derive(Clone, Debug, PartialEq, Eq)]
pub struct Recording {
    /// None, if the recording does not begin with a good one.
    pub first: Option<First>,
    pub events: Vec<Stamped>,
    /// The byte where the whole records end.
    pub place: usize,
    pub end: End,
}

impl Recording {
    pub fn read(bytes: &[u8]) -> Recording {
        let mut events = Vec::new();
        let (first, mut place) = match First::read(bytes) {
            Ok((first, length)) => (Some(first), length),
            Err(end) => {
                return Recording {
                    first: None,
                    events,
                    place: 0,
                    end,
                }
            }
        };
        let end = loop {
            if 1 + events.len() == RECORDS && place < bytes.len() {
                break End::TooMany;
            }
            match Stamped::read(&bytes[place..]) {
                Ok((event, length)) => {
                    events.push(event);
                    place += length;
                }
                Err(end) => break end,
            }
        };
        Recording {
            first,
            events,
            place,
            end,
        }
    }

    /// The ending as the library has it.
    pub fn ending(&self) -> Ending {
        match self.end {
            End::Whole => Ending::Whole,
            End::Empty | End::Cut => Ending::Cut,
            _ => Ending::Stopped,
        }
    }

    /// The ending in words.
    pub fn ended(&self) -> String {
        let place = self.place;
        let why = match self.end {
            End::Whole => return format!("whole: {place} bytes"),
            End::Empty => return "cut: the recording is empty".to_string(),
            End::Cut => return format!("cut: the record at byte {place} is not whole"),
            End::Kind(kind @ (FIRST | FIRST_SLICE)) => {
                format!("unknown kind {kind}, which only the first record has")
            }
            End::Kind(kind) => format!("unknown kind {kind}"),
            End::FirstKind(kind) => {
                format!("the first record's kind is {kind}, not {FIRST} or {FIRST_SLICE}")
            }
            End::Cpus(n) => format!("the first record's N is {n}, not 1 to {CPUS}"),
            End::Slice(ticks) => {
                format!("the first record's slice is {ticks}, not {SLICE_MIN} to {SLICE_MAX}")
            }
            End::TooMany => format!("more than {RECORDS} records"),
        };
        format!("stopped at byte {place}: {why}")
    }

    /// Microseconds from the first event to the last. Stamps run past their end to zero.
    pub fn length(&self) -> u64 {
        let between = |pair: &[Stamped]| pair[1].stamp.wrapping_sub(pair[0].stamp);
        self.events.windows(2).map(between).map(u64::from).sum()
    }
}
