//! Recordings as bytes: written here, by a third way, and divided into records again.

use binding::Event;

/// The first record: N, and the full slice if it is named.
pub fn first(n: u8, slice: Option<u16>) -> Vec<u8> {
    let mut bytes = vec![if slice.is_some() { 12 } else { 0 }, n];
    bytes.extend(slice.iter().flat_map(|slice| slice.to_le_bytes()));
    bytes
}

/// An event of kind 1 to 11, as much of it as a record has a place for.
pub fn cut(e: Event) -> Event {
    let task = e.kind <= 6;
    Event {
        kind: e.kind,
        who: if task { e.who % 65536 } else { e.who % 256 },
        a: e.a % 256,
        b: e.b % 256,
        mask: e.mask,
    }
}

/// The record of such an event with its stamp.
pub fn record(stamp: u32, e: Event) -> Vec<u8> {
    let mut bytes = vec![e.kind as u8];
    bytes.extend(stamp.to_le_bytes());
    match e.kind {
        1..=6 => bytes.extend((e.who as u16).to_le_bytes()),
        _ => bytes.push(e.who as u8),
    }
    match e.kind {
        1 => bytes.extend([e.a as u8, e.b as u8]),
        5 | 9 => bytes.push(e.b as u8),
        _ => (),
    }
    if matches!(e.kind, 1 | 6) {
        bytes.extend(e.mask.to_le_bytes());
    }
    bytes
}

/// The records, the first one first, as long as they are whole and their kinds known; then what is left, if anything.
pub fn divide(bytes: &[u8]) -> Vec<&[u8]> {
    let mut records = Vec::new();
    let mut rest = bytes;
    while let Some(&kind) = rest.first() {
        let length = match kind {
            0 | 12 if records.is_empty() => first(0, (kind == 12).then_some(0)).len(),
            1..=11 if !records.is_empty() => record(0, Event::new(kind.into(), 0, 0, 0, 0)).len(),
            _ => rest.len(),
        };
        let (record, behind) = rest.split_at(length.min(rest.len()));
        records.push(record);
        rest = behind;
    }
    records
}

#[cfg(test)]
mod tests {
    use super::*;

    #[test]
    fn numbers_are_written_low_byte_first() {
        assert_eq!(first(2, None), [0, 2]);
        assert_eq!(first(64, Some(1000)), [12, 64, 232, 3]);
        let add = record(0x0403_0201, Event::new(1, 511, 2, 50, 1 << 63));
        assert_eq!(
            add,
            [1, 1, 2, 3, 4, 255, 1, 2, 50, 0, 0, 0, 0, 0, 0, 0, 128]
        );
        assert_eq!(record(0, Event::new(9, 3, 0, 1, 0)), [9, 0, 0, 0, 0, 3, 1]);
        let numbers = Event::new(7, 256 + 3, 257, 258, 0);
        assert_eq!(cut(numbers), Event::new(7, 3, 1, 2, 0));
    }

    /// "Body lengths: add 16 [...]; remove, wake, sleep 6; priority 7; mask 14; tick and yield 5; ordinary work 6"; those of
    /// kinds 10 and 11 "are 5 bytes".
    #[test]
    fn bodies_have_the_paper_s_lengths() {
        let length = |kind| record(0, Event::new(kind, 0, 0, 0, 0)).len() - 1;
        let lengths: Vec<usize> = (1..=11).map(length).collect();
        assert_eq!(lengths, [16, 6, 6, 6, 7, 14, 5, 5, 6, 5, 5]);
    }

    #[test]
    fn records_are_divided() {
        let tick = record(7, Event::new(7, 0, 0, 0, 0));
        let all = [first(1, Some(1)), tick.clone(), tick.clone()].concat();
        assert_eq!(divide(&all), [&[12, 1, 1, 0][..], &tick, &tick]);
        assert_eq!(divide(&all[..9]), [&all[..4], &all[4..9]]);
        let unknown = [first(1, None), vec![0, 1, 7]].concat();
        assert_eq!(divide(&unknown), [&[0, 1][..], &[0, 1, 7]]);
        assert_eq!(divide(&[7, 1, 2]), [[7, 1, 2]]);
    }
}
