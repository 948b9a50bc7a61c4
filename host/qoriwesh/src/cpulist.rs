//! Masks of CPUs as people write them: a list (`0-1,3`) or a mask (`0x0b`).

use crate::parse::{number, quoted};

/// A list as in taskset -c or a cpuset (`0-1,3`, `0-7:2`), or a mask (`0x0b`).
pub fn read(word: &str) -> Result<u64, String> {
    if let Some(mask) = read_hex(word) {
        return mask;
    }
    let mut mask = 0;
    for part in word.split(',') {
        mask |= read_range(part).map_err(|wrong| told(wrong, part, word))?;
    }
    Ok(mask)
}

/// A mask if the word begins like one, `0x`.
pub fn read_hex(word: &str) -> Option<Result<u64, String>> {
    let digits = word
        .strip_prefix("0x")
        .or_else(|| word.strip_prefix("0X"))?;
    let wrong = format!("expected a mask of 64 bits (0x0b), found {}", quoted(word));
    if digits.bytes().any(|byte| !byte.is_ascii_hexdigit()) {
        return Some(Err(wrong));
    }
    Some(u64::from_str_radix(digits, 16).map_err(|_| wrong))
}

/// What is wrong with a part of a list.
enum Wrong {
    Form,
    TooLarge,
}

/// The message, with the part that is wrong, or with the list if that part is empty.
fn told(wrong: Wrong, part: &str, word: &str) -> String {
    let found = quoted(if part.is_empty() { word } else { part });
    match wrong {
        Wrong::Form => {
            format!("expected CPUs as a list (0-1,3) or a mask (0x0b), found {found}")
        }
        Wrong::TooLarge => {
            format!("expected CPUs 0 to 63, which a mask of 64 bits can name, found {found}")
        }
    }
}

/// One part of a list: `3`, `0-7`, or every second of them, `0-7:2`.
fn read_range(part: &str) -> Result<u64, Wrong> {
    let (first, last, step) = range(part).ok_or(Wrong::Form)?;
    if last > 63 {
        return Err(Wrong::TooLarge);
    }
    if first > last || step == 0 {
        return Err(Wrong::Form);
    }
    let cpus = (first..=last).step_by(step);
    Ok(cpus.fold(0, |mask, cpu| mask | 1 << cpu))
}

/// First, last and step.
fn range(part: &str) -> Option<(u32, u32, usize)> {
    let (ends, step) = part.split_once(':').unwrap_or((part, "1"));
    if ends != part && !ends.contains('-') {
        return None;
    }
    let (first, last) = ends.split_once('-').unwrap_or((ends, ends));
    let end = |word| number(word, "").ok();
    Some((end(first)?, end(last)?, number(step, "").ok()?))
}

/// The CPUs of a mask as a list: `0-1,3`. No CPU is `none`.
pub fn write(mask: u64) -> String {
    let mut parts: Vec<String> = Vec::new();
    let mut cpu = 0;
    while cpu < 64 {
        let run = (mask >> cpu).trailing_ones();
        match run {
            0 => cpu += 1,
            1 => parts.push(cpu.to_string()),
            _ => parts.push(format!("{cpu}-{}", cpu + run - 1)),
        }
        cpu += run;
    }
    if parts.is_empty() {
        return "none".to_string();
    }
    parts.join(",")
}

#[cfg(test)]
mod tests {
    use super::*;

    #[test]
    fn lists_and_masks() {
        for (word, mask) in [
            ("0", 1),
            ("0-1,3", 0b1011),
            ("3,0-1", 0b1011),
            ("0-7:2", 0b0101_0101),
            ("1-6:3", 0b0001_0010),
            ("63", 1 << 63),
            ("0-63", u64::MAX),
            ("0x0", 0),
            ("0XB", 0b1011),
            ("0xffffffffffffffff", u64::MAX),
        ] {
            assert_eq!(read(word), Ok(mask), "{word}");
        }
    }

    #[test]
    fn words_that_are_neither() {
        let words = ", 1, 1- -1 2-1 a 0-3:0 0-3: 3:2 1--2 +1 0x 0xg 0x+1 64 0-64 99999999999 \
                     0x10000000000000000 1;2 :2 0-:2";
        for word in words.split(' ').chain([""]) {
            assert!(read(word).is_err(), "{word:?} was read");
        }
    }

    /// The part that is wrong is shown, at most 40 characters of it.
    #[test]
    fn an_error_shows_the_part_that_is_wrong() {
        let list = "0,".repeat(400_000);
        let long = "7".repeat(1000);
        for (last, shown) in [
            ("64", "64"),
            ("2-1", "2-1"),
            (&long[..], &format!("{}...", &long[..40])),
        ] {
            let message = read(&format!("{list}{last},{list}0")).unwrap_err();
            assert!(
                message.ends_with(&format!(", found '{shown}'")),
                "{message}"
            );
        }
        let message = read("0-1,,3").unwrap_err();
        assert!(message.ends_with(", found '0-1,,3'"), "{message}");
    }

    #[test]
    fn what_is_written_reads_back() {
        for (mask, list) in [
            (1, "0"),
            (0b1011, "0-1,3"),
            (u64::MAX, "0-63"),
            (1 << 63, "63"),
            (0b11 << 62 | 1, "0,62-63"),
            (0b0111_0110, "1-2,4-6"),
        ] {
            assert_eq!(write(mask), list);
            assert_eq!(read(list), Ok(mask));
        }
        assert_eq!(write(0), "none");
    }
}
