//! Recordings to test with, and what is said of them.

use crate::common::{run, run_bytes, Ended};
use std::fs;
use std::path::PathBuf;

/// Bytes of a body, by kind from 1 on.
pub const BODIES: [usize; 11] = [16, 6, 6, 6, 7, 14, 5, 5, 6, 5, 5];

/// The recording of a text that can be recorded.
pub fn recorded(text: &str) -> Vec<u8> {
    let ended = run_bytes(&["record"], text.as_bytes());
    assert_eq!((ended.status, ended.err.as_str()), (0, ""), "{text}");
    ended.out
}

pub fn replayed(bytes: &[u8]) -> Ended {
    let ended = run(&["replay"], bytes);
    assert_eq!(ended.err, "");
    ended
}

/// What stands behind a word of a report.
pub fn said<'a>(report: &'a str, word: &str) -> &'a str {
    let line = |line: &'a str| line.trim().strip_prefix(word).map(str::trim);
    let mut found = report.lines().filter_map(line);
    found.next().unwrap_or_else(|| panic!("{word}: {report}"))
}

/// A folder for the files of a test, which goes with it.
pub struct Folder(pub PathBuf);

impl Folder {
    pub fn new(test: &str) -> Folder {
        let name = format!("qoriwesh-{test}-{}", std::process::id());
        let folder = std::env::temp_dir().join(name);
        fs::create_dir_all(&folder).unwrap();
        Folder(folder)
    }

    /// A file with these bytes; its name with its path.
    pub fn file(&self, name: &str, bytes: &[u8]) -> String {
        let path = self.0.join(name);
        fs::write(&path, bytes).unwrap();
        path.to_str().unwrap().to_string()
    }
}

impl Drop for Folder {
    fn drop(&mut self) {
        let _ = fs::remove_dir_all(&self.0);
    }
}

/// Numbers that look random.
pub struct Random(pub u64);

impl Random {
    pub fn below(&mut self, most: u64) -> u64 {
        self.0 = self.0.wrapping_mul(6_364_136_223_846_793_005);
        self.0 = self.0.wrapping_add(1);
        (self.0 >> 33) % most
    }

    fn bytes(&mut self, count: usize) -> Vec<u8> {
        (0..count).map(|_| self.below(256) as u8).collect()
    }

    /// A first record, also one that names a slice of 100.
    fn first(&mut self, cpus: u8) -> Vec<u8> {
        match self.below(4) {
            0 => vec![0, cpus],
            1 => vec![12, cpus, 100, 0],
            2 => vec![12, cpus, 25, 0],
            _ => {
                let slice = 1 + self.below(1000) as u16;
                let [low, high] = slice.to_le_bytes();
                vec![12, cpus, low, high]
            }
        }
    }

    /// A record with any numbers.
    fn odd(&mut self) -> Vec<u8> {
        let kind = 1 + self.below(11) as usize;
        let mut record = vec![kind as u8];
        record.extend(self.bytes(BODIES[kind - 1]));
        record
    }

    /// A record whose numbers are in range.
    fn valid(&mut self, cpus: u8) -> Vec<u8> {
        let kind = [1, 1, 2, 3, 3, 3, 4, 4, 5, 6, 7, 8, 9, 10, 11][self.below(15) as usize];
        let mut record = vec![kind];
        record.extend(self.bytes(4));
        match kind {
            1..=6 => record.extend([self.below(12) as u8, 0]),
            _ => record.push(self.below(cpus.into()) as u8),
        }
        let prio = 1 + self.below(99) as u8;
        match kind {
            1 => record.extend([1 + self.below(2) as u8, prio]),
            5 => record.push(prio),
            9 => record.push(self.below(2) as u8),
            _ => {}
        }
        if kind == 1 || kind == 6 {
            let mask = 1_u64 << self.below(cpus.into()) | 1;
            record.extend(mask.to_le_bytes());
        }
        record
    }

    /// A whole recording: its records are all in range, all any, or some of both.
    pub fn recording(&mut self) -> Vec<u8> {
        let cpus = [1, 2, 5, 63, 64][self.below(5) as usize];
        let odd = [0, 1, 10][self.below(3) as usize];
        let mut bytes = self.first(cpus);
        for _ in 0..self.below(60) {
            let record = match self.below(10) < odd {
                true => self.odd(),
                false => self.valid(cpus),
            };
            bytes.extend(record);
        }
        bytes
    }
}

/// Task 0 runs on CPU 0 from 300 on, task 1 moves to CPU 1 at 400. The stamps pass their end at 300. CPU 1 goes offline at 800,
/// and its task comes back to CPU 0.
pub const NIGHT: &str = "cpus 4 slice 7\n@4294967196 add 0 fifo 50 0-1\nadd 1 rr 40 0-1\n\
                     @300 wake 0\n@400 wake 1\nwake 1\n@800 offline 1\n@899 wake 512\n@1100 tick 0\n";
