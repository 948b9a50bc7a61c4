//! Times kept from one run to the next: the shortest of all runs, and the ratios that single runs showed.

use std::collections::BTreeMap;
use std::fs;
use std::io::{self, ErrorKind};
use std::path::PathBuf;

/// One row of a table. The first of its times is the library's, the second the plain version's.
#[derive(Clone, Debug, PartialEq)]
pub struct Row {
    pub times: Vec<f64>,
    /// The least and the largest library/plain of a single run.
    pub least: f64,
    pub most: f64,
}

impl Row {
    pub fn new(times: Vec<f64>) -> Row {
        let ratio = times[0] / times[1];
        Row {
            times,
            least: ratio,
            most: ratio,
        }
    }

    fn join(&mut self, other: &Row) {
        for (time, other) in self.times.iter_mut().zip(&other.times) {
            *time = time.min(*other);
        }
        self.least = self.least.min(other.least);
        self.most = self.most.max(other.most);
    }

    fn write(&self) -> String {
        let numbers = [self.least, self.most]
            .into_iter()
            .chain(self.times.clone());
        let words: Vec<String> = numbers.map(|number| number.to_string()).collect();
        words.join(" ")
    }

    fn read(text: &str) -> Option<Row> {
        let numbers: Result<Vec<f64>, _> = text.split(' ').map(str::parse).collect();
        match numbers.ok()?.as_slice() {
            [least, most, times @ ..] if times.len() > 1 => Some(Row {
                times: times.to_vec(),
                least: *least,
                most: *most,
            }),
            _ => None,
        }
    }
}

/// The rows of a file, if one is named.
pub struct Keep {
    file: Option<PathBuf>,
    rows: BTreeMap<String, Row>,
}

impl Keep {
    /// A file that is not there has no rows.
    pub fn open(file: Option<PathBuf>) -> io::Result<Keep> {
        let text = match file.as_ref().map(fs::read_to_string) {
            Some(Err(error)) if error.kind() != ErrorKind::NotFound => return Err(error),
            Some(Ok(text)) => text,
            _ => String::new(),
        };
        let rows = text.lines().map(|line| {
            let (key, numbers) = line.split_once('\t')?;
            Some((key.to_string(), Row::read(numbers)?))
        });
        let rows = rows.collect::<Option<_>>();
        let rows = rows.ok_or_else(|| io::Error::new(ErrorKind::InvalidData, "no kept times"))?;
        Ok(Keep { file, rows })
    }

    /// The row, joined with what is kept of it.
    pub fn row(&mut self, key: String, mut row: Row) -> Row {
        if let Some(old) = self.rows.get(&key) {
            row.join(old);
        }
        self.rows.insert(key, row.clone());
        row
    }

    pub fn save(&self) -> io::Result<()> {
        let line = |(key, row): (&String, &Row)| format!("{key}\t{}\n", row.write());
        let text: String = self.rows.iter().map(line).collect();
        self.file
            .as_ref()
            .map_or(Ok(()), |file| fs::write(file, text))
    }
}
