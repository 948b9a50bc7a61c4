//! The tool's page.

use std::fs;
use std::path::{Path, PathBuf};

pub fn here(path: &str) -> PathBuf {
    Path::new(env!("CARGO_MANIFEST_DIR")).join(path)
}

/// docs/TOOL.md.
pub fn page() -> String {
    fs::read_to_string(here("../../docs/TOOL.md")).unwrap()
}

/// The blocks of a page with this title.
pub fn blocks<'a>(page: &'a str, title: &str) -> Vec<&'a str> {
    let title = format!("```{title}\n");
    let begun = page.split(&title).skip(1);
    begun
        .map(|text| text.split("```").next().unwrap())
        .collect()
}
