//! A second scheduler, written from the papers alone, to compare the proved library with.
//!
//! It has another shape: tasks are a map, and a task remembers when it came to its row. Rows, levels and the
//! record are worked out from the tasks each time they are asked for. Nothing is kept up to date. A recording is read whole
//! before its first event runs, and the times are added up after its last.
//!
//! A [`Mutant`] puts one known error into it. That serves only to show that the tests tell the error apart.

mod api;
mod effect;
mod machine;
mod migrate;
mod mutant;
mod record;
mod recording;
mod refuse;
mod replay;
mod tables;
mod wellformed;

pub use api::{check, event, find, make_fresh, make_fresh_default, settled, Found, Made, Outcome};
pub use machine::{Machine, Task};
pub use mutant::Mutant;
pub use record::Record;
pub use recording::{Ending, Recorded};
pub use replay::{replay, Replayed, Report};
pub use tables::{Event, Tables, CPUS, INVALID, LEVELS, LOG, NOTHING, TASKS, WORDS};
