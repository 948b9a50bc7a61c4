//! The scheduler in plain safe Rust, as one would write it by hand: the same tables, checks, answers and log as
//! the proved library, with nothing proved. It is the baseline of the benchmark.
//!
//! The CPU-priority record is changed in place, through a reference.

#![forbid(unsafe_code)]

pub mod check;
pub mod consistent;
pub mod effect;
pub mod event;
pub mod find;
pub mod hotplug;
pub mod lower;
pub mod mover;
pub mod record;
pub mod recording;
pub mod replay;
pub mod row;
pub mod settle;
pub mod tables;

pub use check::check;
pub use event::{event, handle, Event, Outcome};
pub use find::{find, Found};
pub use record::Record;
pub use recording::Ending;
pub use replay::{replay, Report};
pub use tables::{Lent, Made, Tables};
