//! Compares the proved library with the reference, call by call and byte by byte.

pub mod call;
pub mod case;
pub mod counters;
pub mod damage;
pub mod damaged;
pub mod demand3;
pub mod difference;
pub mod events;
pub mod exhaustive;
pub mod finder;
pub mod generate;
pub mod hotplug;
pub mod mutants;
pub mod pair;
pub mod plan;
pub mod random;
pub mod recordings;
pub mod rng;
pub mod sweep;
pub mod tables;
pub mod universe;
pub mod vectors;
