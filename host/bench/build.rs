//! BENCH_SEED=NUMBER puts the functions of the benchmark into another order. Where a short loop lies can double
//! its time, so that one order alone says little.
use std::env;

fn main() {
    println!("cargo:rerun-if-env-changed=BENCH_SEED");
    if let Ok(seed) = env::var("BENCH_SEED") {
        println!("cargo:rustc-link-arg-bins=-Wl,--shuffle-sections=.text*={seed}");
    }
}
