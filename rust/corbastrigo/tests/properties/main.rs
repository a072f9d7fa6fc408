//! Properties of the calls over drawn inputs, by document 01. Every run draws the same ones, and nothing is written to the tree.
//!
//! Where a call is asked past the safe crate, everything that was lent to it holds known bytes before (`calls`), so that a refused call can
//! be seen to have left all of it.
mod builds;
#[path = "../../../../oracle/scale/src/calls.rs"]
mod calls;
mod changes;
mod check;
mod codes;
mod loads;
mod maps;
mod numberings;
mod order;
mod packed;
mod pages;
mod picks;
mod prefixes;
mod programs;
mod scans;
mod widths;

use corbastrigo::MAX_MAP_BYTES;
use proptest::strategy::Strategy;
use proptest::test_runner::{Config, RngAlgorithm, TestCaseResult, TestRng, TestRunner};
use std::sync::OnceLock;

/// A property holds of so many drawn inputs; where it does not, the smallest input found is shown.
fn holds<S: Strategy>(cases: u32, inputs: S, property: impl Fn(S::Value) -> TestCaseResult) {
    let config = Config { cases, failure_persistence: None, ..Config::default() };
    let mut runner = TestRunner::new_with_rng(config, TestRng::deterministic_rng(RngAlgorithm::ChaCha));
    if let Err(failed) = runner.run(&inputs, property) {
        panic!("{failed}");
    }
}

/// A map one byte past the limit.
fn too_long() -> &'static [u8] {
    static BYTES: OnceLock<Vec<u8>> = OnceLock::new();
    BYTES.get_or_init(|| vec![0; MAX_MAP_BYTES + 1])
}
