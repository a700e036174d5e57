//! Many cases: the seed of each, all processors at once, and the count at the end.
use crate::random::Random;
use std::process::ExitCode;

/// The seed of the ith case of a run, whichever thread it falls to.
pub fn nth_seed(seed: u64, i: u64) -> u64 {
    Random(seed ^ i.wrapping_mul(0xd134_2543_de82_ef95)).number()
}

/// Does the work once on each processor, all at the same time.
pub fn on_all_processors(work: impl Fn() + Sync) {
    let threads = std::thread::available_parallelism().map_or(1, usize::from);
    std::thread::scope(|scope| (0..threads).for_each(|_| _ = scope.spawn(&work)));
}

/// Prints how many passed and how many failed, and fails where one did.
pub fn count(results: impl IntoIterator<Item = bool>) -> ExitCode {
    let (passed, failed): (Vec<bool>, Vec<bool>) = results.into_iter().partition(|&passed| passed);
    println!("{} passed, {} failed", passed.len(), failed.len());
    ExitCode::from(u8::from(!failed.is_empty()))
}
