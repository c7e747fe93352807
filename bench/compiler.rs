//! Times compile and list_back on tables of 2,047 to 65,535 rows, each twice as long as the one before.
//! docs/COMPILER.md says how to build and run it.
use std::time::Instant;

unsafe extern "C" {
    fn compiler_rounds(height: u32, compiles: u32, lists: u32) -> u64;
}

/// Seconds of the shortest of 200 runs.
fn seconds(height: u32, compiles: u32, lists: u32) -> f64 {
    let mut best = f64::MAX;
    for _ in 0..200 {
        let start = Instant::now();
        unsafe { compiler_rounds(height, compiles, lists) };
        best = best.min(start.elapsed().as_secs_f64());
    }
    best
}

fn main() {
    let mut before: Option<(f64, f64)> = None;
    println!("{:>6} {:>14} {:>6} {:>14} {:>6}", "rows", "compile ns/row", "ratio", "list ns/row", "ratio");
    for height in 10..=15 {
        let rows = f64::from((2u32 << height) - 1);
        let rounds = 4 << (15 - height);
        let idle = seconds(height, 0, 0);
        let compile = (seconds(height, rounds, 0) - idle) / f64::from(rounds);
        let list = (seconds(height, 0, rounds) - idle) / f64::from(rounds);
        let ratio = |now: f64, then: Option<f64>| then.map_or(String::new(), |t| format!("{:.2}", now / t));
        println!(
            "{:>6} {:>14.1} {:>6} {:>14.1} {:>6}",
            rows,
            compile * 1e9 / rows,
            ratio(compile, before.map(|b| b.0)),
            list * 1e9 / rows,
            ratio(list, before.map(|b| b.1)),
        );
        before = Some((compile, list));
    }
}
