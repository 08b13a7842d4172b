//! The library from stock Rust: its version, and what seed 13 draws for three threads.

use std::process::ExitCode;

extern "C" {
    fn pct_tell_version() -> u32;
    fn pct_draw(
        seed: u64,
        threads: u32,
        steps: u32,
        depth: u32,
        order: *mut u32,
        orders: usize,
        points: *mut u32,
        count: usize,
    ) -> u32;
}

fn main() -> ExitCode {
    let (mut order, mut points) = ([9; 3], [9; 1]);
    // SAFETY: pct_tell_version takes nothing, and both lists of pct_draw are real and have the lengths that are given.
    let (version, status) = unsafe {
        let status = pct_draw(13, 3, 8, 2, order.as_mut_ptr(), order.len(), points.as_mut_ptr(), points.len());
        (pct_tell_version(), status)
    };
    println!("version {version} status {status} order {order:?} points {points:?}");
    ExitCode::from(u8::from(status != 0))
}
