//! Compares the port's two roundings with the original's over all 2^32
//! float bit patterns, on two threads. The argument is a step through the
//! patterns, 1 for all of them.

use std::process::ExitCode;

extern "C" {
    fn chroma_inner_round_clamped_by_grid(x: f32, max: u32) -> u32;
    fn chroma_inner_round_clamped_by_bits(x: f32, max: u32) -> u32;
}

fn ours_by_grid(x: f32, max: u32) -> u32 {
    // Numbers in, a number out; the limit is one that the rounding allows.
    unsafe { chroma_inner_round_clamped_by_grid(x, max) }
}

fn ours_by_bits(x: f32, max: u32) -> u32 {
    unsafe { chroma_inner_round_clamped_by_bits(x, max) }
}

const GRID_LIMITS: [u32; 5] = [0, 255, 65_535, 65_536, 4_194_304];
const WIDE_LIMIT: u32 = 16_776_960;
const PATTERNS: u64 = 1 << 32;

/// What one thread, or both, found.
struct Found {
    compared: u64,
    differences: u64,
    /// Bits, ours, original's.
    first: Option<(u32, u32, u32)>,
}

fn part(
    from: u64,
    to: u64,
    step: u64,
    ours: impl Fn(f32) -> u32,
    original: impl Fn(f32) -> u32,
) -> Found {
    let (mut compared, mut differences, mut first) = (0, 0, None);
    let mut b = from.next_multiple_of(step);
    while b < to {
        let x = f32::from_bits(b as u32);
        let (a, c) = (ours(x), original(x));
        if a != c {
            differences += 1;
            first = first.or(Some((b as u32, a, c)));
        }
        compared += 1;
        b += step;
    }
    Found {
        compared,
        differences,
        first,
    }
}

/// Both halves of the patterns at one limit; whether they agree.
fn compare(
    name: &str,
    limit: u32,
    step: u64,
    ours: impl Fn(f32, u32) -> u32 + Sync,
    original: impl Fn(f32, u32) -> u32 + Sync,
) -> bool {
    let half = |from, to| part(from, to, step, |x| ours(x, limit), |x| original(x, limit));
    let (low, high) = std::thread::scope(|s| {
        let high = s.spawn(|| half(PATTERNS / 2, PATTERNS));
        (half(0, PATTERNS / 2), high.join().expect("second half"))
    });
    let differences = low.differences + high.differences;
    let first = match low.first.or(high.first) {
        None => "none".to_string(),
        Some((b, a, c)) => format!("{b:08x} ours {a} original {c}"),
    };
    println!(
        "{name} limit {limit}: {} compared, {differences} differences, first {first}",
        low.compared + high.compared
    );
    differences == 0
}

fn main() -> ExitCode {
    let step = std::env::args().nth(1).map_or(Ok(1), |s| s.parse());
    let step = match step {
        Ok(step) if step > 0 => step,
        _ => {
            eprintln!("the step is a whole number from 1");
            return ExitCode::from(2);
        }
    };
    let mut same = true;
    for limit in GRID_LIMITS {
        same &= compare(
            "grid",
            limit,
            step,
            ours_by_grid,
            oracle::round_clamped_by_grid,
        );
    }
    same &= compare("bits", WIDE_LIMIT, step, ours_by_bits, oracle::round_wide);
    if same {
        ExitCode::SUCCESS
    } else {
        ExitCode::FAILURE
    }
}
