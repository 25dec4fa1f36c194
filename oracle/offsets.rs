//! Every chroma in 256ths through the block of sixteen pixels of the crates' sources, beside
//! document 01's formulas in whole numbers: red and blue at all 65,537, green at all pairs of them.
//! It ends with status 1 where anything differs.
// The one path into the crates' sources; oracle/offsets names its crate.
use sources::kernel_blocks::rgb_block;

const CENTRE: i64 = 32_768;

/// rnd(n / d), the floor of the quotient and a half.
fn rnd(n: i64, d: i64) -> i64 {
    (2 * n + d).div_euclid(2 * d)
}

/// A luma at which no offset is limited.
fn luma(offset: i64) -> u16 {
    if offset >= 0 { 0 } else { 255 }
}

/// How many of sixteen pixels differ in a colour row from luma and these offsets; Cb and Cr as given.
fn wrong(row: usize, offsets: [i64; 16], cb: [i64; 16], cr: [i64; 16]) -> u64 {
    let float = |c: [i64; 16]| c.map(|c| c as f32);
    let y = offsets.map(luma);
    let rows = rgb_block(y, float(cb), float(cr));
    (0..16).filter(|&k| rows[row][k] as i64 != y[k] as i64 + offsets[k]).count() as u64
}

/// Sixteen chromas less the centre; past the last, the last again.
fn chromas(from: i64) -> [i64; 16] {
    core::array::from_fn(|k| (from + k as i64).min(2 * CENTRE) - CENTRE)
}

fn main() {
    let (mut tints, mut greens) = (0, 0);
    for from in (0..=2 * CENTRE).step_by(16) {
        let c = chromas(from);
        tints += wrong(0, c.map(|c| rnd(1402 * c, 256_000)), [0; 16], c);
        tints += wrong(2, c.map(|c| rnd(1772 * c, 256_000)), c, [0; 16]);
    }
    println!("red and blue at every chroma; differ: {tints}");
    for cb in -CENTRE..=CENTRE {
        for from in (0..=2 * CENTRE).step_by(16) {
            let cr = chromas(from);
            let offsets = cr.map(|cr| rnd(-202_008 * cb - 419_198 * cr, 150_272_000));
            greens += wrong(1, offsets, [cb; 16], cr);
        }
    }
    println!("green at every pair; differ: {greens}");
    std::process::exit(if tints + greens == 0 { 0 } else { 1 });
}
