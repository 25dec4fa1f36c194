//! Colour in studio range as fractions of whole numbers: not the original's, which knows full range
//! alone. T.871's equations are taken on 255·(Y−16)/219 and 255·(C−128)/224, chroma in 256ths and
//! its offset limited to 32,768 of them first.

/// The fraction n / d rounded once, halves up, and limited to a byte.
fn rounded(n: i128, d: i128) -> u8 {
    (2 * n + d).div_euclid(2 * d).clamp(0, 255) as u8
}

/// Red, green and blue: luma's part is 255·(y − 16) / 219, and chroma's 255·c / (224·256) by T.871's
/// coefficients, thousandths and for green those over 587.
pub fn colour(y: u32, cb256: u32, cr256: u32) -> [u8; 3] {
    let off = |c: u32| (c as i128 - 32_768).clamp(-32_768, 32_768);
    let (luma, cb, cr) = (y as i128 - 16, off(cb256), off(cr256));
    let channel = |parts: i128, whole: i128| {
        rounded(255 * (luma * 224 * 256 * whole + 219 * parts), 219 * 224 * 256 * whole)
    };
    let green = -(114 * 1_772 * cb + 299 * 1_402 * cr);
    [channel(1_402 * cr, 1_000), channel(green, 587 * 1_000), channel(1_772 * cb, 1_000)]
}
