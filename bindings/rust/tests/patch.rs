//! Patches against sums of their own, pixel by pixel.

use chroma::{patch, Patch, Rectangle, Refusal};

const W: usize = 13;
const H: usize = 9;

fn picture() -> Vec<u8> {
    (0..3 * W * H).map(|i| (i * i * 31 + i * 7) as u8).collect()
}

/// What a patch is, by looking at every pixel of the picture.
fn looked_at(r: Rectangle, rgb: &[u8]) -> Option<Patch> {
    let (mut sums, mut pixels) = ([0u64; 3], 0);
    for y in 0..H {
        for x in 0..W {
            let across = r.left <= x && x < r.left + r.width;
            if across && r.top <= y && y < r.top + r.height {
                for (k, sum) in sums.iter_mut().enumerate() {
                    *sum += u64::from(rgb[3 * (y * W + x) + k]);
                }
                pixels += 1;
            }
        }
    }
    (pixels > 0).then(|| Patch {
        mean: sums.map(|s| s as f64 / pixels as f64),
        whole: sums.map(|s| ((2 * s + pixels as u64) / (2 * pixels as u64)) as u8),
        pixels,
    })
}

#[test]
fn every_rectangle() {
    let rgb = picture();
    for left in 0..W + 2 {
        for top in 0..H + 2 {
            for width in (0..W + 2).step_by(3) {
                for height in (0..H + 2).step_by(2) {
                    let r = Rectangle {
                        left,
                        top,
                        width,
                        height,
                    };
                    assert_eq!(patch(r, W, H, &rgb), Ok(looked_at(r, &rgb)), "{r:?}");
                }
            }
        }
    }
}

#[test]
fn refusals_in_their_order() {
    let rgb = picture();
    let fine = Rectangle {
        left: 0,
        top: 0,
        width: 1,
        height: 1,
    };
    let far = Rectangle {
        left: usize::MAX,
        ..fine
    };
    let short = &rgb[1..];
    assert_eq!(patch(far, 0, H, short), Err(Refusal::BadSize));
    assert_eq!(patch(far, W, 8_193, short), Err(Refusal::BadSize));
    assert_eq!(patch(far, W, H, short), Err(Refusal::BadRectangle));
    assert_eq!(
        patch(
            Rectangle {
                height: 65_536,
                ..fine
            },
            W,
            H,
            &rgb
        ),
        Err(Refusal::BadRectangle)
    );
    assert!(patch(
        Rectangle {
            height: 65_535,
            ..fine
        },
        W,
        H,
        &rgb
    )
    .is_ok());
    assert_eq!(patch(fine, W, H, short), Err(Refusal::ShortOutput));
    assert_eq!(patch(fine, 8_192, 8_192, &rgb), Err(Refusal::ShortOutput));
}
