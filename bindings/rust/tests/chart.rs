//! Readings against every shade and every mix of a chart, one by one.

use chroma::{chart_reading, ChartReading, Rectangle, Refusal};

const PIXEL: Rectangle = Rectangle {
    left: 0,
    top: 0,
    width: 1,
    height: 1,
};

fn off(a: [u8; 3], b: [u8; 3]) -> u32 {
    (0..3).map(|k| u32::from(a[k].abs_diff(b[k])).pow(2)).sum()
}

fn mix(weight: u32, a: u8, b: u8) -> u8 {
    (((16 - weight) * u32::from(a) + weight * u32::from(b) + 8) / 16) as u8
}

/// What a reading is, by looking at every shade and at every mix. `min_by_key` gives the first.
fn looked_at(shades: &[[u8; 3]], colour: [u8; 3]) -> ChartReading {
    let nearest = (0..shades.len())
        .min_by_key(|&i| off(shades[i], colour))
        .unwrap();
    let mixed =
        |(i, k): (usize, usize)| [0, 1, 2].map(|c| mix(k as u32, shades[i][c], shades[i + 1][c]));
    let (pair, weight) = (0..shades.len() - 1)
        .flat_map(|i| (0..=16).map(move |k| (i, k)))
        .min_by_key(|&place| off(mixed(place), colour))
        .unwrap();
    ChartReading {
        nearest,
        nearest_off: off(shades[nearest], colour),
        pair,
        weight,
        between_off: off(mixed((pair, weight)), colour),
        whole: colour,
        pixels: 1,
    }
}

#[test]
fn every_size_of_chart() {
    let mut x = 1u32;
    let mut byte = |few: u32| {
        x = x.wrapping_mul(1_664_525).wrapping_add(1_013_904_223);
        ((x >> 24) % few) as u8
    };
    for n in 2..=24 {
        for few in [3, 20, 256] {
            for _ in 0..40 {
                let shades: Vec<[u8; 3]> =
                    (0..n).map(|_| [byte(few), byte(few), byte(few)]).collect();
                let colour = [byte(few), byte(few), byte(few)];
                let read = chart_reading(&shades.concat(), PIXEL, 1, 1, &colour);
                assert_eq!(
                    read,
                    Ok(Some(looked_at(&shades, colour))),
                    "{shades:?} {colour:?}"
                );
            }
        }
    }
}

#[test]
fn lengths_and_their_order() {
    let far = Rectangle {
        left: 65_536,
        ..PIXEL
    };
    for len in 0..100 {
        let chart = vec![7; len];
        let good = len % 3 == 0 && (6..=72).contains(&len);
        let read = chart_reading(&chart, PIXEL, 1, 1, &[7; 3]);
        assert_eq!(read.is_ok(), good, "{len}");
        let sides = chart_reading(&chart, far, 0, 1, &[]);
        let number = if good { 2 } else { 20 };
        assert_eq!(sides.unwrap_err().number(), number, "{len}");
    }
    let chart = [0; 6];
    assert_eq!(
        chart_reading(&chart, far, 1, 1, &[]),
        Err(Refusal::BadRectangle)
    );
    assert_eq!(
        chart_reading(&chart, PIXEL, 1, 1, &[]),
        Err(Refusal::ShortOutput)
    );
    let beside = Rectangle { left: 1, ..PIXEL };
    assert_eq!(chart_reading(&chart, beside, 1, 1, &[7; 3]), Ok(None));
}
