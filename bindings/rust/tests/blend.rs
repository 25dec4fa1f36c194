//! Blends against fills, over jumps in both readers, refusals and weights.

use chroma::{
    chart_reading, fill, Blend, Kernel, Layout, Picture, Plane, Range, Rectangle, Refusal, Scratch,
    Upsampling,
};

struct Rng(u64);

impl Rng {
    fn below(&mut self, n: usize) -> usize {
        self.0 = self
            .0
            .wrapping_mul(6_364_136_223_846_793_005)
            .wrapping_add(1);
        (self.0 >> 33) as usize % n
    }

    fn bytes(&mut self, n: usize) -> Vec<u8> {
        (0..n).map(|_| self.below(256) as u8).collect()
    }
}

/// A picture's planes, and what the guided exact fill gives of it.
struct Case {
    layout: Layout,
    planes: [Vec<u8>; 3],
    rgb: Vec<u8>,
}

impl Case {
    fn new(rng: &mut Rng, layout: Layout) -> Case {
        let cells = layout.cw * layout.ch * layout.sample_bytes;
        let planes = [
            rng.bytes(layout.w * layout.h * layout.sample_bytes),
            rng.bytes(cells),
            rng.bytes(cells),
        ];
        let mut case = Case {
            layout,
            planes,
            rgb: vec![0; 3 * layout.w * layout.h],
        };
        let mut rgb = std::mem::take(&mut case.rgb);
        let kernel = Kernel::Exact;
        fill(
            &case.picture(),
            Upsampling::LumaGuided,
            kernel,
            3,
            &mut Scratch::new(),
            &mut rgb,
        )
        .unwrap();
        case.rgb = rgb;
        case
    }

    fn picture(&self) -> Picture<'_> {
        let [y, cb, cr] = &self.planes;
        let (w, cw) = (
            self.layout.w * self.layout.sample_bytes,
            self.layout.cw * self.layout.sample_bytes,
        );
        Picture::new(
            self.layout,
            Plane::new(y, w),
            Plane::new(cb, cw),
            Plane::new(cr, cw),
        )
        .unwrap()
    }

    fn row(&self, y: usize) -> &[u8] {
        &self.rgb[3 * self.layout.w * y..3 * self.layout.w * (y + 1)]
    }
}

fn mixed(early: &[u8], late: &[u8], weight: usize) -> Vec<u8> {
    early
        .iter()
        .zip(late)
        .map(|(&a, &b)| (((16 - weight) * a as usize + weight * b as usize + 8) / 16) as u8)
        .collect()
}

fn two_bytes(layout: Layout) -> Layout {
    Layout {
        sample_bytes: 2,
        maxval: 65_535,
        ..layout
    }
}

#[test]
fn every_row_is_the_mix_of_the_two_fills() {
    let mut rng = Rng(14);
    for n in 0..200 {
        let (w, h) = (1 + rng.below(40), 1 + rng.below(20));
        let layout = Layout::new(w, h, 1 + rng.below(4), 1 + rng.below(4));
        let (first, second) = match n % 3 {
            0 => (layout, layout),
            1 => (layout, two_bytes(layout)),
            _ => {
                let studio = Layout {
                    range: Range::Studio,
                    ..layout
                };
                (studio, studio)
            }
        };
        let (early, late) = (Case::new(&mut rng, first), Case::new(&mut rng, second));
        let mut blend = Blend::new(
            early.picture().reader().unwrap(),
            late.picture().reader().unwrap(),
        );
        for _ in 0..30 {
            let y = rng.below(h);
            match rng.below(4) {
                0 => blend.early().seek(y).unwrap(),
                1 => blend.late().seek(y).unwrap(),
                2 => blend.seek(y).unwrap(),
                _ => {}
            }
            let places = (blend.early().place(), blend.late().place());
            let (row, weight) = (rng.below(h + 1), rng.below(18));
            let mut out = vec![7; 3 * w + 1];
            let given = blend.row(row, weight, &mut out);
            let wanted = if weight > 16 {
                Err(Refusal::Unlike)
            } else if row >= h {
                Err(Refusal::BadRow)
            } else if row < places.0.max(places.1) {
                Err(Refusal::RowPassed)
            } else {
                Ok(())
            };
            assert_eq!(given, wanted);
            assert_eq!(out[3 * w], 7);
            if given.is_ok() {
                assert_eq!(out[..3 * w], mixed(early.row(row), late.row(row), weight));
                assert_eq!((blend.early().place(), blend.late().place()), (row, row));
            } else {
                assert!(out.iter().all(|&b| b == 7));
                assert_eq!((blend.early().place(), blend.late().place()), places);
            }
        }
    }
}

#[test]
fn rgb_rows_are_the_fill() {
    let mut rng = Rng(5);
    for _ in 0..100 {
        let (w, h) = (1 + rng.below(50), 1 + rng.below(20));
        let (rh, rv) = (1 + rng.below(4), 1 + rng.below(4));
        let case = Case::new(&mut rng, Layout::new(w, h, rh, rv));
        let picture = case.picture();
        let mut reader = picture.reader().unwrap();
        for _ in 0..10 {
            let (from, mut out) = (rng.below(h), vec![0; 3 * w]);
            reader.seek(from).unwrap();
            let row = from + rng.below(h - from);
            reader.rgb_row(row, &mut out).unwrap();
            assert_eq!(out, case.row(row));
        }
        let mut short = vec![9; 3 * w - 1];
        assert_eq!(reader.rgb_row(h - 1, &mut short), Err(Refusal::ShortOutput));
        assert!(short.iter().all(|&b| b == 9));
    }
}

#[test]
fn pictures_of_unequal_geometry_are_unlike() {
    let mut rng = Rng(22);
    let layout = Layout::new(8, 6, 2, 2);
    let early = Case::new(&mut rng, layout);
    let studio = Layout {
        range: Range::Studio,
        ..layout
    };
    for other in [
        Layout::new(7, 6, 2, 2),
        Layout::new(8, 5, 2, 2),
        Layout::new(8, 6, 1, 2),
        Layout::new(8, 6, 2, 1),
        studio,
    ] {
        let late = Case::new(&mut rng, other);
        let (first, second) = (early.picture(), late.picture());
        let mut blend = Blend::new(first.reader().unwrap(), second.reader().unwrap());
        let mut out = [0; 24];
        assert_eq!(blend.row(0, 8, &mut out), Err(Refusal::Unlike));
        let (mut a, mut b) = blend.into_readers();
        a.rgb_row(0, &mut out).unwrap();
        b.rgb_row(0, &mut out).unwrap();
    }
}

#[test]
fn from_two_pictures_to_a_shade() {
    let mut rng = Rng(9);
    let layout = Layout::new(20, 10, 2, 2);
    let (early, late) = (Case::new(&mut rng, layout), Case::new(&mut rng, layout));
    let whole = Rectangle {
        left: 0,
        top: 0,
        width: 20,
        height: 10,
    };
    let chart = rng.bytes(3 * 12);
    for weight in 0..=16 {
        let mut blend = Blend::new(
            early.picture().reader().unwrap(),
            late.picture().reader().unwrap(),
        );
        let mut rgb = vec![0; 600];
        for (row, out) in rgb.chunks_mut(60).enumerate() {
            blend.row(row, weight, out).unwrap();
        }
        assert_eq!(rgb, mixed(&early.rgb, &late.rgb, weight));
        let read = chart_reading(&chart, whole, 20, 10, &rgb).unwrap().unwrap();
        for k in 0..3 {
            let sum: usize = rgb.iter().skip(k).step_by(3).map(|&b| b as usize).sum();
            assert_eq!(read.whole[k] as usize, (2 * sum + 200) / 400);
        }
    }
}
