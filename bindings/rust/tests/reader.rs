//! The reader against the whole planes, over many orders of calls, and over one scratch.

use chroma::{
    exact_pixel, fill, guided_plane, linear_plane, triangular_plane, Kernel, Layout, Picture,
    Plane, Range, Reader, Refusal, Scratch, Siting, Upsampling,
};

/// A plane's bytes, other ones for each seed, with two bytes behind each row.
fn bytes(seed: u32, w: usize, h: usize) -> Vec<u8> {
    let mut x = seed.wrapping_mul(2_654_435_761).wrapping_add(1);
    (0..(w + 2) * h)
        .map(|_| {
            x = x.wrapping_mul(1_664_525).wrapping_add(1_013_904_223);
            (x >> 24) as u8
        })
        .collect()
}

struct Case {
    layout: Layout,
    planes: [Vec<u8>; 3],
    whole: [Vec<u16>; 2],
}

impl Case {
    fn new(seed: u32, w: usize, h: usize, rh: usize, rv: usize) -> Case {
        let layout = Layout::new(w, h, rh, rv);
        let (cw, ch) = (layout.cw, layout.ch);
        let planes = [
            bytes(seed, w, h),
            bytes(seed + 1, cw, ch),
            bytes(seed + 2, cw, ch),
        ];
        let whole = [1, 2].map(|k| {
            let mut out = vec![0; w * h];
            let (y, c) = (
                Plane::new(&planes[0], w + 2),
                Plane::new(&planes[k], cw + 2),
            );
            guided_plane(layout, y, c, &mut Scratch::new(), &mut out).unwrap();
            out
        });
        Case {
            layout,
            planes,
            whole,
        }
    }

    fn picture(&self) -> Picture<'_> {
        let [y, cb, cr] = &self.planes;
        let (w, cw) = (self.layout.w + 2, self.layout.cw + 2);
        Picture::new(
            self.layout,
            Plane::new(y, w),
            Plane::new(cb, cw),
            Plane::new(cr, cw),
        )
        .unwrap()
    }

    /// The row that the reader gives, rounded, is the plane's; what stands behind it is untouched.
    fn reads(&self, reader: &mut Reader, row: usize) {
        let w = self.layout.w;
        let mut rows = [vec![-7.0; w + 1], vec![-7.0; w + 1]];
        let [cb, cr] = &mut rows;
        reader.row(row, cb, cr).unwrap();
        assert_eq!(reader.place(), row);
        for (row_given, whole) in rows.iter().zip(&self.whole) {
            let rounded: Vec<u16> = row_given[..w]
                .iter()
                .map(|v| (v + 0.5).floor() as u16)
                .collect();
            assert_eq!(rounded, whole[row * w..row * w + w], "row {row}");
            assert_eq!(row_given[w], -7.0);
        }
    }
}

#[test]
fn rows_in_any_order_over_one_scratch() {
    let first = Case::new(1, 7, 9, 2, 2);
    let mut reader = first.picture().reader().unwrap();
    for row in [0, 0, 3, 8] {
        first.reads(&mut reader, row);
    }
    let mut cases = Vec::new();
    for (n, &(rh, rv)) in [(1, 1), (2, 1), (1, 2), (2, 2), (3, 4), (4, 3)]
        .iter()
        .enumerate()
    {
        cases.push(Case::new(10 * n as u32, 11, 13, rh, rv));
    }
    for case in &cases {
        reader = reader.reopen(&case.picture()).unwrap();
        for (from, row) in [(0, 5), (9, 12), (2, 2), (2, 3), (12, 12), (0, 0)] {
            reader.seek(from).unwrap();
            case.reads(&mut reader, row);
        }
    }
}

#[test]
fn a_refused_call_changes_nothing() {
    let case = Case::new(5, 6, 6, 2, 2);
    let mut reader = case.picture().reader().unwrap();
    case.reads(&mut reader, 3);
    let (mut cb, mut cr) = ([-1.0; 6], [-1.0; 6]);
    assert_eq!(reader.row(2, &mut cb, &mut cr), Err(Refusal::RowPassed));
    assert_eq!(reader.row(6, &mut cb, &mut cr), Err(Refusal::BadRow));
    assert_eq!(
        reader.row(4, &mut cb, &mut cr[..5]),
        Err(Refusal::ShortOutput)
    );
    assert_eq!(reader.row(4, &mut [], &mut []), Err(Refusal::ShortOutput));
    assert_eq!(reader.seek(6), Err(Refusal::BadRow));
    assert_eq!(reader.seek(usize::MAX), Err(Refusal::BadRow));
    assert_eq!((cb, cr), ([-1.0; 6], [-1.0; 6]));
    assert_eq!(reader.place(), 3);
    case.reads(&mut reader, 4);
}

#[test]
fn pictures_are_checked() {
    let data = [0u8; 64];
    let new = |layout: Layout, stride: usize| {
        let p = Plane::new(&data, stride);
        Picture::new(layout, p, p, p)
            .map(|_| ())
            .map_err(Refusal::number)
    };
    let good = Layout::new(8, 8, 2, 2);
    assert_eq!(new(good, 8), Ok(()));
    assert_eq!(new(Layout { w: 0, ..good }, 8), Err(2));
    assert_eq!(new(Layout { h: 8_193, ..good }, 8), Err(2));
    assert_eq!(
        new(
            Layout {
                w: usize::MAX,
                ..good
            },
            8
        ),
        Err(2)
    );
    assert_eq!(new(Layout { rh: 5, ..good }, 8), Err(3));
    assert_eq!(new(Layout::new(8, 8, 0, 2), 8), Err(3));
    assert_eq!(
        new(
            Layout {
                maxval: 256,
                ..good
            },
            8
        ),
        Err(4)
    );
    assert_eq!(
        new(
            Layout {
                sample_bytes: 3,
                ..good
            },
            8
        ),
        Err(4)
    );
    assert_eq!(
        new(
            Layout {
                cw: usize::MAX,
                ..good
            },
            8
        ),
        Err(5)
    );
    assert_eq!(new(good, 7), Err(7));
    assert_eq!(new(good, 9), Err(7));
    assert_eq!(new(good, usize::MAX), Err(7));
}

#[test]
fn refusals_have_words_and_numbers() {
    let refusal = chroma::ppm(&[0; 50_000]).unwrap_err();
    assert_eq!(
        refusal.to_string(),
        "refused 15: size limits passed, or rows missing"
    );
}

#[test]
fn co_sited_pictures_are_for_linear_calls() {
    let case = Case::new(5, 9, 6, 2, 2);
    for (across, down) in [
        (Siting::CoSited, Siting::Centred),
        (Siting::Centred, Siting::CoSited),
        (Siting::CoSited, Siting::CoSited),
    ] {
        let layout = Layout {
            siting_across: across,
            siting_down: down,
            ..case.layout
        };
        let [y, cb, cr] =
            [(0, 11), (1, 7), (2, 7)].map(|(k, stride)| Plane::new(&case.planes[k], stride));
        let picture = Picture::new(layout, y, cb, cr).unwrap();
        assert_eq!(picture.reader().unwrap_err(), Refusal::NotCentred);
        let mut rgb = vec![7; 9 * 6 * 3];
        let mut scratch = Scratch::new();
        let mut filled = |way| fill(&picture, way, Kernel::Exact, 3, &mut scratch, &mut rgb);
        assert_eq!(filled(Upsampling::LumaGuided), Err(Refusal::NotCentred));
        assert_eq!(filled(Upsampling::Linear), Ok(()));
        assert!(rgb.iter().any(|b| *b != 7));
        let mut out = vec![0; 9 * 6];
        assert_eq!(
            guided_plane(layout, y, cb, &mut scratch, &mut out),
            Err(Refusal::NotCentred)
        );
        assert_eq!(
            triangular_plane(layout, cb, &mut out),
            Err(Refusal::NotCentred)
        );
        assert_eq!(linear_plane(layout, cb, &mut scratch, &mut out), Ok(()));
        // Over a cell's first pixel, co-sited both ways, lies the cell itself.
        if across == Siting::CoSited && down == Siting::CoSited {
            for (i, j) in [(0, 0), (1, 2), (2, 4)] {
                assert_eq!(out[2 * i * 9 + 2 * j], case.planes[1][i * 7 + j] as u16);
            }
        }
    }
}

#[test]
fn studio_range_is_for_maxval_255_and_the_exact_kernel() {
    let case = Case::new(5, 21, 6, 2, 2);
    let studio = Layout {
        range: Range::Studio,
        ..case.layout
    };
    let [y, cb, cr] =
        [(0, 23), (1, 13), (2, 13)].map(|(k, stride)| Plane::new(&case.planes[k], stride));
    let [full, ranged] =
        [case.layout, studio].map(|layout| Picture::new(layout, y, cb, cr).unwrap());
    let mut scratch = Scratch::new();
    let mut rgb = vec![7; 21 * 6 * 3];
    let mut filled = |picture, kernel| {
        fill(
            picture,
            Upsampling::LumaGuided,
            kernel,
            3,
            &mut scratch,
            &mut rgb,
        )
    };
    assert_eq!(
        filled(&ranged, Kernel::FixedPoint16),
        Err(Refusal::BadRange)
    );
    assert_eq!(filled(&full, Kernel::FixedPoint16), Ok(()));
    assert_eq!(filled(&ranged, Kernel::Exact), Ok(()));
    // The rows are those of full range, and each pixel is the pixel call's.
    let [mut rows, mut others] = [full, ranged].map(|picture| picture.reader().unwrap());
    let [mut a, mut b, mut c, mut d] = [0; 4].map(|_| vec![0.0; 21]);
    for row in 0..6 {
        rows.row(row, &mut a, &mut b).unwrap();
        others.row(row, &mut c, &mut d).unwrap();
        assert_eq!((&a, &b), (&c, &d));
        for x in 0..21 {
            let in_256ths = |v: f32| (v * 256.0 + 0.5) as u32;
            let luma = case.planes[0][row * 23 + x] as u32;
            let colour = exact_pixel(luma, in_256ths(c[x]), in_256ths(d[x]), 255, Range::Studio);
            assert_eq!(colour.unwrap(), rgb[(row * 21 + x) * 3..][..3]);
        }
    }
    let other = Layout {
        maxval: 254,
        ..studio
    };
    assert_eq!(
        Picture::new(other, y, cb, cr).err(),
        Some(Refusal::BadRange)
    );
    let mut out = vec![0; 21 * 6];
    for refused in [
        linear_plane(other, cb, &mut scratch, &mut out),
        guided_plane(other, y, cb, &mut scratch, &mut out),
        triangular_plane(other, cb, &mut out),
        exact_pixel(16, 32_768, 32_768, 254, Range::Studio).map(drop),
    ] {
        assert_eq!(refused, Err(Refusal::BadRange));
    }
}

#[test]
fn a_sample_above_maxval() {
    let layout = Layout {
        sample_bytes: 2,
        maxval: 4_094,
        ..Layout::new(4, 2, 2, 2)
    };
    let good = |n: usize| [0xfe, 0x0f].repeat(n);
    let (y, c) = (good(8), good(2));
    let bright = |at: usize, n: usize| {
        let mut plane = good(n);
        plane[2 * at] = 0xff;
        plane
    };
    let picture = |y: &[u8], cb: &[u8], cr: &[u8]| {
        let plane = |data, stride| Plane::new(data, stride);
        Picture::new(layout, plane(y, 8), plane(cb, 4), plane(cr, 4)).map(|_| ())
    };
    assert_eq!(picture(&y, &c, &c), Ok(()));
    for at in [0, 3, 7] {
        assert_eq!(picture(&bright(at, 8), &c, &c), Err(Refusal::AboveMaxval));
    }
    for at in [0, 1] {
        assert_eq!(picture(&y, &bright(at, 2), &c), Err(Refusal::AboveMaxval));
        assert_eq!(picture(&y, &c, &bright(at, 2)), Err(Refusal::AboveMaxval));
        // Surplus is not looked at.
        assert_eq!(picture(&y, &c, &bright(2 + at, 4)), Ok(()));
    }
    let (mut scratch, mut out) = (Scratch::new(), [7; 8]);
    let plane = bright(1, 2);
    let refused = chroma::linear_plane(layout, Plane::new(&plane, 4), &mut scratch, &mut out);
    assert_eq!(refused, Err(Refusal::AboveMaxval));
    assert_eq!(out, [7; 8]);
    assert_eq!(
        refused.unwrap_err().to_string(),
        "refused 17: a sample that exceeds maxval"
    );
    let image = |byte: u8| [b"P5 1 1 4094\n\x0f".as_slice(), &[byte]].concat();
    let files = [image(0xfe), image(0xfe), image(0xff)].concat();
    assert_eq!(chroma::ppm(&files), Err(Refusal::AboveMaxval));
}

#[test]
fn a_picture_of_two_byte_samples() {
    let image = |maxval: u32, sample: [u8; 2]| {
        let mut bytes = format!("P5 1 1 {maxval}\n").into_bytes();
        bytes.extend(sample);
        bytes
    };
    let grey = image(4_095, [8, 0]);
    let whole = [grey.clone(), grey.clone(), grey.clone()].concat();
    assert_eq!(chroma::ppm(&whole).unwrap(), b"P6\n1 1\n255\n\x80\x80\x80");
    assert_eq!(
        chroma::ppm(&whole[..whole.len() - 1]).unwrap_err().number(),
        15
    );
    for maxval in [0, 4_094, 65_536] {
        let unequal = [grey.clone(), grey.clone(), image(maxval, [8, 0])].concat();
        assert_eq!(chroma::ppm(&unequal).unwrap_err().number(), 14);
    }
}
