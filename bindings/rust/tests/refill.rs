//! Refills beside whole fills: every rectangle of a small plane, and what is refused.

use chroma::{
    fill, refill, Kernel, Layout, Picture, Plane, Rectangle, Refusal, Scratch, Upsampling,
};

const W: usize = 11;
const H: usize = 14;
const LAYOUTS: [(usize, usize); 4] = [(1, 1), (2, 2), (3, 4), (4, 2)];

fn bytes(seed: u32, n: usize) -> Vec<u8> {
    let mut state = seed;
    (0..n)
        .map(|_| {
            state = state.wrapping_mul(1_103_515_245).wrapping_add(12_345);
            (state >> 24) as u8
        })
        .collect()
}

struct Change {
    layout: Layout,
    y: Vec<u8>,
    old: [Vec<u8>; 2],
    new: [Vec<u8>; 2],
}

impl Change {
    /// Planes whose cells differ in the rectangle.
    fn new(rh: usize, rv: usize, cells: Rectangle) -> Change {
        let layout = Layout::new(W, H, rh, rv);
        let old = [1, 2].map(|seed| bytes(seed, layout.cw * layout.ch));
        let mut new = old.clone();
        for j in cells.top..cells.top + cells.height {
            for i in cells.left..cells.left + cells.width {
                new[0][j * layout.cw + i] ^= 0x5a;
                new[1][j * layout.cw + i] ^= 0x33;
            }
        }
        Change {
            layout,
            y: bytes(3, W * H),
            old,
            new,
        }
    }

    fn planes<'a>(&'a self, chroma: &'a [Vec<u8>; 2]) -> [Plane<'a>; 3] {
        [
            Plane::new(&self.y, W),
            Plane::new(&chroma[0], self.layout.cw),
            Plane::new(&chroma[1], self.layout.cw),
        ]
    }

    fn picture<'a>(&'a self, chroma: &'a [Vec<u8>; 2]) -> Picture<'a> {
        let [y, cb, cr] = self.planes(chroma);
        Picture::new(self.layout, y, cb, cr).unwrap()
    }

    /// The guided fill of the planes with this chroma, over bytes of 7.
    fn filled(&self, chroma: &[Vec<u8>; 2], kernel: Kernel, size: usize) -> Vec<u8> {
        let mut out = vec![7; W * H * size];
        let mut scratch = Scratch::new();
        let guided = Upsampling::LumaGuided;
        fill(
            &self.picture(chroma),
            guided,
            kernel,
            size,
            &mut scratch,
            &mut out,
        )
        .unwrap();
        out
    }

    fn refilled(
        &self,
        cells: Rectangle,
        kernel: Kernel,
        size: usize,
        out: &mut [u8],
    ) -> Result<(), Refusal> {
        let picture = self.picture(&self.new);
        refill(
            self.planes(&self.old),
            &picture,
            cells,
            kernel,
            size,
            &mut Scratch::new(),
            out,
        )
    }
}

fn rectangles(cw: usize, ch: usize) -> impl Iterator<Item = Rectangle> {
    (0..cw).flat_map(move |left| {
        (0..ch).flat_map(move |top| {
            [(0, 1), (1, 0), (1, 1), (cw - left, ch - top)].map(|(width, height)| Rectangle {
                left,
                top,
                width,
                height,
            })
        })
    })
}

#[test]
fn every_rectangle_of_a_small_plane() {
    for (turn, (rh, rv)) in LAYOUTS.into_iter().enumerate() {
        let (kernel, size) = [
            (Kernel::Exact, 3),
            (Kernel::FixedPoint16, 4),
            (Kernel::Exact, 4),
            (Kernel::FixedPoint16, 3),
        ][turn];
        let layout = Layout::new(W, H, rh, rv);
        for cells in rectangles(layout.cw, layout.ch) {
            let change = Change::new(rh, rv, cells);
            let after = change.filled(&change.new, kernel, size);
            let mut out = change.filled(&change.old, kernel, size);
            change.refilled(cells, kernel, size, &mut out).unwrap();
            assert_eq!(out, after, "{cells:?}");

            // Of a picture that isn't the conversion before, the rows near the rectangle are written
            // and no other.
            let mut other = vec![7; W * H * size];
            change.refilled(cells, kernel, size, &mut other).unwrap();
            for (y, row) in other.chunks(W * size).enumerate() {
                let near = (cells.top..cells.top + cells.height)
                    .any(|j| j.abs_diff(y / rv) <= 2 && cells.width > 0);
                let wanted = &after[y * W * size..][..W * size];
                assert_eq!(row == wanted, near, "row {y}, {cells:?}");
                assert!(near || row.iter().all(|&byte| byte == 7));
            }
        }
    }
}

#[test]
fn refusals_in_their_order() {
    let cells = Rectangle {
        left: 2,
        top: 3,
        width: 2,
        height: 1,
    };
    let change = Change::new(2, 2, cells);
    let before = change.filled(&change.old, Kernel::Exact, 3);
    let mut out = before.clone();
    let refused = |cells: Rectangle, size: usize, out: &mut [u8]| {
        change
            .refilled(cells, Kernel::Exact, size, out)
            .unwrap_err()
    };
    let far = Rectangle { left: 5, ..cells };
    assert_eq!(refused(far, 5, &mut []), Refusal::BadPixelSize);
    assert_eq!(refused(far, 3, &mut []), Refusal::BadRectangle);
    let wrapping = Rectangle {
        left: usize::MAX,
        ..cells
    };
    assert_eq!(refused(wrapping, 3, &mut out), Refusal::BadRectangle);
    assert_eq!(
        refused(Rectangle { left: 3, ..cells }, 3, &mut []),
        Refusal::ShortOutput
    );
    assert_eq!(
        refused(Rectangle { left: 3, ..cells }, 3, &mut out),
        Refusal::OtherChange
    );
    assert_eq!(
        refused(Rectangle { width: 0, ..cells }, 3, &mut out),
        Refusal::OtherChange
    );
    assert_eq!(out, before);

    let short = [Plane::new(&[], W), Plane::new(&[], 6), Plane::new(&[], 6)];
    let picture = change.picture(&change.new);
    let refusal = refill(
        short,
        &picture,
        cells,
        Kernel::Exact,
        3,
        &mut Scratch::new(),
        &mut out,
    );
    assert_eq!(refusal, Err(Refusal::BadPlane));
    assert_eq!(out, before);
}
