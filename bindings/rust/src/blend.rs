//! Rows between two photographs.

use crate::{ffi, Reader, Refusal};

/// Rows between two pictures of equal geometry, by a weight of sixteenths: a strip's colour at a
/// moment between an early and a late photograph.
///
/// It owns both readers, each with its own state and scratch, and the planes of both pictures can't
/// change while it lives. So the premise of the library's theorem about lists of calls holds of both
/// by construction: every row it gives is the mix of what [`fill`](crate::fill) gives of the two
/// pictures in that row, guided and exact, whatever was read, sought or refused before in either.
///
/// Rows written one after another are a picture that [`patch`](crate::patch) and
/// [`chart_reading`](crate::chart_reading) read:
///
/// ```
/// use chroma::{patch, Blend, Layout, Picture, Plane, Rectangle};
///
/// // A grey strip of 2 by 2 pixels that darkens from 200 to 120.
/// let (early, late, c) = ([200; 4], [120; 4], [128; 4]);
/// let layout = Layout::new(2, 2, 1, 1);
/// let chroma = (Plane::new(&c, 2), Plane::new(&c, 2));
/// let first = Picture::new(layout, Plane::new(&early, 2), chroma.0, chroma.1)?;
/// let second = Picture::new(layout, Plane::new(&late, 2), chroma.0, chroma.1)?;
///
/// // A quarter of the way.
/// let mut blend = Blend::new(first.reader()?, second.reader()?);
/// let mut rgb = [0; 12];
/// for (row, out) in rgb.chunks_mut(6).enumerate() {
///     blend.row(row, 4, out)?;
/// }
/// let whole = Rectangle { left: 0, top: 0, width: 2, height: 2 };
/// assert_eq!(patch(whole, 2, 2, &rgb)?.unwrap().whole, [180; 3]);
/// # Ok::<(), chroma::Refusal>(())
/// ```
#[derive(Debug)]
pub struct Blend<'a, 'b> {
    early: Reader<'a>,
    late: Reader<'b>,
}

impl<'a, 'b> Blend<'a, 'b> {
    /// Of an early picture's reader and a late one's, which go on from where they are.
    pub fn new(early: Reader<'a>, late: Reader<'b>) -> Blend<'a, 'b> {
        Blend { early, late }
    }

    /// Row `row` of the mix into the first `3 * w` bytes of `out`: each byte
    /// `((16 - weight) * early + weight * late + 8) / 16`, the early picture's at weight 0 and the
    /// late one's at 16. Both readers are moved as by [`Reader::row`]. Refusals 22 (pictures of
    /// unequal geometry, or a weight above 16), 10, 11, and 12 where either reader is past the row;
    /// after a refusal everything is as it was, in both.
    pub fn row(&mut self, row: usize, weight: usize, out: &mut [u8]) -> Result<(), Refusal> {
        let (first, second) =
            ffi::blend_row(self.early.side(), self.late.side(), row, weight, out)?;
        self.early.moved(first);
        self.late.moved(second);
        Ok(())
    }

    /// Moves both readers to any row, back as well. Refusal 11.
    pub fn seek(&mut self, row: usize) -> Result<(), Refusal> {
        let (first, second) = (self.early.sought(row)?, self.late.sought(row)?);
        self.early.moved(first);
        self.late.moved(second);
        Ok(())
    }

    /// The reader of the early picture, for rows of its own and jumps.
    pub fn early(&mut self) -> &mut Reader<'a> {
        &mut self.early
    }

    /// The reader of the late picture.
    pub fn late(&mut self) -> &mut Reader<'b> {
        &mut self.late
    }

    /// Both readers, the early one first.
    pub fn into_readers(self) -> (Reader<'a>, Reader<'b>) {
        (self.early, self.late)
    }
}
