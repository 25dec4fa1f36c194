//! The reader of guided rows.

use crate::ffi::{self, State};
use crate::{Picture, Refusal, Scratch};

/// Reads rows of Cb and Cr, guided by luma, from the picture it borrows.
///
/// It owns its state and its scratch, and the planes can't change while it lives. So the premise
/// of the library's theorem about lists of calls holds by construction: every row it gives is
/// that of its picture and the row number alone, whatever was read, sought or refused before.
///
/// ```
/// use chroma::{Layout, Picture, Plane, Refusal};
///
/// let y: Vec<u8> = (0..12).map(|i| 20 * i).collect();
/// let (cb, cr) = ([90, 90], [200, 200]);
/// let picture = Picture::new(
///     Layout::new(4, 3, 2, 3),
///     Plane::new(&y, 4),
///     Plane::new(&cb, 2),
///     Plane::new(&cr, 2),
/// )?;
/// let mut reader = picture.reader()?;
/// let (mut row_cb, mut row_cr) = ([0.0; 4], [0.0; 4]);
///
/// // Guided with constant chroma returns that constant.
/// reader.row(2, &mut row_cb, &mut row_cr)?;
/// assert_eq!((row_cb, row_cr), ([90.0; 4], [200.0; 4]));
///
/// // Back only by a seek.
/// assert_eq!(reader.row(1, &mut row_cb, &mut row_cr), Err(Refusal::RowPassed));
/// reader.seek(0)?;
/// reader.row(1, &mut row_cb, &mut row_cr)?;
/// assert_eq!(reader.place(), 1);
/// # Ok::<(), Refusal>(())
/// ```
///
/// The planes stay borrowed while the reader lives:
///
/// ```compile_fail,E0502
/// use chroma::{Layout, Picture, Plane};
///
/// let mut y = [10, 20];
/// let c = [128, 128];
/// let (a, b) = (Plane::new(&c, 2), Plane::new(&c, 2));
/// let picture = Picture::new(Layout::new(2, 1, 1, 1), Plane::new(&y, 2), a, b).unwrap();
/// let mut reader = picture.reader().unwrap();
/// y.fill(0);
/// reader.seek(0).unwrap();
/// ```
#[derive(Debug)]
pub struct Reader<'a> {
    picture: Picture<'a>,
    scratch: Scratch,
    state: State,
}

impl<'a> Reader<'a> {
    pub(crate) fn open(picture: Picture<'a>, mut scratch: Scratch) -> Result<Reader<'a>, Refusal> {
        let layout = *picture.layout();
        let state = ffi::open(layout, picture.planes(), scratch.of(&layout))?;
        Ok(Reader {
            picture,
            scratch,
            state,
        })
    }

    /// A reader of another picture, at its row 0, with this one's scratch. Refusal 16, where chroma
    /// is co-sited.
    pub fn reopen<'b>(self, picture: &Picture<'b>) -> Result<Reader<'b>, Refusal> {
        Reader::open(*picture, self.scratch)
    }

    /// The picture that it reads.
    pub fn picture(&self) -> &Picture<'a> {
        &self.picture
    }

    /// The row that it is at: the last one sought or given, 0 at first.
    pub fn place(&self) -> usize {
        self.state.place()
    }

    /// Moves to any row, back as well. Refusal 11.
    pub fn seek(&mut self, row: usize) -> Result<(), Refusal> {
        self.state = self.sought(row)?;
        Ok(())
    }

    /// The state at another row.
    pub(crate) fn sought(&self, row: usize) -> Result<State, Refusal> {
        ffi::seek(self.state, row)
    }

    /// Row `row` of Cb and of Cr into the first `w` values of `cb` and of `cr`, in the samples'
    /// units, not rounded, each within the extremes of the 3 by 3 cells round its own. The row may
    /// be the place or any after it. Refusals 10, 11 and 12, after which everything is as it was.
    pub fn row(&mut self, row: usize, cb: &mut [f32], cr: &mut [f32]) -> Result<(), Refusal> {
        let layout = *self.picture.layout();
        let scratch = self.scratch.of(&layout);
        self.state = ffi::row(self.state, self.picture.planes(), row, scratch, cb, cr)?;
        Ok(())
    }

    /// Row `row` as RGB, guided and exact: `w` pixels of three bytes into `out`, as
    /// [`fill`](crate::fill) gives that row, and the reader moved as by [`row`](Reader::row).
    /// Refusals 10 (`out` shorter than `3 * w`), 11 and 12, after which everything is as it was.
    ///
    /// ```
    /// use chroma::{Layout, Picture, Plane};
    ///
    /// let (y, cb, cr) = ([230; 2], [3; 2], [128; 2]);
    /// let (a, b) = (Plane::new(&cb, 1), Plane::new(&cr, 1));
    /// let picture = Picture::new(Layout::new(1, 2, 1, 1), Plane::new(&y, 1), a, b)?;
    /// let mut rgb = [0; 3];
    /// picture.reader()?.rgb_row(1, &mut rgb)?;
    /// assert_eq!(rgb, [230, 255, 9]);
    /// # Ok::<(), chroma::Refusal>(())
    /// ```
    pub fn rgb_row(&mut self, row: usize, out: &mut [u8]) -> Result<(), Refusal> {
        let layout = *self.picture.layout();
        let scratch = self.scratch.of(&layout);
        self.state = ffi::rgb_row(self.state, self.picture.planes(), row, scratch, out)?;
        Ok(())
    }

    /// What it brings to a blend.
    pub(crate) fn side(&mut self) -> ffi::Side<'_, 'a> {
        let layout = *self.picture.layout();
        (self.state, self.picture.planes(), self.scratch.of(&layout))
    }

    /// The state that a blend left.
    pub(crate) fn moved(&mut self, state: State) {
        self.state = state;
    }
}
