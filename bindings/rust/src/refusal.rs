//! The reasons for turning a call down.

use std::error::Error;
use std::fmt;

/// Why a call was turned down: the first reason of the call's list that applies, by the numbers of
/// docs/REFUSALS.md. A call that is turned down has changed nothing.
///
/// ```
/// use chroma::{exact_pixel, Range, Refusal};
///
/// let refusal = exact_pixel(65_536, 0, 0, 255, Range::Full).unwrap_err();
/// assert_eq!(refusal, Refusal::BadPixel);
/// assert_eq!(refusal.number(), 13);
/// ```
///
/// Later versions may name more reasons, so a `match` needs an arm for the others:
///
/// ```
/// use chroma::Refusal;
///
/// fn advice(refusal: Refusal) -> String {
///     match refusal {
///         Refusal::RowPassed => "seek first".to_string(),
///         other => format!("see number {} in docs/REFUSALS.md", other.number()),
///     }
/// }
/// assert_eq!(advice(Refusal::RowPassed), "seek first");
/// assert_eq!(advice(Refusal::BadSize), "see number 2 in docs/REFUSALS.md");
/// ```
#[derive(Clone, Copy, Debug, PartialEq, Eq, Hash)]
#[non_exhaustive]
pub enum Refusal {
    /// A state that open, seek or row never leaves. This crate's readers have none.
    BadState,
    /// Width or height 0 or over 8,192.
    BadSize,
    /// A ratio outside 1..=4, or a numerator other than 1; for the linear calls a numerator outside
    /// 1 to its ratio.
    BadRatio,
    /// Sample bytes not 1 or 2, maxval outside 1..=255 (1..=65,535 for two bytes), or the fixed
    /// kernel with a maxval that is not 255.
    BadSamples,
    /// A chroma size that is not the rounded-up quotient of size and ratio.
    BadChroma,
    /// Triangular with ratios not (2,1), (1,2) or (2,2), or with ratio 2 across and at most two
    /// cells.
    NoTriangular,
    /// A stride below its row's bytes, or a plane that ends before its last row does.
    BadPlane,
    /// Pixel size not 3 or 4.
    BadPixelSize,
    /// Scratch too short. This crate makes its own, so it is not met.
    ShortScratch,
    /// An output too short.
    ShortOutput,
    /// A row at or past the height.
    BadRow,
    /// A row before the reader's place: seek first.
    RowPassed,
    /// Luma or whole chroma over 65,535, chroma in 256ths over 16,776,960, or maxval outside
    /// 1..=65,535.
    BadPixel,
    /// A PGM header that is not one, a maxval outside 1..=65,535 or not that of the first image, or
    /// bytes left over.
    BadHeader,
    /// The size limits of [`ppm`](crate::ppm) passed, or rows missing.
    TooLarge,
    /// Co-sited chroma on either axis with a guided or triangular call.
    NotCentred,
    /// A sample inside a plane that exceeds maxval.
    AboveMaxval,
    /// Studio range with another maxval than 255, or with the fixed kernel.
    BadRange,
    /// A rectangle whose end passes 65,535, or, for [`refill`](crate::refill), one with a cell outside
    /// the chroma plane.
    BadRectangle,
    /// A chart that is not 2 to 24 shades of three bytes, or that has bytes over.
    BadChart,
    /// Luma that differs from that before the change, or chroma that differs outside the rectangle.
    OtherChange,
    /// A blend of pictures whose geometry (sizes, ratios, range) is not equal, or a weight above 16.
    Unlike,
    /// A number that this crate has no name for, from a library that is newer than the crate. The
    /// library of the crate's own version gives none.
    Unknown(u32),
}

impl Refusal {
    const NAMED: [Refusal; 22] = [
        Refusal::BadState,
        Refusal::BadSize,
        Refusal::BadRatio,
        Refusal::BadSamples,
        Refusal::BadChroma,
        Refusal::NoTriangular,
        Refusal::BadPlane,
        Refusal::BadPixelSize,
        Refusal::ShortScratch,
        Refusal::ShortOutput,
        Refusal::BadRow,
        Refusal::RowPassed,
        Refusal::BadPixel,
        Refusal::BadHeader,
        Refusal::TooLarge,
        Refusal::NotCentred,
        Refusal::AboveMaxval,
        Refusal::BadRange,
        Refusal::BadRectangle,
        Refusal::BadChart,
        Refusal::OtherChange,
        Refusal::Unlike,
    ];

    /// The number of the reason, as docs/REFUSALS.md and include/chroma.h have it.
    pub fn number(self) -> u32 {
        match self {
            Refusal::BadState => 1,
            Refusal::BadSize => 2,
            Refusal::BadRatio => 3,
            Refusal::BadSamples => 4,
            Refusal::BadChroma => 5,
            Refusal::NoTriangular => 6,
            Refusal::BadPlane => 7,
            Refusal::BadPixelSize => 8,
            Refusal::ShortScratch => 9,
            Refusal::ShortOutput => 10,
            Refusal::BadRow => 11,
            Refusal::RowPassed => 12,
            Refusal::BadPixel => 13,
            Refusal::BadHeader => 14,
            Refusal::TooLarge => 15,
            Refusal::NotCentred => 16,
            Refusal::AboveMaxval => 17,
            Refusal::BadRange => 18,
            Refusal::BadRectangle => 19,
            Refusal::BadChart => 20,
            Refusal::OtherChange => 21,
            Refusal::Unlike => 22,
            Refusal::Unknown(number) => number,
        }
    }

    /// What the library's number says: 0 is accepted.
    pub(crate) fn check(number: u32) -> Result<(), Refusal> {
        if number == 0 {
            return Ok(());
        }
        let named = Refusal::NAMED.into_iter().find(|r| r.number() == number);
        Err(named.unwrap_or(Refusal::Unknown(number)))
    }
}

impl fmt::Display for Refusal {
    fn fmt(&self, f: &mut fmt::Formatter<'_>) -> fmt::Result {
        let words = match self {
            Refusal::BadState => "a state that no call leaves",
            Refusal::BadSize => "width or height 0 or over 8192",
            Refusal::BadRatio => "ratio outside 1 to 4, or a numerator that the call doesn't take",
            Refusal::BadSamples => "sample bytes or maxval out of range",
            Refusal::BadChroma => "chroma size not the rounded-up quotient",
            Refusal::NoTriangular => "ratios or width that triangular doesn't take",
            Refusal::BadPlane => "a plane's stride or data too short",
            Refusal::BadPixelSize => "pixel size not 3 or 4",
            Refusal::ShortScratch => "scratch too short",
            Refusal::ShortOutput => "output too short",
            Refusal::BadRow => "row at or past the height",
            Refusal::RowPassed => "row before the reader's place",
            Refusal::BadPixel => "single-pixel argument out of range",
            Refusal::BadHeader => "header not as it should be, or bytes left over",
            Refusal::TooLarge => "size limits passed, or rows missing",
            Refusal::NotCentred => "co-sited chroma, which guided and triangular calls don't take",
            Refusal::AboveMaxval => "a sample that exceeds maxval",
            Refusal::BadRange => "studio range with another maxval than 255, or the fixed kernel",
            Refusal::BadRectangle => "a rectangle whose end passes what the call takes",
            Refusal::BadChart => "a chart that is not 2 to 24 shades of three bytes",
            Refusal::OtherChange => "samples that differ where no change was announced",
            Refusal::Unlike => "two pictures of unequal geometry, or a weight above 16",
            Refusal::Unknown(_) => "a reason that this crate has no name for",
        };
        write!(f, "refused {}: {words}", self.number())
    }
}

impl Error for Refusal {}

#[cfg(test)]
mod tests {
    use super::Refusal;

    #[test]
    fn every_number_comes_back() {
        assert_eq!(Refusal::check(0), Ok(()));
        for number in (1..=300).chain([u32::MAX]) {
            let refusal = Refusal::check(number).unwrap_err();
            assert_eq!(refusal.number(), number);
            let unknown = matches!(refusal, Refusal::Unknown(_));
            let named = number <= 22;
            assert_eq!(unknown, !named, "{number}");
        }
    }

    #[test]
    fn an_unknown_number_is_an_answer() {
        // 255 stands for a switch, a siting or a range that this crate can't pass.
        let refusal = Refusal::check(255).unwrap_err();
        assert_eq!(refusal, Refusal::Unknown(255));
        assert_eq!(
            refusal.to_string(),
            "refused 255: a reason that this crate has no name for"
        );
    }
}
