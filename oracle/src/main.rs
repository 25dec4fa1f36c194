//! The request language: one request a line on standard input, one answer
//! a line on standard output. README.md lists the requests.

use oracle::{Bytes, Chroma, GuidedReader, Kernel, Numbers, Picture, Turned, Upsampling};
use std::fmt::Write as _;
use std::io::{self, BufRead, Write};

/// Greatest luma or whole chroma, and greatest chroma in 256ths, that the
/// kernels are asked.
const MAX_WHOLE: u64 = 65_535;
const MAX_256THS: u64 = 16_776_960;
/// Greatest number of taps, cells or ratio parts that a request may name.
const MAX_COUNT: u64 = 65_536;
/// Greatest stride, index or row of a request: products stay in 64 bits.
const MAX_PLACE: u64 = 1 << 31;

type Answer = Result<String, String>;

/// The words of a request after its name.
struct Words<'a>(std::str::SplitAsciiWhitespace<'a>);

impl<'a> Words<'a> {
    fn word(&mut self) -> Result<&'a str, String> {
        self.0.next().ok_or_else(|| "too few words".into())
    }

    fn end(&mut self) -> Result<(), String> {
        match self.0.next() {
            None => Ok(()),
            Some(word) => Err(format!("too many words: {}", short(word))),
        }
    }

    /// A decimal number within `least..=greatest`.
    fn number(&mut self, least: u64, greatest: u64) -> Result<u64, String> {
        let word = self.word()?;
        let digits = word.bytes().all(|b| b.is_ascii_digit());
        match word.parse() {
            Ok(v) if digits && (least..=greatest).contains(&v) => Ok(v),
            _ => Err(format!(
                "not a number in {least}..{greatest}: {}",
                short(word)
            )),
        }
    }

    fn whole(&mut self) -> Result<u32, String> {
        Ok(self.number(0, MAX_WHOLE)? as u32)
    }

    fn fraction(&mut self) -> Result<u32, String> {
        Ok(self.number(0, MAX_256THS)? as u32)
    }

    fn maxval(&mut self) -> Result<u32, String> {
        Ok(self.number(1, MAX_WHOLE)? as u32)
    }

    /// A chroma offset, signed decimal within ±32,768.
    fn offset(&mut self) -> Result<i32, String> {
        let word = self.word()?;
        let digits = word.strip_prefix('-').unwrap_or(word);
        let digits = digits.bytes().all(|b| b.is_ascii_digit());
        match word.parse() {
            Ok(v) if digits && (-32_768..=32_768).contains(&v) => Ok(v),
            _ => Err(format!("not a number in -32768..32768: {}", short(word))),
        }
    }

    /// A float as the 8 hex digits of its bits.
    fn float(&mut self) -> Result<f32, String> {
        let word = self.word()?;
        let digits = word.len() == 8 && word.bytes().all(|b| b.is_ascii_hexdigit());
        match u32::from_str_radix(word, 16) {
            Ok(bits) if digits => Ok(f32::from_bits(bits)),
            _ => Err(format!("not 8 hex digits: {}", short(word))),
        }
    }

    /// Bytes as pairs of hex digits.
    fn bytes(&mut self) -> Result<Vec<u8>, String> {
        let word = self.word()?;
        let (pairs, odd) = word.as_bytes().as_chunks::<2>();
        let digit = |b: u8| (b as char).to_digit(16);
        let byte = |p: &[u8; 2]| Some((digit(p[0])? * 16 + digit(p[1])?) as u8);
        match pairs.iter().map(byte).collect() {
            Some(bytes) if odd.is_empty() => Ok(bytes),
            _ => Err(format!("not pairs of hex digits: {}", short(word))),
        }
    }

    fn chroma(&mut self) -> Result<Chroma, String> {
        match self.number(1, 2)? {
            1 => Ok(Chroma::Cb),
            _ => Ok(Chroma::Cr),
        }
    }

    fn sixteen<T: Default + Copy>(
        &mut self,
        one: impl Fn(&mut Self) -> Result<T, String>,
    ) -> Result<[T; 16], String> {
        let mut all = [T::default(); 16];
        for v in &mut all {
            *v = one(self)?;
        }
        Ok(all)
    }
}

/// A word as a reason quotes it, cut so that the answer stays short.
fn short(word: &str) -> String {
    word.chars().take(20).collect()
}

/// The bits of a float; any not-a-number prints as the same one.
fn bits(v: f32) -> String {
    let v = if v.is_nan() { 0x7fc0_0000 } else { v.to_bits() };
    format!("{v:08x}")
}

fn hex(bytes: &[u8]) -> String {
    bytes.iter().fold(String::new(), |mut s, b| {
        let _ = write!(s, "{b:02x}");
        s
    })
}

fn rgb([r, g, b]: [u8; 3]) -> String {
    format!("{r} {g} {b}")
}

fn decimal(samples: &[u32]) -> String {
    let words: Vec<String> = samples.iter().map(u32::to_string).collect();
    words.join(" ")
}

fn reader_answer(given: Result<String, Turned>) -> Answer {
    match given {
        Ok(answer) => Ok(answer),
        Err(Turned::Past) => Ok("past".into()),
        Err(Turned::Back) => Ok("back".into()),
        Err(Turned::Closed) => Err("no picture is open".into()),
    }
}

/// What one request leaves for the next.
#[derive(Default)]
struct State {
    picture: Option<Picture>,
    reader: GuidedReader,
}

impl State {
    fn current(&self) -> Result<&Picture, String> {
        self.picture.as_ref().ok_or_else(|| "no picture".into())
    }

    fn answer(&mut self, line: &str) -> Answer {
        let mut w = Words(line.split_ascii_whitespace());
        match w.word().map_err(|_| "empty request")? {
            "grid" => {
                let (x, max) = (w.float()?, w.number(0, oracle::MAX_GRID.into())?);
                w.end()?;
                Ok(oracle::round_clamped_by_grid(x, max as u32).to_string())
            }
            "wide" => {
                let (x, max) = (w.float()?, w.number(0, u32::MAX.into())?);
                w.end()?;
                Ok(oracle::round_wide(x, max as u32).to_string())
            }
            "fmin" => {
                let (a, b) = (w.float()?, w.float()?);
                w.end()?;
                Ok(bits(oracle::fmin(a, b)))
            }
            "fmax" => {
                let (a, b) = (w.float()?, w.float()?);
                w.end()?;
                Ok(bits(oracle::fmax(a, b)))
            }
            "sample" => {
                let data = w.bytes()?;
                let (stride, bps) = (w.number(0, MAX_PLACE)?, w.number(1, 2)?);
                let (index, y) = (w.number(0, MAX_PLACE)?, w.number(0, MAX_PLACE)?);
                w.end()?;
                let [stride, bps, index, y] = [stride, bps, index, y].map(|v| v as usize);
                Ok(oracle::sample(&data, stride, bps, index, y).to_string())
            }
            "taps" => {
                let (out, len) = (w.number(1, MAX_COUNT)?, w.number(1, MAX_COUNT)?);
                let (num, den) = (w.number(1, MAX_COUNT)?, w.number(1, MAX_COUNT)?);
                w.end()?;
                let [out, len, num, den] = [out, len, num, den].map(|v| v as usize);
                let taps = oracle::taps(out, len, num, den);
                let tap = |&(i0, i1, f): &(u32, u32, f32)| format!("{i0} {i1} {}", bits(f));
                Ok(taps.iter().map(tap).collect::<Vec<_>>().join(","))
            }
            "phases" => {
                let r = w.number(1, MAX_COUNT)?;
                w.end()?;
                let side = |left: bool| if left { "left" } else { "right" };
                let phase = |&(left, f): &(bool, f32)| format!("{} {}", side(left), bits(f));
                let phases = oracle::phases(r as usize);
                Ok(phases.iter().map(phase).collect::<Vec<_>>().join(","))
            }
            "kernel-exact" => {
                let (y, cb, cr, maxval) = (w.whole()?, w.fraction()?, w.fraction()?, w.maxval()?);
                w.end()?;
                Ok(rgb(oracle::ycbcr_frac_to_rgb8(y, cb, cr, maxval)))
            }
            "kernel-8bit" => {
                let (y, cb, cr) = (w.whole()?, w.fraction()?, w.fraction()?);
                w.end()?;
                Ok(rgb(oracle::ycbcr_frac_to_rgb8_8bit(y, cb, cr)))
            }
            "kernel-fixed" => {
                let (y, cb, cr) = (w.whole()?, w.whole()?, w.whole()?);
                w.end()?;
                Ok(rgb(oracle::ycbcr_to_rgb8_fixed16(y, cb, cr)))
            }
            "kernel-whole" => {
                let (y, cb, cr, maxval) = (w.whole()?, w.whole()?, w.whole()?, w.maxval()?);
                w.end()?;
                Ok(rgb(oracle::ycbcr_to_rgb8(y, cb, cr, maxval)))
            }
            "red" => {
                let cr = w.offset()?;
                w.end()?;
                Ok(oracle::red_offset(cr).to_string())
            }
            "blue" => {
                let cb = w.offset()?;
                w.end()?;
                Ok(oracle::blue_offset(cb).to_string())
            }
            "green" => {
                let (cb, cr) = (w.offset()?, w.offset()?);
                w.end()?;
                Ok(oracle::green_offset(cb, cr).to_string())
            }
            "chunk" => {
                let y = w.sixteen(|w| Ok(w.whole()? as i32))?;
                let (cb, cr) = (w.sixteen(Words::offset)?, w.sixteen(Words::offset)?);
                w.end()?;
                Ok(oracle::rgb_chunk(&y, &cb, &cr)
                    .map(|row| hex(&row))
                    .join(" "))
            }
            "picture" => {
                let mut n = [0; 6];
                for v in &mut n {
                    *v = w.number(0, MAX_PLACE)? as usize;
                }
                let mut planes = Vec::new();
                for _ in 0..3 {
                    planes.push((w.number(0, MAX_PLACE)? as usize, w.bytes()?));
                }
                w.end()?;
                let [width, height, rh, rv, bps, maxval] = n;
                let maxval = maxval as u32;
                let n = Numbers {
                    w: width,
                    h: height,
                    nh: 1,
                    nv: 1,
                    rh,
                    rv,
                    bps,
                    maxval,
                };
                let plane = |k: usize| Bytes {
                    stride: planes[k].0,
                    data: &planes[k].1,
                };
                self.picture = Some(Picture::new(n, [plane(0), plane(1), plane(2)])?);
                Ok("ok".into())
            }
            "linear" => {
                let k = w.chroma()?;
                w.end()?;
                Ok(decimal(&oracle::linear_plane(self.current()?, k)))
            }
            "guided" => {
                let k = w.chroma()?;
                w.end()?;
                Ok(decimal(&oracle::guided_plane(self.current()?, k)))
            }
            "triangular" => {
                let k = w.chroma()?;
                w.end()?;
                let plane = oracle::triangular_plane(self.current()?, k);
                Ok(plane.map_or_else(|| "none".into(), |samples| decimal(&samples)))
            }
            "open" => {
                w.end()?;
                let picture = self.picture.as_ref().ok_or("no picture")?;
                self.reader.open(picture);
                Ok("ok".into())
            }
            "seek" => {
                let y = w.number(0, MAX_PLACE)? as usize;
                w.end()?;
                reader_answer(self.reader.seek(y).map(|()| "ok".into()))
            }
            "row" => {
                let y = w.number(0, MAX_PLACE)? as usize;
                w.end()?;
                let list = |row: &[f32]| row.iter().map(|&v| bits(v)).collect::<String>();
                let row = self.reader.row(y);
                reader_answer(row.map(|(cb, cr)| format!("{} {}", list(&cb), list(&cr))))
            }
            "fill" => {
                let bpp = w.number(3, 4)? as usize;
                let upsampling = match w.word()? {
                    "linear" => Upsampling::Linear,
                    "guided" => Upsampling::Guided,
                    word => return Err(format!("not linear or guided: {}", short(word))),
                };
                let kernel = match w.word()? {
                    "exact" => Kernel::Exact,
                    "fixed" => Kernel::Fixed,
                    word => return Err(format!("not exact or fixed: {}", short(word))),
                };
                w.end()?;
                let picture = self.current()?;
                let n = picture.numbers();
                // The first three bytes are always written; the fourth
                // shows that it keeps what it held.
                let mut out = vec![0xa0; n.w * n.h * bpp];
                oracle::fill(picture, bpp, upsampling, kernel, &mut out)?;
                Ok(hex(&out))
            }
            word => Err(format!("unknown request: {}", short(word))),
        }
    }
}

fn main() -> io::Result<()> {
    let mut input = io::stdin().lock();
    let mut output = io::BufWriter::new(io::stdout().lock());
    let mut state = State::default();
    let mut line = Vec::new();
    while input.read_until(b'\n', &mut line)? > 0 {
        // Other text than ASCII is quoted in the reason, damaged if need be.
        let answer = state.answer(&String::from_utf8_lossy(&line));
        match answer {
            Ok(answer) => writeln!(output, "{answer}")?,
            Err(reason) => writeln!(output, "error {reason}")?,
        }
        output.flush()?;
        line.clear();
    }
    Ok(())
}
