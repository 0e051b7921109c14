//! Misreadings of the form: how lines are cut and counted, and what stands in them.

use super::Misreading;
use crate::grid::Settings;
use crate::lines::{cut_at, fields, plain_decimal, Conversion, Line, Lines};
use crate::refusal::Refusal;
use crate::schedule::{Event, Kind};

/// LF alone ends a line too.
pub struct LfAlone;

impl Conversion for LfAlone {
    fn cut<'a>(&self, text: &'a [u8]) -> Vec<Line<'a>> {
        let mut lines = cut_at(b"\n", text);
        for line in lines.iter_mut().filter(|line| line.ended) {
            line.bytes = line.bytes.strip_suffix(b"\r").unwrap_or(line.bytes);
        }
        lines
    }
}

/// CR alone ends a line too.
pub struct CrAlone;

impl Conversion for CrAlone {
    fn cut<'a>(&self, text: &'a [u8]) -> Vec<Line<'a>> {
        let mut lines = cut_at(b"\r", text);
        for line in lines.iter_mut().skip(1) {
            line.bytes = line.bytes.strip_prefix(b"\n").unwrap_or(line.bytes);
        }
        lines.retain(|line| line.ended || !line.bytes.is_empty());
        lines
    }
}

/// The last line may end without CR LF.
pub struct OpenLastLine;

impl Conversion for OpenLastLine {
    fn cut<'a>(&self, text: &'a [u8]) -> Vec<Line<'a>> {
        let ended = |line: Line<'a>| Line { ended: true, ..line };
        Lines.cut(text).into_iter().map(ended).collect()
    }
}

/// Empty lines are left out.
pub struct EmptyLines;

impl Conversion for EmptyLines {
    fn cut<'a>(&self, text: &'a [u8]) -> Vec<Line<'a>> {
        Lines.cut(text).into_iter().filter(|line| !line.bytes.is_empty()).collect()
    }
}

/// An empty text is the smallest schedule.
pub struct EmptyText;

impl Conversion for EmptyText {
    fn file(&self, text: &[u8], room: usize) -> Result<Vec<u8>, Refusal> {
        Lines.file(if text.is_empty() { b"0,1,1,1\r\n" } else { text }, room)
    }
}

/// Lines counted from 0.
pub struct LinesFrom0;

impl Conversion for LinesFrom0 {
    fn line_number(&self, index: usize) -> usize {
        index
    }
}

/// Only the lines of events are counted.
pub struct EventsFrom1;

impl Conversion for EventsFrom1 {
    fn line_number(&self, index: usize) -> usize {
        index.max(1)
    }
}

/// A leading zero is no fault.
pub struct LeadingZero;

impl Conversion for LeadingZero {
    fn decimal(&self, digits: &[u8], largest: u32) -> Option<u32> {
        let zeros = digits.iter().take_while(|digit| **digit == b'0').count();
        plain_decimal(&digits[zeros.min(digits.len().saturating_sub(1))..], largest)
    }
}

/// A plus sign is no fault.
pub struct PlusSign;

impl Conversion for PlusSign {
    fn decimal(&self, digits: &[u8], largest: u32) -> Option<u32> {
        plain_decimal(digits.strip_prefix(b"+").unwrap_or(digits), largest)
    }
}

/// A field with nothing in it is 0.
pub struct NothingIs0;

impl Conversion for NothingIs0 {
    fn decimal(&self, digits: &[u8], largest: u32) -> Option<u32> {
        plain_decimal(if digits.is_empty() { b"0" } else { digits }, largest)
    }
}

/// A decimal of any length, modulo a number.
fn modulo(digits: &[u8], modulus: u32) -> Option<u32> {
    let zeros = digits.len() > 1 && digits[0] == b'0';
    let plain = !digits.is_empty() && !zeros && digits.iter().all(u8::is_ascii_digit);
    let add = |number, digit: &u8| (10 * number + u32::from(digit - b'0')) % modulus;
    plain.then(|| digits.iter().fold(0, add))
}

/// Numbers of 16 bits are taken modulo 65,536.
pub struct WordsModulo;

impl Conversion for WordsModulo {
    fn decimal(&self, digits: &[u8], largest: u32) -> Option<u32> {
        match largest {
            65_535 => modulo(digits, 65_536),
            _ => plain_decimal(digits, largest),
        }
    }
}

/// Numbers of 8 bits are taken modulo 256.
pub struct BytesModulo;

impl Conversion for BytesModulo {
    fn decimal(&self, digits: &[u8], largest: u32) -> Option<u32> {
        match largest {
            255 => modulo(digits, 256),
            _ => plain_decimal(digits, largest),
        }
    }
}

/// A number too large for its field becomes the largest that fits.
pub struct LargestForLarger;

impl Conversion for LargestForLarger {
    fn decimal(&self, digits: &[u8], largest: u32) -> Option<u32> {
        modulo(digits, 1)?;
        Some(plain_decimal(digits, largest).unwrap_or(largest))
    }
}

/// Spaces about a field are left out.
pub struct Spaces;

impl Conversion for Spaces {
    fn decimal(&self, digits: &[u8], largest: u32) -> Option<u32> {
        plain_decimal(digits.trim_ascii(), largest)
    }

    fn kind(&self, word: &[u8]) -> Option<Kind> {
        Lines.kind(word.trim_ascii())
    }
}

/// RFC 4180's quotes about a field are left out.
pub struct Quotes;

fn unquoted(field: &[u8]) -> &[u8] {
    field.strip_prefix(b"\"").and_then(|rest| rest.strip_suffix(b"\"")).unwrap_or(field)
}

impl Conversion for Quotes {
    fn decimal(&self, digits: &[u8], largest: u32) -> Option<u32> {
        plain_decimal(unquoted(digits), largest)
    }

    fn kind(&self, word: &[u8]) -> Option<Kind> {
        Lines.kind(unquoted(word))
    }
}

/// Words in capitals are taken too.
pub struct Capitals;

impl Conversion for Capitals {
    fn kind(&self, word: &[u8]) -> Option<Kind> {
        Lines.kind(&word.to_ascii_lowercase())
    }
}

/// The words of 01's rules, `release` for `free`.
pub struct ReleaseForFree;

impl Conversion for ReleaseForFree {
    fn kind(&self, word: &[u8]) -> Option<Kind> {
        Lines.kind(if word == b"release" { b"free" } else { word })
    }
}

/// Fields after those that are due are left out.
pub struct MoreFields;

impl Conversion for MoreFields {
    fn event(&self, line: &[u8]) -> Option<Event> {
        let mut fields = line.split(|byte| *byte == b',');
        Some(Event::new(self.kind(fields.next()?)?, self.word(fields.next()?)?))
    }
}

/// The first line is mode, N, version and k, in both directions.
pub struct VersionAndK;

impl Conversion for VersionAndK {
    fn settings(&self, line: &[u8]) -> Option<Settings> {
        let [mode, n, version, k] = fields(line)?;
        Lines.settings(&[mode, n, k, version].join(&b','))
    }

    fn first_line(&self, settings: Settings) -> [u16; 4] {
        let [mode, n, k, version] = Lines.first_line(settings);
        [mode, n, version, k]
    }
}

pub const ALL: [Misreading; 19] = [
    Misreading::new("lf-alone", &LfAlone),
    Misreading::new("cr-alone", &CrAlone),
    Misreading::new("open-last-line", &OpenLastLine),
    Misreading::new("empty-lines", &EmptyLines),
    Misreading::new("empty-text", &EmptyText),
    Misreading::new("lines-from-0", &LinesFrom0),
    Misreading::new("events-from-1", &EventsFrom1),
    Misreading::new("leading-zero", &LeadingZero),
    Misreading::new("plus-sign", &PlusSign),
    Misreading::new("nothing-is-0", &NothingIs0),
    Misreading::new("words-modulo", &WordsModulo),
    Misreading::new("bytes-modulo", &BytesModulo),
    Misreading::new("largest-for-larger", &LargestForLarger),
    Misreading::new("spaces", &Spaces),
    Misreading::new("quotes", &Quotes),
    Misreading::new("capitals", &Capitals),
    Misreading::new("release-for-free", &ReleaseForFree),
    Misreading::new("more-fields", &MoreFields),
    Misreading::new("version-and-k", &VersionAndK),
];
