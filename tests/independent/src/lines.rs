//! 02, P12: a schedule as comma lines, in the form of RFC 4180 save that the first line has four
//! fields. From a text to the bytes of a schedule file, and back.

use std::io::Write;

use crate::grid::Settings;
use crate::refusal::Refusal;
use crate::schedule::{file_bytes, read_all, Event, Kind, MOST_EVENTS};

/// What ends every line.
pub const END: &[u8] = b"\r\n";
/// The room of an output that may be as long as it needs.
pub const AS_NEEDED: usize = usize::MAX;

/// A line without its end, if it has one.
#[derive(Clone, Copy, PartialEq, Eq, Debug)]
pub struct Line<'a> {
    pub bytes: &'a [u8],
    pub ended: bool,
}

/// Both conversions. A variant replaces one of the parts.
pub trait Conversion: Sync {
    /// The lines of a text, cut at CR LF.
    fn cut<'a>(&self, text: &'a [u8]) -> Vec<Line<'a>> {
        cut_at(END, text)
    }

    /// What 20 calls the line of an index.
    fn line_number(&self, index: usize) -> usize {
        index + 1
    }

    /// The number of a field, if it is a plain decimal and not above the largest.
    fn decimal(&self, digits: &[u8], largest: u32) -> Option<u32> {
        plain_decimal(digits, largest)
    }

    /// The kind of a word.
    fn kind(&self, word: &[u8]) -> Option<Kind> {
        Kind::ALL.into_iter().find(|kind| kind.word().as_bytes() == word)
    }

    /// The first line: mode, N, k and version.
    fn settings(&self, line: &[u8]) -> Option<Settings> {
        let [mode, n, k, version] = fields(line)?;
        Some(Settings {
            mode: self.byte(mode)?,
            n: self.word(n)?,
            k: self.byte(k)?,
            version: self.word(version)?,
        })
    }

    /// A line after the first.
    fn event(&self, line: &[u8]) -> Option<Event> {
        let [word, id] = fields(line)?;
        Some(Event::new(self.kind(word)?, self.word(id)?))
    }

    /// A number of 8 bits in the file.
    fn byte(&self, digits: &[u8]) -> Option<u8> {
        u8::try_from(self.decimal(digits, u32::from(u8::MAX))?).ok()
    }

    /// A number of 16 bits in the file.
    fn word(&self, digits: &[u8]) -> Option<u16> {
        u16::try_from(self.decimal(digits, u32::from(u16::MAX))?).ok()
    }

    /// The schedule of a text in the form, or 20 with the first line that breaks it.
    fn schedule(&self, text: &[u8]) -> Result<(Settings, Vec<Event>), Refusal> {
        let lines = self.cut(text);
        let ended = |index: usize| {
            let line = lines.get(index).filter(|line| line.ended);
            line.map(|line| line.bytes)
        };
        let broken = |index| Refusal::Form { line: self.line_number(index) };
        let first = ended(0).and_then(|line| self.settings(line));
        let settings = first.ok_or(broken(0))?;
        let event = |index| ended(index).and_then(|line| self.event(line)).ok_or(broken(index));
        let events: Result<Vec<Event>, Refusal> = (1..lines.len()).map(event).collect();
        Ok((settings, events?))
    }

    /// 10, 1 and 11.
    fn test_limits(&self, settings: Settings, count: usize) -> Result<(), Refusal> {
        test_version(settings)?;
        test_settings(settings)?;
        test_count(count)
    }

    /// 14: the output, if the room is long enough.
    fn within(&self, room: usize, output: Vec<u8>) -> Result<Vec<u8>, Refusal> {
        if output.len() > room {
            return Err(Refusal::OutputRoom);
        }
        Ok(output)
    }

    /// The schedule file of a text: 20 over the whole text, then 10, 1, 11 and 14.
    fn file(&self, text: &[u8], room: usize) -> Result<Vec<u8>, Refusal> {
        let (settings, events) = self.schedule(text)?;
        self.test_limits(settings, events.len())?;
        let numbers: Vec<u32> = events.iter().map(|event| event.number()).collect();
        self.within(room, file_bytes(settings, numbers.len() as u16, &numbers))
    }

    /// The fields of the first line in the order in which they are written.
    fn first_line(&self, settings: Settings) -> [u16; 4] {
        let Settings { mode, n, k, version } = settings;
        [u16::from(mode), n, u16::from(k), version]
    }

    /// What is written after each line.
    fn end(&self) -> &'static [u8] {
        END
    }

    /// The text of a schedule file: the refusals of opening, then 14.
    fn text(&self, file: &[u8], room: usize) -> Result<Vec<u8>, Refusal> {
        let (settings, events) = read_all(file)?;
        let [first, second, third, fourth] = self.first_line(settings);
        let mut text = Vec::with_capacity(12 * (events.len() + 1));
        // Writing to a vector does not fail.
        let _ = write!(text, "{first},{second},{third},{fourth}");
        text.extend_from_slice(self.end());
        for event in events {
            let _ = write!(text, "{},{}", event.kind.word(), event.id);
            text.extend_from_slice(self.end());
        }
        self.within(room, text)
    }
}

/// The conversions of 02.
pub struct Lines;

impl Conversion for Lines {}

/// The pieces of a text between the ends; after the last end nothing is a line, and anything else is
/// one that has not ended.
pub fn cut_at<'a>(end: &[u8], text: &'a [u8]) -> Vec<Line<'a>> {
    let mut lines = Vec::new();
    let mut from = 0;
    let mut at = 0;
    while at < text.len() {
        if text[at..].starts_with(end) {
            lines.push(Line { bytes: &text[from..at], ended: true });
            at += end.len();
            from = at;
        } else {
            at += 1;
        }
    }
    if from < text.len() {
        lines.push(Line { bytes: &text[from..], ended: false });
    }
    lines
}

/// The fields of a line, if there are so many.
pub fn fields<const COUNT: usize>(line: &[u8]) -> Option<[&[u8]; COUNT]> {
    let mut split = line.split(|byte| *byte == b',');
    let mut fields = [line; COUNT];
    for field in &mut fields {
        *field = split.next()?;
    }
    split.next().is_none().then_some(fields)
}

/// Digits only, one or more, and no 0 before others.
pub fn plain_decimal(digits: &[u8], largest: u32) -> Option<u32> {
    if digits.is_empty() || digits.len() > 1 && digits[0] == b'0' {
        return None;
    }
    let mut number = 0;
    for digit in digits {
        if !digit.is_ascii_digit() {
            return None;
        }
        number = 10 * number + u32::from(digit - b'0');
        if number > largest {
            return None;
        }
    }
    Some(number)
}

pub fn test_version(settings: Settings) -> Result<(), Refusal> {
    if settings.version_known() {
        Ok(())
    } else {
        Err(Refusal::Version)
    }
}

pub fn test_settings(settings: Settings) -> Result<(), Refusal> {
    if settings.allowed() {
        Ok(())
    } else {
        Err(Refusal::Settings)
    }
}

pub fn test_count(count: usize) -> Result<(), Refusal> {
    if count <= MOST_EVENTS {
        Ok(())
    } else {
        Err(Refusal::EventCount)
    }
}

/// Bytes that begin with the letters of a schedule file are one and become a text; all others are a
/// text and become a file.
pub fn convert(conversion: &dyn Conversion, bytes: &[u8], room: usize) -> Result<Vec<u8>, Refusal> {
    if bytes.starts_with(b"GRS") {
        conversion.text(bytes, room)
    } else {
        conversion.file(bytes, room)
    }
}

/// The refusal of a conversion by its number, 20 with its line.
pub fn number_words(refusal: Refusal) -> String {
    match refusal {
        Refusal::Form { line } => format!("{refusal} at line {line}"),
        _ => refusal.to_string(),
    }
}

/// What `convert` says on standard error: the number, a colon and the cause.
pub fn said(refusal: Refusal) -> String {
    let cause = match refusal {
        Refusal::Settings => "settings outside the limits",
        Refusal::FileLength => "file length wrong",
        Refusal::Letters => "mark letters wrong",
        Refusal::Version => "version unknown",
        Refusal::EventCount => "more than 16,384 events",
        Refusal::EventCode => "event code above 2",
        Refusal::OutputRoom => "output room short",
        Refusal::Form { .. } => "the line breaks the form",
        _ => "no refusal of a conversion",
    };
    format!("{}: {cause}", number_words(refusal))
}
