//! Misreadings of the order of the refusals, of the limits, and of what is written.

use super::Misreading;
use crate::grid::Settings;
use crate::lines::{test_count, test_settings, test_version, Conversion, Lines, AS_NEEDED, END};
use crate::refusal::Refusal;
use crate::schedule::{file_bytes, Event, MOST_EVENTS};

/// The version of the first line is tested before the form of the lines after it.
pub struct VersionBeforeForm;

impl Conversion for VersionBeforeForm {
    fn file(&self, text: &[u8], room: usize) -> Result<Vec<u8>, Refusal> {
        test_first_line(text, test_version)?;
        Lines.file(text, room)
    }
}

/// The settings of the first line are tested before the form of the lines after it.
pub struct SettingsBeforeForm;

impl Conversion for SettingsBeforeForm {
    fn file(&self, text: &[u8], room: usize) -> Result<Vec<u8>, Refusal> {
        test_first_line(text, |settings| test_version(settings).and(test_settings(settings)))?;
        Lines.file(text, room)
    }
}

fn test_first_line(
    text: &[u8],
    test: impl Fn(Settings) -> Result<(), Refusal>,
) -> Result<(), Refusal> {
    let lines = Lines.cut(text);
    let first = lines.first().filter(|line| line.ended);
    first.and_then(|line| Lines.settings(line.bytes)).map_or(Ok(()), test)
}

/// Lines after the last permitted event are only counted.
pub struct CountBeforeForm;

impl Conversion for CountBeforeForm {
    fn file(&self, text: &[u8], room: usize) -> Result<Vec<u8>, Refusal> {
        let mut lines = Lines.cut(text);
        let count = lines.len().saturating_sub(1);
        if count <= MOST_EVENTS {
            return Lines.file(text, room);
        }
        lines.truncate(MOST_EVENTS + 1);
        let kept: Vec<&[u8]> = lines.iter().map(|line| line.bytes).collect();
        let (settings, _) = Lines.schedule(&[&kept.join(END), END].concat())?;
        Lines.test_limits(settings, count)?;
        Err(Refusal::EventCount)
    }
}

/// 1 is tested before 10.
pub struct SettingsBeforeVersion;

impl Conversion for SettingsBeforeVersion {
    fn test_limits(&self, settings: Settings, count: usize) -> Result<(), Refusal> {
        test_settings(settings)?;
        test_version(settings)?;
        test_count(count)
    }
}

/// 11 is tested before 1.
pub struct CountBeforeSettings;

impl Conversion for CountBeforeSettings {
    fn test_limits(&self, settings: Settings, count: usize) -> Result<(), Refusal> {
        test_version(settings)?;
        test_count(count)?;
        test_settings(settings)
    }
}

/// 11 is tested before 10.
pub struct CountBeforeVersion;

impl Conversion for CountBeforeVersion {
    fn test_limits(&self, settings: Settings, count: usize) -> Result<(), Refusal> {
        test_count(count)?;
        Lines.test_limits(settings, count)
    }
}

/// Events are counted in 16 bits.
pub struct CountOf16Bits;

impl Conversion for CountOf16Bits {
    fn test_limits(&self, settings: Settings, count: usize) -> Result<(), Refusal> {
        Lines.test_limits(settings, count % 65_536)
    }
}

/// The first line is counted with the events.
pub struct CountOfLines;

impl Conversion for CountOfLines {
    fn test_limits(&self, settings: Settings, count: usize) -> Result<(), Refusal> {
        Lines.test_limits(settings, count + 1)
    }
}

/// The room is tested before the count.
pub struct RoomBeforeCount;

impl Conversion for RoomBeforeCount {
    fn file(&self, text: &[u8], room: usize) -> Result<Vec<u8>, Refusal> {
        let (settings, events) = self.schedule(text)?;
        test_version(settings)?;
        test_settings(settings)?;
        let numbers: Vec<u32> = events.iter().map(|event| event.number()).collect();
        let file = self.within(room, file_bytes(settings, numbers.len() as u16, &numbers))?;
        test_count(numbers.len()).map(|()| file)
    }
}

/// An output that fills its room is refused.
pub struct FullRoom;

impl Conversion for FullRoom {
    fn within(&self, room: usize, output: Vec<u8>) -> Result<Vec<u8>, Refusal> {
        Lines.within(if room == AS_NEEDED { room } else { room.saturating_sub(1) }, output)
    }
}

/// Lines are written with LF alone.
pub struct WritesLf;

impl Conversion for WritesLf {
    fn end(&self) -> &'static [u8] {
        b"\n"
    }
}

/// The last line is written without its end.
pub struct WritesOpenLastLine;

impl Conversion for WritesOpenLastLine {
    fn text(&self, file: &[u8], room: usize) -> Result<Vec<u8>, Refusal> {
        let text = Lines.text(file, room)?;
        Ok(text.strip_suffix(END).unwrap_or(&text).to_vec())
    }
}

/// Version 1 is written whatever the file says.
pub struct WritesVersion1;

impl Conversion for WritesVersion1 {
    fn first_line(&self, settings: Settings) -> [u16; 4] {
        Lines.first_line(settings.of_version(1))
    }
}

/// Identifiers go into the file with the high byte first.
pub struct HighByteFirst;

impl Conversion for HighByteFirst {
    fn event(&self, line: &[u8]) -> Option<Event> {
        let event = Lines.event(line)?;
        Some(Event { id: event.id.swap_bytes(), ..event })
    }
}

pub const ALL: [Misreading; 14] = [
    Misreading::new("version-before-form", &VersionBeforeForm),
    Misreading::new("settings-before-form", &SettingsBeforeForm),
    Misreading::new("count-before-form", &CountBeforeForm),
    Misreading::new("settings-before-version", &SettingsBeforeVersion),
    Misreading::new("count-before-settings", &CountBeforeSettings),
    Misreading::new("count-before-version", &CountBeforeVersion),
    Misreading::new("count-of-16-bits", &CountOf16Bits),
    Misreading::new("count-of-lines", &CountOfLines),
    Misreading::new("room-before-count", &RoomBeforeCount),
    Misreading::new("full-room", &FullRoom),
    Misreading::new("writes-lf", &WritesLf),
    Misreading::new("writes-open-last-line", &WritesOpenLastLine),
    Misreading::new("writes-version-1", &WritesVersion1),
    Misreading::new("high-byte-first", &HighByteFirst),
];
