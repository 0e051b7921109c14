//! 01, "Schedule file": the events, the reader and the writer.

use crate::grid::{Identifier, Settings};
use crate::refusal::Refusal;

pub const HEADER_BYTES: usize = 11;
pub const EVENT_BYTES: usize = 3;
pub const MOST_EVENTS: usize = 16_384;
pub const LARGEST_FILE: usize = HEADER_BYTES + EVENT_BYTES * MOST_EVENTS;

#[derive(Clone, Copy, PartialEq, Eq, Debug)]
pub enum Kind {
    Ask = 0,
    Turn = 1,
    Free = 2,
}

impl Kind {
    pub const ALL: [Kind; 3] = [Kind::Ask, Kind::Turn, Kind::Free];

    pub fn code(self) -> u8 {
        self as u8
    }

    fn from_code(code: u32) -> Option<Kind> {
        Kind::ALL.get(code as usize).copied()
    }

    /// The word of the listing.
    pub fn word(self) -> &'static str {
        match self {
            Kind::Ask => "ask",
            Kind::Turn => "turn",
            Kind::Free => "free",
        }
    }
}

#[derive(Clone, Copy, PartialEq, Eq, Debug)]
pub struct Event {
    pub kind: Kind,
    pub id: u16,
}

impl Event {
    pub fn new(kind: Kind, id: u16) -> Event {
        Event { kind, id }
    }

    /// Code times 65,536 plus identifier.
    pub fn number(self) -> u32 {
        u32::from(self.kind.code()) * 65_536 + u32::from(self.id)
    }

    /// The event of that number, if its code is not above 2.
    pub fn from_number(number: u32) -> Option<Event> {
        let kind = Kind::from_code(number / 65_536)?;
        Some(Event { kind, id: (number % 65_536) as u16 })
    }

    pub fn identifier(self) -> Identifier {
        Identifier(u32::from(self.id))
    }
}

/// What opening answers.
#[derive(Clone, Copy, PartialEq, Eq, Debug)]
pub struct Opened {
    pub settings: Settings,
    pub count: usize,
}

/// 16 bits, low byte first.
fn word_at(bytes: &[u8], at: usize) -> u16 {
    u16::from_le_bytes([bytes[at], bytes[at + 1]])
}

/// Opening's tests but the last, in their order.
fn test_header_and_length(bytes: &[u8]) -> Result<Opened, Refusal> {
    if bytes.len() < HEADER_BYTES {
        return Err(Refusal::FileLength);
    }
    if &bytes[..3] != b"GRS" {
        return Err(Refusal::Letters);
    }
    let settings =
        Settings::new(bytes[5], word_at(bytes, 6), bytes[8]).of_version(word_at(bytes, 3));
    if !settings.version_known() {
        return Err(Refusal::Version);
    }
    if !settings.allowed() {
        return Err(Refusal::Settings);
    }
    let count = usize::from(word_at(bytes, 9));
    if count > MOST_EVENTS {
        return Err(Refusal::EventCount);
    }
    if bytes.len() != HEADER_BYTES + EVENT_BYTES * count {
        return Err(Refusal::FileLength);
    }
    Ok(Opened { settings, count })
}

/// The event at a position below the count, or 12.
fn event_at(bytes: &[u8], position: usize) -> Result<Event, Refusal> {
    let at = HEADER_BYTES + EVENT_BYTES * position;
    let kind = Kind::from_code(u32::from(bytes[at])).ok_or(Refusal::EventCode)?;
    Ok(Event { kind, id: word_at(bytes, at + 1) })
}

/// Opening: 8 for a short header, 9, 10, 1, 11, 8 for the whole length, 12 for any event.
pub fn open(bytes: &[u8]) -> Result<Opened, Refusal> {
    let opened = test_header_and_length(bytes)?;
    for position in 0..opened.count {
        event_at(bytes, position)?;
    }
    Ok(opened)
}

/// A reader stays with the lent file bytes and gives one event after another.
pub struct Reader<'a> {
    pub bytes: &'a [u8],
    pub position: usize,
}

impl Reader<'_> {
    /// The next event; a refusal leaves the position.
    pub fn next_event(&mut self) -> Result<Event, Refusal> {
        let opened = test_header_and_length(self.bytes)?;
        if self.position >= opened.count {
            return Err(Refusal::NoEvent);
        }
        let event = event_at(self.bytes, self.position)?;
        self.position += 1;
        Ok(event)
    }
}

/// The writer: tests 1, 11, 12, 14, and answers how many bytes it wrote from the start of the room.
pub fn write(settings: Settings, numbers: &[u32], room: &mut [u8]) -> Result<usize, Refusal> {
    if !settings.allowed() {
        return Err(Refusal::Settings);
    }
    if numbers.len() > MOST_EVENTS {
        return Err(Refusal::EventCount);
    }
    if numbers.iter().any(|number| Event::from_number(*number).is_none()) {
        return Err(Refusal::EventCode);
    }
    let bytes = file_bytes(settings, numbers.len() as u16, numbers);
    let file = room.get_mut(..bytes.len()).ok_or(Refusal::OutputRoom)?;
    file.copy_from_slice(&bytes);
    Ok(bytes.len())
}

/// The bytes of a file with these fields, good or bad; an event's code is its number's third byte.
pub fn file_bytes(settings: Settings, count: u16, numbers: &[u32]) -> Vec<u8> {
    let mut bytes = Vec::with_capacity(HEADER_BYTES + EVENT_BYTES * numbers.len());
    bytes.extend_from_slice(b"GRS");
    bytes.extend_from_slice(&settings.version.to_le_bytes());
    bytes.push(settings.mode);
    bytes.extend_from_slice(&settings.n.to_le_bytes());
    bytes.push(settings.k);
    bytes.extend_from_slice(&count.to_le_bytes());
    for number in numbers {
        let [low, high, code, _] = number.to_le_bytes();
        bytes.extend_from_slice(&[code, low, high]);
    }
    bytes
}

/// The file of a schedule, through the writer.
pub fn file_of(settings: Settings, events: &[Event]) -> Result<Vec<u8>, Refusal> {
    let numbers: Vec<u32> = events.iter().map(|event| event.number()).collect();
    let mut room = vec![0; HEADER_BYTES + EVENT_BYTES * numbers.len()];
    let length = write(settings, &numbers, &mut room)?;
    room.truncate(length);
    Ok(room)
}

/// The schedule of a file, through the reader.
pub fn read_all(bytes: &[u8]) -> Result<(Settings, Vec<Event>), Refusal> {
    let opened = open(bytes)?;
    let mut reader = Reader { bytes, position: 0 };
    let events: Result<Vec<Event>, Refusal> =
        (0..opened.count).map(|_| reader.next_event()).collect();
    Ok((opened.settings, events?))
}
