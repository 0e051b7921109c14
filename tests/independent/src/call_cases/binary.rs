//! The binary form of a case, in which it is handed to a program: low byte first throughout, one
//! case after the other, and nothing before or after.
//!
//! ```text
//! byte 0        what is called: 0 ask, 1 turn, 2 release, 3 setup
//! byte 1        mode
//! bytes 2-3     N
//! byte 4        k
//! bytes 5-6     version
//! bytes 7-8     identifier, 0 for setup
//! bytes 9-10    how many records are lent
//! bytes 11-12   how many X numbers
//! bytes 13-14   how many marks
//! then 10 bytes a record: state (0 idle, 1 seeking, 2 holding), r, c, point (0 write X, 1 scan,
//!               2 write mark, 3 read X, 4 clear going right, 5 clear going down), the scan's place
//!               in 2 bytes, the figure in 4; what a record has not is 0
//! then 4 bytes an X number, then 1 byte a mark
//! ```

use super::{Call, CallCase};
use crate::calls::Memory;
use crate::grid::{Direction, Place, Point, Record, Registers, Settings, State};

/// The longest input of a program.
pub const MOST_BYTES: usize = 65_536;

/// What a case asks for.
pub type Asked = (Settings, Memory, Call);

/// The case as bytes; a row has fewer than 65,536 elements.
pub fn pack(case: &CallCase) -> Vec<u8> {
    let Settings { mode, n, k, version } = case.settings;
    let Memory { records, registers: Registers { x, marks } } = &case.before;
    let (code, id) = match case.call {
        Call::Ask(id) => (0, id),
        Call::Turn(id) => (1, id),
        Call::Release(id) => (2, id),
        Call::Setup => (3, 0),
    };
    let mut bytes = vec![code, mode];
    bytes.extend(n.to_le_bytes());
    bytes.push(k);
    bytes.extend(version.to_le_bytes());
    bytes.extend(id.to_le_bytes());
    for length in [records.len(), x.len(), marks.len()] {
        bytes.extend((length as u16).to_le_bytes());
    }
    bytes.extend(records.iter().flat_map(|record| pack_record(*record)));
    bytes.extend(x.iter().flat_map(|x| x.to_le_bytes()));
    bytes.extend(marks);
    bytes
}

fn pack_record(Record { state, figure }: Record) -> impl Iterator<Item = u8> {
    pack_state(state).into_iter().chain(figure.to_le_bytes())
}

fn pack_state(state: State) -> [u8; 6] {
    match state {
        State::Idle => [0; 6],
        State::Holding(Place { r, c }) => [2, r, c, 0, 0, 0],
        State::Seeking(Place { r, c }, point) => {
            let (point, h) = match point {
                Point::WriteX => (0, 0),
                Point::Scan(h) => (1, h),
                Point::WriteMark => (2, 0),
                Point::ReadX => (3, 0),
                Point::Clear(Direction::Right) => (4, 0),
                Point::Clear(Direction::Down) => (5, 0),
            };
            let [low, high] = h.to_le_bytes();
            [1, r, c, point, low, high]
        }
    }
}

/// What the cases of an input ask for, or why it is none.
pub fn unpack(input: &[u8]) -> Result<Vec<Asked>, String> {
    let mut bytes = Bytes(input);
    let mut asked = Vec::new();
    while !bytes.0.is_empty() {
        let at = input.len() - bytes.0.len();
        asked.push(bytes.asked().ok_or(format!("the case at byte {at} is not in the form"))?);
    }
    Ok(asked)
}

/// The bytes that are left to read.
struct Bytes<'a>(&'a [u8]);

impl Bytes<'_> {
    fn take<const COUNT: usize>(&mut self) -> Option<[u8; COUNT]> {
        let (taken, left) = self.0.split_first_chunk()?;
        self.0 = left;
        Some(*taken)
    }

    fn byte(&mut self) -> Option<u8> {
        self.take::<1>().map(|[byte]| byte)
    }

    fn word(&mut self) -> Option<u16> {
        self.take().map(u16::from_le_bytes)
    }

    fn asked(&mut self) -> Option<Asked> {
        let code = self.byte()?;
        let settings = Settings::new(self.byte()?, self.word()?, self.byte()?);
        let settings = settings.of_version(self.word()?);
        let id = self.word()?;
        let call = match code {
            0 => Call::Ask(id),
            1 => Call::Turn(id),
            2 => Call::Release(id),
            3 => Call::Setup,
            _ => return None,
        };
        let (records, x, marks) = (self.word()?, self.word()?, self.word()?);
        let records = (0..records).map(|_| self.record()).collect::<Option<_>>()?;
        let x = (0..x).map(|_| self.take().map(u32::from_le_bytes)).collect::<Option<_>>()?;
        let marks = (0..marks).map(|_| self.byte()).collect::<Option<_>>()?;
        Some((settings, Memory { records, registers: Registers { x, marks } }, call))
    }

    fn record(&mut self) -> Option<Record> {
        let state = self.state()?;
        Some(state.after(self.take().map(u32::from_le_bytes)?))
    }

    fn state(&mut self) -> Option<State> {
        let [state, r, c, point, low, high] = self.take()?;
        let place = Place { r, c };
        match state {
            0 => return Some(State::Idle),
            1 => {}
            2 => return Some(State::Holding(place)),
            _ => return None,
        }
        let point = match point {
            0 => Point::WriteX,
            1 => Point::Scan(u16::from_le_bytes([low, high])),
            2 => Point::WriteMark,
            3 => Point::ReadX,
            4 => Point::Clear(Direction::Right),
            5 => Point::Clear(Direction::Down),
            _ => return None,
        };
        Some(State::Seeking(place, point))
    }
}
