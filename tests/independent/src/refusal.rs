//! 01, "Numbers of refusal", with those of 02.

use std::fmt;

/// Which lent row a value out of range stands in.
#[derive(Clone, Copy, PartialEq, Eq, Debug)]
pub enum Row {
    Records,
    X,
    Marks,
}

impl fmt::Display for Row {
    fn fmt(&self, text: &mut fmt::Formatter) -> fmt::Result {
        text.write_str(match self {
            Row::Records => "records",
            Row::X => "x",
            Row::Marks => "marks",
        })
    }
}

/// Why a call or a conversion is refused; only 3 and 20 say more than their number. 6 is retired (02,
/// P1): only a variant answers it.
#[derive(Clone, Copy, PartialEq, Eq, Debug)]
pub enum Refusal {
    Settings,
    ShortRow,
    OutOfRange {
        row: Row,
        index: usize,
    },
    Identifier,
    OneTimeRelease,
    WrongMoment,
    TooManyOut,
    FileLength,
    Letters,
    Version,
    EventCount,
    EventCode,
    NoEvent,
    OutputRoom,
    TaskIdle,
    TaskSeeking,
    TaskHolding,
    BusyRow,
    /// The first line of a text that breaks the form, counted from 1 (02, P12).
    Form {
        line: usize,
    },
}

impl Refusal {
    pub fn number(self) -> u8 {
        match self {
            Refusal::Settings => 1,
            Refusal::ShortRow => 2,
            Refusal::OutOfRange { .. } => 3,
            Refusal::Identifier => 4,
            Refusal::OneTimeRelease => 5,
            Refusal::WrongMoment => 6,
            Refusal::TooManyOut => 7,
            Refusal::FileLength => 8,
            Refusal::Letters => 9,
            Refusal::Version => 10,
            Refusal::EventCount => 11,
            Refusal::EventCode => 12,
            Refusal::NoEvent => 13,
            Refusal::OutputRoom => 14,
            Refusal::TaskIdle => 15,
            Refusal::TaskSeeking => 16,
            Refusal::TaskHolding => 17,
            Refusal::BusyRow => 18,
            Refusal::Form { .. } => 20,
        }
    }
}

/// As the listing prints it.
impl fmt::Display for Refusal {
    fn fmt(&self, text: &mut fmt::Formatter) -> fmt::Result {
        write!(text, "refused {}", self.number())
    }
}
