//! A printed line of an event, read back: what it was before 02, P6, and the access behind it.

use crate::access::{Access, Operation, Register};

#[derive(PartialEq, Debug)]
pub struct EventLine<'a> {
    /// `POSITION KIND ID ANSWER`, with the answer's name or number.
    pub before_p6: &'a str,
    /// An ask, a refused call and a release that touched nothing have none.
    pub access: Option<Access>,
}

/// The line, or nothing if it is none. An accepted turn has its access, an accepted release its
/// access or `none`, and no other line has anything behind its answer.
pub fn read(line: &str) -> Option<EventLine<'_>> {
    let words: Vec<&str> = line.split(' ').collect();
    let [_, kind, _, answer, ..] = words[..] else {
        return None;
    };
    let count = if answer == "seeks" { 4 } else { 5 };
    let behind = words.get(count..)?;
    let access = match (kind, answer, behind) {
        ("ask", "seeks" | "holds", []) | (_, "refused", []) | ("free", "freed", ["none"]) => None,
        ("turn", "seeks" | "holds", _) | ("free", "freed", _) => Some(access(behind)?),
        _ => return None,
    };
    let length = words[..count].join(" ").len();
    Some(EventLine { before_p6: &line[..length], access })
}

/// The access of five fields.
fn access(fields: &[&str]) -> Option<Access> {
    let [operation, register, block, place, value] = *fields else {
        return None;
    };
    let operation = match operation {
        "R" => Operation::Read,
        "W" => Operation::Write,
        _ => return None,
    };
    let register = match register {
        "X" => Register::X,
        "M" => Register::Mark,
        _ => return None,
    };
    let (block, place) = (block.parse().ok()?, place.parse().ok()?);
    Some(Access { operation, register, block, place, value: value.parse().ok()? })
}
