//! 01, "The listing, whole": from the bytes of a file to the text that is printed.

use std::fmt::Write;

use crate::history::History;
use crate::refusal::Refusal;
use crate::rules::Rules;
use crate::schedule::{open, Reader};

/// The listing of any bytes under the rules.
pub fn listing(rules: &dyn Rules, bytes: &[u8]) -> String {
    good_listing(rules, bytes).unwrap_or_else(|refusal| format!("{refusal}\n"))
}

/// The listing of a good file, or why the file is bad.
fn good_listing(rules: &dyn Rules, bytes: &[u8]) -> Result<String, Refusal> {
    let opened = open(bytes)?;
    let settings = opened.settings;
    let mut history = History::new(rules, settings)?;
    let mut reader = Reader { bytes, position: 0 };
    let mut text = String::with_capacity(24 * (opened.count + 2));
    // Writing to a string does not fail.
    let _ = writeln!(text, "grid {} {} {}", settings.mode, settings.n, settings.k);
    for position in 0..opened.count {
        let event = reader.next_event()?;
        let _ = write!(text, "{position} {} {} ", event.kind.word(), event.id);
        let _ = match history.call(event) {
            Ok(answer) => writeln!(text, "{answer}"),
            Err(refusal) => writeln!(text, "{refusal}"),
        };
    }
    let _ = writeln!(text, "end {} {} {}", history.out.holders, history.peak, history.most);
    Ok(text)
}
