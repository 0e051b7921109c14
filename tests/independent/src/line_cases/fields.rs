//! Texts whose first line or one other has another field, word, line or line end: numbers on both
//! sides of each limit, and what only looks right.

use super::texts::{text, FIRST};
use crate::generate::Case;

/// Fields that are plain decimals of some size, and fields that are none.
fn numbers() -> Vec<String> {
    let words = [
        "", "00", "01", "02", "007", "0255", "+0", "+1", "-0", "-1", " 1", "1 ", "1\t", "1.0",
        "1e1", "0x1", "1_0", "\"1\"", "\"1", "one", "\u{661}", "\u{ff11}", "1\0",
    ];
    let sizes = [
        0, 1, 2, 3, 9, 10, 15, 16, 17, 99, 100, 254, 255, 256, 257, 258, 512, 999, 65_534, 65_535,
        65_536, 65_537, 65_538, 65_792, 99_999, 100_000, 131_073, 655_350,
    ];
    let around = [1u128 << 31, 1 << 32, 1 << 64].map(|size| [size, size + 1, size + 2]);
    let sizes = sizes.into_iter().chain(around.into_iter().flatten());
    let words = words.iter().map(|word| word.to_string());
    let sizes = sizes.map(|size| size.to_string());
    words.chain(sizes).chain(["1".repeat(1_000), "0".repeat(1_000)]).collect()
}

/// Each number in each field.
fn each_field() -> Vec<Case> {
    let mut cases = Vec::new();
    for number in numbers() {
        let short = &number[..number.len().min(20)];
        for place in 0..4 {
            let mut first = ["1", "2", "1", "1"];
            first[place] = &number;
            let label = format!("field {place} of the first line {short:?}");
            cases.push(Case::new(label, text(&[&first.join(","), "ask,0"])));
        }
        for word in ["ask", "turn", "free"] {
            let label = format!("field of {word} {short:?}");
            cases.push(Case::new(label, text(&[FIRST, &format!("{word},{number}"), "turn,1"])));
        }
    }
    cases
}

/// The first line alone, with settings and versions on both sides of each limit.
fn settings() -> Vec<Case> {
    let mut cases = Vec::new();
    for mode in [0, 1, 2, 5, 6, 255] {
        for n in [0, 1, 2, 17, 256, 257] {
            for k in [0, 1, 2, 16, 17, 255] {
                for version in [0, 1, 2, 3] {
                    let first = format!("{mode},{n},{k},{version}");
                    cases.push(Case::new(format!("settings {first}"), text(&[&first])));
                }
            }
        }
    }
    cases
}

/// Lines that may look right, here divided by bars, in place of the first line and of an event.
fn lines() -> Vec<Case> {
    let first = concat!(
        "| |,|,,,|1|1,2,2|1,2,2,|,1,2,2,1|1,2,2,1,|1,2,2,1,0|1 2 2 1|1;2;2;1|1, 2, 2, 1|",
        "\"1\",\"2\",\"2\",\"1\"|mode,N,k,version|grid 1 2 2|ask,0|\u{feff}1,2,2,1|#|G|",
        "GR|grs|GRT|GRS|GRS,2,2,1| GRS",
    );
    let event = concat!(
        "| |,|,,|ask|ask,|,0|,ask,0|ask,0,|ask,0,0|ask,,0|ask 0|ask;0|ask, 0| ask,0|",
        "ask ,0|ask,0 |\"ask\",0|ask,\"0\"|\"ask\",\"0\"|\"ask,0\"|0,ask|0,0|Ask,0|ASK,0|",
        "Turn,0|FREE,0|release,0|frees,0|as,0|tur,0|fre,0|askk,0|asks,0|turns,0|seek,0|#|",
        "1,2,2,1|0 ask 0|a\u{17f}k,0",
    );
    let first = first.split('|').map(|line| {
        Case::new(format!("line {line:?} first"), text(&[line, "ask,0", "turn,0", "free,0"]))
    });
    let event = event.split('|').flat_map(|line| {
        let places = [text(&[FIRST, line]), text(&[FIRST, "ask,0", line, "free,0"])];
        let labelled = |bytes| Case::new(format!("line {line:?} of an event"), bytes);
        places.map(labelled)
    });
    first.chain(event).collect()
}

/// Other ends in place of each CR LF.
fn ends() -> Vec<Case> {
    let ends: [&str; 16] = [
        "", "\n", "\r", "\n\r", "\r\r\n", "\r\n\n", "\r\n\r", "\n\r\n", "\r\n\r\n", " \r\n",
        "\0\r\n", "\r\n ", "\r \n", "\u{85}", "\u{2028}", "\x0b",
    ];
    let lines = [FIRST, "ask,0", "turn,0", "free,0"];
    let mut cases = Vec::new();
    for end in ends {
        for place in 0..lines.len() {
            let ended = |at: usize| [lines[at], if at == place { end } else { "\r\n" }].concat();
            let bytes = (0..lines.len()).flat_map(|at| ended(at).into_bytes()).collect();
            cases.push(Case::new(format!("end {end:?} at line {}", place + 1), bytes));
        }
        let all = lines.iter().flat_map(|line| [line, end].concat().into_bytes()).collect();
        cases.push(Case::new(format!("end {end:?} at every line"), all));
        cases.push(Case::new(format!("end {end:?} and nothing else"), end.as_bytes().to_vec()));
        cases.push(Case::new(
            format!("end {end:?} before all"),
            [end, FIRST, "\r\n"].concat().into(),
        ));
        cases.push(Case::new(
            format!("end {end:?} of a first line alone"),
            [FIRST, end].concat().into(),
        ));
    }
    cases
}

pub fn cases() -> Vec<Case> {
    let mut cases = each_field();
    cases.extend(settings());
    cases.extend(lines());
    cases.extend(ends());
    cases
}
