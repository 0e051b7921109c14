//! The command `texts`: the generated texts and files, and what is due on each, as files.

use std::fmt::Write;
use std::fs;
use std::io;
use std::path::Path;

use super::{fixed_cases, random_case};
use crate::generate::Case;
use crate::lines::{convert, number_words, Lines, AS_NEEDED};

/// Writes `NUMBER.in` and, if it is accepted, `NUMBER.out` for each case, and `cases.txt`, one line a
/// case: `NUMBER accepted: LABEL` or `NUMBER REFUSAL: LABEL`.
pub fn write(directory: &Path, seed: u64, count: u64) -> io::Result<()> {
    fs::create_dir_all(directory)?;
    let random = (0..count).map(|index| random_case(seed, index));
    let cases: Vec<Case> = fixed_cases().into_iter().chain(random).collect();
    let mut list = String::new();
    for (number, case) in cases.iter().enumerate() {
        let name = format!("{number:05}");
        fs::write(directory.join(format!("{name}.in")), &case.bytes)?;
        let answer = match convert(&Lines, &case.bytes, AS_NEEDED) {
            Ok(output) => {
                fs::write(directory.join(format!("{name}.out")), output)?;
                "accepted".to_string()
            }
            Err(refusal) => number_words(refusal),
        };
        // Writing to a string does not fail.
        let _ = writeln!(list, "{name} {answer}: {}", case.label);
    }
    fs::write(directory.join("cases.txt"), list)?;
    println!("{} cases", cases.len());
    Ok(())
}
