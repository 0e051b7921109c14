//! The commands `calls --store` and `calls --check-store`: one input of small cases of every family
//! and the text that is due on it, as files.

use std::fs;
use std::io;
use std::path::Path;

use super::binary::{pack, MOST_BYTES};
use super::families::Maker;
use super::CallCase;
use crate::grid::Settings;
use crate::refusal::Refusal;

const SEED: u64 = 1;

/// The cases that are stored; of the many calls that meet bad settings or a bad value, one of seven.
pub fn cases() -> Vec<CallCase> {
    let mut maker = Maker::new(SEED);
    for mode in [0, 1] {
        let version = 1 + u16::from(mode);
        maker.every_family(Settings::new(mode, 4, 3).of_version(version));
        maker.names(Settings::new(mode, 3, 3).of_version(3 - version));
        maker.asks(Settings::new(mode, 1, 1));
        maker.asks(Settings::new(mode, 5, 2));
        maker.holders(Settings::new(mode, 2, 1));
        maker.row_lengths(Settings::new(mode, 2, 2), 0..=3);
    }
    maker.bad_settings();
    maker.versions();
    let (mut settings, mut values) = (0, 0);
    maker.cases.retain(|case| {
        let met = match case.answer {
            Err(Refusal::Settings) => &mut settings,
            Err(Refusal::OutOfRange { .. }) => &mut values,
            _ => return true,
        };
        // Settings come with four calls, bad values at three places with two: so each comes in turn.
        *met += 1;
        *met % 7 == 1
    });
    maker.cases
}

/// The files by name.
fn files() -> [(&'static str, Vec<u8>); 2] {
    let cases = cases();
    let stdin: Vec<u8> = cases.iter().flat_map(pack).collect();
    assert!(stdin.len() <= MOST_BYTES, "the stored cases make one input, not {}", stdin.len());
    let stdout: String = cases.iter().map(CallCase::outcome).collect();
    [("stdin", stdin), ("stdout", stdout.into_bytes())]
}

/// Writes both files.
pub fn write(directory: &Path) -> io::Result<()> {
    fs::create_dir_all(directory)?;
    for (name, bytes) in files() {
        fs::write(directory.join(name), &bytes)?;
        println!("{name}: {} bytes", bytes.len());
    }
    println!("{} cases", cases().len());
    Ok(())
}

/// How many of the two files are what would be written, and how many are not.
pub fn check(directory: &Path) -> (usize, usize) {
    let mut same = 0;
    let files = files();
    for (name, due) in &files {
        let path = directory.join(name);
        match fs::read(&path) {
            Ok(stored) if stored == *due => same += 1,
            Ok(stored) => {
                let at = stored.iter().zip(due).take_while(|(stored, due)| stored == due).count();
                println!("DIFFERENT: {} from byte {at}", path.display());
            }
            Err(error) => println!("DIFFERENT: {}: {error}", path.display()),
        }
    }
    (same, files.len() - same)
}
