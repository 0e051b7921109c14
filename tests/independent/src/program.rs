//! Running a program on an input, for the commands that compare, and keeping the inputs that matter.
//! In place of a program the listing here may be taken.

use std::fs;
use std::io::{Read, Write};
use std::path::{Path, PathBuf};
use std::process::{Command, Stdio};
use std::sync::mpsc;
use std::thread;
use std::time::Duration;

use crate::listing::listing;
use crate::rules::Grid;

/// A program that runs longer on one input is ended and has failed.
const PATIENCE: Duration = Duration::from_secs(60);
pub const RAN_TOO_LONG: &str = "ran longer than a minute";
const DIFFERENCES: &str = "target/differences";

/// What prints something of an input, or says what went wrong. The bytes are handed over in pieces
/// of so many; 0 means whole.
pub trait Printer: Sync {
    fn print(&self, bytes: &[u8], piece: usize) -> Result<Vec<u8>, String>;
}

/// The listing of the grid here.
pub struct ListingHere;

impl Printer for ListingHere {
    fn print(&self, bytes: &[u8], _: usize) -> Result<Vec<u8>, String> {
        Ok(listing(&Grid, bytes).into_bytes())
    }
}

#[derive(Clone)]
pub struct Program {
    pub path: PathBuf,
    /// What the program is started with; the proved ones take nothing.
    pub arguments: Vec<String>,
}

/// What a run of a program left, if it ended by itself.
pub struct Ran {
    pub printed: Vec<u8>,
    /// Standard error.
    pub said: Vec<u8>,
    pub status: i32,
}

impl Printer for Program {
    /// Runs the program on the bytes. 01 says nothing of its exit status or of standard error, so
    /// any status will do but an end by a signal.
    fn print(&self, bytes: &[u8], piece: usize) -> Result<Vec<u8>, String> {
        self.run(bytes, piece).map(|ran| ran.printed)
    }
}

impl Program {
    pub fn run(&self, bytes: &[u8], piece: usize) -> Result<Ran, String> {
        let mut command = Command::new(&self.path);
        command.args(&self.arguments);
        command.stdin(Stdio::piped()).stdout(Stdio::piped()).stderr(Stdio::piped());
        let mut child = command.spawn().map_err(|error| format!("cannot be started: {error}"))?;
        let input = child.stdin.take();
        let output = child.stdout.take();
        let errors = child.stderr.take();
        thread::scope(|scope| {
            let (send, printed) = mpsc::channel();
            scope.spawn(move || {
                if let Some(input) = input {
                    hand_over(input, bytes, piece);
                }
            });
            let said = scope.spawn(move || whole(errors));
            scope.spawn(move || {
                // Nobody listens any more if the program was ended.
                let _ = send.send(whole(output));
            });
            let printed = printed.recv_timeout(PATIENCE);
            if printed.is_err() {
                // It may have ended by itself just now.
                let _ = child.kill();
            }
            let status = child.wait().map_err(|error| format!("no exit status: {error}"))?;
            let printed = printed.map_err(|_| RAN_TOO_LONG.to_string())??;
            let said = said.join().map_err(|_| "standard error cannot be read".to_string())??;
            match status.code() {
                Some(status) => Ok(Ran { printed, said, status }),
                None => Err(format!("ended by a signal: {status}")),
            }
        })
    }
}

/// All that is written to an output.
fn whole(output: Option<impl Read>) -> Result<Vec<u8>, String> {
    let mut bytes = Vec::new();
    let read = output.ok_or("has no output")?.read_to_end(&mut bytes);
    read.map(|_| bytes).map_err(|error| format!("its output cannot be read: {error}"))
}

/// Writes the bytes. A program need not read all of an input that is too long.
fn hand_over(mut input: impl Write, bytes: &[u8], piece: usize) {
    if piece == 0 {
        let _ = input.write_all(bytes);
        return;
    }
    // The first pause is long enough for the program to have started and to wait for more.
    let mut pause = Duration::from_millis(5);
    for piece in bytes.chunks(piece) {
        if input.write_all(piece).is_err() {
            return;
        }
        thread::sleep(pause);
        pause = Duration::from_micros(300);
    }
}

/// Keeps an input on which the program differs.
pub fn keep(name: &str, bytes: &[u8]) {
    let path = Path::new(DIFFERENCES).join(name);
    let kept = fs::create_dir_all(DIFFERENCES).and_then(|()| fs::write(&path, bytes));
    match kept {
        Ok(()) => println!("  saved {}", path.display()),
        Err(error) => println!("  not saved: {error}"),
    }
}
