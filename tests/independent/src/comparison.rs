//! What `compare`, `calls`, `trace` and `cut` share: a program is run on one input after another,
//! and what it prints on each is judged. An input holds one case or many, and each case counts one.

use std::collections::BTreeMap;
use std::sync::atomic::{AtomicUsize, Ordering};
use std::sync::Mutex;
use std::thread;
use std::time::Instant;

use crate::generate::Case;
use crate::program::{keep, Printer, RAN_TOO_LONG};

/// After so many inputs on which the program ran too long no more are run.
const MOST_TOO_LONG: usize = 4;
/// So many differences are printed and their inputs saved; the others are counted.
const MOST_SHOWN: usize = 100;
/// So many bytes of a line are printed.
const LINE_SHOWN: usize = 80;

/// How often each of some things was.
pub type Counts = BTreeMap<String, usize>;

/// One case of an input.
pub struct Part {
    /// What a difference calls it.
    pub label: String,
    pub family: String,
    /// The lines that are due, if the judge compares them.
    pub due: String,
    /// How often each answer stands in them: `seeks`, `holds`, `freed`, `refused 7`, ...
    pub answers: Counts,
}

pub struct Input {
    pub bytes: Vec<u8>,
    /// Handed over in pieces of so many bytes; 0 means whole.
    pub piece: usize,
    /// The name under which it is kept if the program differs.
    pub file: String,
    pub parts: Vec<Part>,
}

impl Input {
    /// The file of a schedule, with no lines due on it; kept under a name that begins with a word.
    pub fn of_schedule(word: &str, index: usize, case: &Case) -> Input {
        let part = Part {
            label: format!("schedule {index}, {}", case.label),
            family: case.family().to_string(),
            due: String::new(),
            answers: Counts::new(),
        };
        let file = format!("{word}-{index}.grs");
        Input { bytes: case.bytes.clone(), piece: case.piece, file, parts: vec![part] }
    }
}

/// Says of each case of an input what is wrong with what was printed, if something is.
pub type Judge<'a> = &'a (dyn Fn(&Input, &[u8]) -> Vec<Option<String>> + Sync);

/// What is known so far.
#[derive(Default)]
struct Tally {
    passed: usize,
    failed: usize,
    /// How many differences were printed.
    shown: usize,
    /// On how many inputs the program ran too long.
    too_long: usize,
    families: Counts,
    answers: Counts,
}

impl Tally {
    fn print(&self) {
        let line = |counts: &Counts| {
            let all: Vec<String> = counts.iter().map(|(name, n)| format!("{name} {n}")).collect();
            all.join(", ")
        };
        println!("cases: {}", line(&self.families));
        if !self.answers.is_empty() {
            println!("answers due: {}", line(&self.answers));
        }
    }

    fn done(&self) -> usize {
        self.passed + self.failed
    }

    /// Counts an input's cases, and prints and keeps what differs.
    fn add(&mut self, input: &Input, judged: Result<Vec<Option<String>>, String>) {
        for part in &input.parts {
            *self.families.entry(part.family.clone()).or_default() += 1;
            for (answer, count) in &part.answers {
                *self.answers.entry(answer.clone()).or_default() += count;
            }
        }
        let shown_before = self.shown;
        match judged {
            Ok(faults) => {
                for (part, fault) in input.parts.iter().zip(faults) {
                    match fault {
                        None => self.passed += 1,
                        Some(text) => self.fail(1, &format!("{}: {text}", part.label)),
                    }
                }
            }
            Err(cause) => {
                self.too_long += usize::from(cause == RAN_TOO_LONG);
                let labels = labels(&input.parts);
                self.fail(input.parts.len(), &format!("{labels}: {cause}"));
            }
        }
        if self.shown > shown_before {
            keep(&input.file, &input.bytes);
        }
    }

    fn fail(&mut self, cases: usize, text: &str) {
        if self.shown < MOST_SHOWN {
            println!("DIFFERENT: {text}");
            self.shown += 1;
        }
        self.failed += cases;
    }
}

/// The first case of an input, and how many stand after it.
fn labels(parts: &[Part]) -> String {
    match parts {
        [] => String::new(),
        [only] => only.label.clone(),
        [first, others @ ..] => {
            format!("{} and the {} after it in its input", first.label, others.len())
        }
    }
}

/// A comparison under way.
struct Comparison<'a> {
    printer: &'a dyn Printer,
    seconds: Option<u64>,
    input: &'a (dyn Fn(usize) -> Option<Input> + Sync),
    judge: Judge<'a>,
    start: Instant,
    next: AtomicUsize,
    tally: Mutex<Tally>,
}

/// Runs the program on the inputs of index 0, 1, ... until there are no more or the time is over,
/// and answers how many cases passed and how many failed.
pub fn run(
    printer: &dyn Printer,
    seconds: Option<u64>,
    input: &(dyn Fn(usize) -> Option<Input> + Sync),
    judge: Judge,
) -> (usize, usize) {
    let comparison = Comparison {
        printer,
        seconds,
        input,
        judge,
        start: Instant::now(),
        next: AtomicUsize::new(0),
        tally: Mutex::new(Tally::default()),
    };
    let workers = thread::available_parallelism().map_or(2, |count| count.get());
    thread::scope(|scope| {
        for _ in 0..workers {
            scope.spawn(|| comparison.work());
        }
    });
    let elapsed = comparison.start.elapsed().as_secs_f64();
    let tally = comparison.tally.into_inner().expect("no worker stops early");
    tally.print();
    println!("{elapsed:.1} s");
    (tally.passed, tally.failed)
}

impl Comparison<'_> {
    /// Takes inputs until there are no more, or the time is over.
    fn work(&self) {
        while let Some(input) = self.next_input() {
            let printed = self.printer.print(&input.bytes, input.piece);
            let judged = printed.map(|printed| (self.judge)(&input, &printed));
            let mut tally = self.tally.lock().expect("no worker stops early");
            let done_before = tally.done();
            tally.add(&input, judged);
            if tally.too_long >= MOST_TOO_LONG {
                println!("no more cases are run");
                return;
            }
            let done = tally.done();
            if done / 2000 > done_before / 2000 {
                let seconds = self.start.elapsed().as_secs_f64();
                println!("  {done} cases, {} different, {seconds:.1} s", tally.failed);
            }
        }
    }

    fn next_input(&self) -> Option<Input> {
        let elapsed = self.start.elapsed().as_secs();
        if self.seconds.is_some_and(|seconds| elapsed >= seconds) {
            return None;
        }
        (self.input)(self.next.fetch_add(1, Ordering::Relaxed))
    }
}

/// The judge that compares lines: where each case of an input differs, if it does. A case is given as
/// many of the printed lines as are due on it, and the last one all that are left.
pub fn same_lines(input: &Input, printed: &[u8]) -> Vec<Option<String>> {
    let printed = lines_of(printed);
    let mut left = &printed[..];
    let last = input.parts.len().saturating_sub(1);
    let difference_of = |(index, part): (usize, &Part)| {
        let due = lines_of(part.due.as_bytes());
        let taken = if index == last { left.len() } else { due.len().min(left.len()) };
        let (had, after) = left.split_at(taken);
        left = after;
        difference(&due, had)
    };
    input.parts.iter().enumerate().map(difference_of).collect()
}

/// The lines of a text, each with its line feed.
fn lines_of(text: &[u8]) -> Vec<&[u8]> {
    text.split_inclusive(|byte| *byte == b'\n').collect()
}

/// The first line that differs, if one does.
fn difference(due: &[&[u8]], had: &[&[u8]]) -> Option<String> {
    let line = (0..due.len().max(had.len())).find(|line| due.get(*line) != had.get(*line))?;
    let (due, had) = (due.get(line).copied(), had.get(line).copied());
    let at = match (due, had) {
        (Some(due), Some(had)) => due.iter().zip(had).take_while(|(due, had)| due == had).count(),
        _ => 0,
    };
    Some(format!("line {}: due {}, printed {}", line + 1, shown(due, at), shown(had, at)))
}

/// The line's first bytes, or of a long line those around the byte where it differs.
fn shown(line: Option<&[u8]>, at: usize) -> String {
    let Some(line) = line else {
        return "nothing".to_string();
    };
    let from = if at < LINE_SHOWN { 0 } else { at - LINE_SHOWN / 2 };
    let text = String::from_utf8_lossy(&line[from..line.len().min(from + LINE_SHOWN)]);
    if from == 0 {
        format!("{text:?}")
    } else {
        format!("{text:?} from byte {from}")
    }
}
