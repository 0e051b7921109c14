//! The commands; see `USAGE`. Those that check something print `N passed, M failed` last.

use std::env;
use std::fs;
use std::io::{self, Read, Write};
use std::path::{Path, PathBuf};
use std::process::ExitCode;
use std::time::{Instant, SystemTime, UNIX_EPOCH};

use independent::generate::worst::{in_order, worst_schedule, LastWriter};
use independent::grid::Settings;
use independent::lines::{convert, said, Conversion, Lines, AS_NEEDED};
use independent::listing::listing;
use independent::options::{number, program_arguments, Options};
use independent::program::{ListingHere, Printer, Program};
use independent::rules::{Grid, Rules};
use independent::schedule::{file_of, Event, Kind, MOST_EVENTS};
use independent::variants::lines::conversion_named;
use independent::variants::rules_named;
use independent::{call_cases, compare, cut, invariants, line_cases, power, trace};

const USAGE: &str = "\
independent compare PROGRAM [--seed S] [--count C] [--seconds T] [-- ARGUMENTS...]
    compares the listings of PROGRAM, started with the arguments, with the ones here
independent fresh PROGRAM [--seconds T] [-- ARGUMENTS...]
    the same with random cases only, of a seed from the clock, which it prints
independent power [--seed S] [--count C]
    shows that the schedules and the calls tell each variant from the grid
independent invariants [--seed S] [--count C]
    tries demand 3, the figures of the records and what light load costs on the grid here
independent trace [PROGRAM] [--seed S] [--count C] [-- ARGUMENTS...]
    builds the registers again from the accesses in the listings of PROGRAM, or of the grid here
independent cut [PROGRAM] [--seed S] [--count C] [-- ARGUMENTS...]
    cuts the accesses off these listings, in version 1: what is left is the listing of before 02, P6
independent list FILE
    prints the listing of a schedule file
independent gridlist [--variant NAME]
    prints the listing of standard input, by the grid or by a variant
independent make [--version V] MODE N K EVENTS...
    writes a schedule file, e.g. make 1 2 2 ask 0 turn 0 free 0; of version 1 if none is given
independent worst [--version V] MODE N K
    writes the worst schedule, or as much of it as fits a file
independent calls [--seed S]
    prints calls on arbitrary memories with their answers
independent calls PROGRAM [--seed S] [--seconds T] [-- ARGUMENTS...]
    compares what PROGRAM prints on these calls, in the binary form, with the answers and rows here;
    with a time, on those of the seeds that follow too
independent calls --store DIR
    writes DIR/stdin, one input of small calls of every family, and DIR/stdout, what is due on it
independent calls --check-store DIR
    compares these two files with what would be written
independent memories [--variant NAME]
    prints what is due on an input of calls, by the grid or by a variant
independent time FILE
    prints the time that the listing of FILE takes here
independent convert [--room N] [--variant NAME]
    writes standard input, a schedule file, as comma lines, or comma lines as a schedule file, into a
    room of N bytes if one is given; by 02, P12 or by a misreading of it
independent convert --time FILE
    prints the time that the conversion of FILE takes here
independent lines PROGRAM [--rooms] [--seed S] [--count C] [--seconds T] [-- ARGUMENTS...]
    compares what PROGRAM writes, says and ends with on texts and files to convert with what is due;
    with --rooms in small rooms too, the program being started with --room N
independent texts DIR [--seed S] [--count C]
    writes these texts and files, and what is due on them, into DIR";

const SEED: u64 = 1;
// How many random cases `compare`, `power`, `trace` and `cut`, `invariants` and `lines` run, and how
// long `fresh` runs.
const COMPARED: u64 = 3_000;
const TOLD: u64 = 1_000;
const TRACED: u64 = 1_000;
const CHECKED: u64 = 2_000;
const CONVERTED: u64 = 1_000;
const SECONDS: u64 = 60;

fn main() -> ExitCode {
    let arguments: Vec<String> = env::args().skip(1).collect();
    let words: Vec<&str> = arguments.iter().map(String::as_str).collect();
    match run(&words) {
        Ok(code) => code,
        Err(cause) => {
            eprintln!("{cause}");
            ExitCode::FAILURE
        }
    }
}

fn run(words: &[&str]) -> Result<ExitCode, String> {
    match words {
        ["compare", program, words @ ..] => compare_with(program, words),
        ["fresh", program, words @ ..] => fresh_with(program, words),
        ["power", options @ ..] => {
            let options = Options::read(options, &["--seed", "--count"])?;
            let count = options.count.unwrap_or(TOLD);
            Ok(closing_line(power::run(options.seed.unwrap_or(SEED), count)))
        }
        ["invariants", options @ ..] => {
            let options = Options::read(options, &["--seed", "--count"])?;
            let count = options.count.unwrap_or(CHECKED);
            Ok(closing_line(invariants::run(options.seed.unwrap_or(SEED), count)))
        }
        ["trace", words @ ..] => check_listings(trace::run, words),
        ["cut", words @ ..] => check_listings(cut::run, words),
        ["list", file] => print(listing(&Grid, &read_file(file)?).as_bytes()),
        ["gridlist"] => list_input("grid"),
        ["gridlist", "--variant", name] => list_input(name),
        ["make", words @ ..] => {
            let (settings, events) = settings(words)?;
            let file = file_of(settings, &events_of(events)?);
            print(&file.map_err(|refusal| refusal.to_string())?)
        }
        ["worst", words @ ..] => {
            let (settings, []) = settings(words)? else {
                return Err(USAGE.to_string());
            };
            if !settings.allowed() {
                return Err("refused 1".to_string());
            }
            let mut events = worst_schedule(settings, &in_order(settings.k), LastWriter::Stops);
            events.truncate(MOST_EVENTS);
            print(&file_of(settings, &events).map_err(|refusal| refusal.to_string())?)
        }
        ["calls", "--store", directory] => {
            let written = call_cases::store::write(Path::new(directory));
            written.map(|()| ExitCode::SUCCESS).map_err(|error| format!("{directory}: {error}"))
        }
        ["calls", "--check-store", directory] => {
            Ok(closing_line(call_cases::store::check(Path::new(directory))))
        }
        ["calls"] | ["calls", "--seed", ..] => {
            let options = Options::read(&words[1..], &["--seed"])?;
            let cases = call_cases::cases(options.seed.unwrap_or(SEED));
            print(call_cases::text(&cases).as_bytes())
        }
        ["calls", program, words @ ..] => compare_calls(program, words),
        ["memories"] => make_calls("grid"),
        ["memories", "--variant", name] => make_calls(name),
        ["time", file] => {
            let bytes = read_file(file)?;
            time(|| listing(&Grid, &bytes).len())
        }
        ["convert", "--time", file] => {
            let bytes = read_file(file)?;
            time(|| convert(&Lines, &bytes, AS_NEEDED).map_or(0, |output| output.len()))
        }
        ["convert", words @ ..] => convert_input(words),
        ["lines", program, words @ ..] => compare_lines(program, words),
        ["texts", directory, options @ ..] => {
            let options = Options::read(options, &["--seed", "--count"])?;
            let (seed, count) = (options.seed.unwrap_or(SEED), options.count.unwrap_or(CONVERTED));
            let written = line_cases::store::write(Path::new(directory), seed, count);
            written.map(|()| ExitCode::SUCCESS).map_err(|error| format!("{directory}: {error}"))
        }
        _ => Err(USAGE.to_string()),
    }
}

/// The settings `[--version V] MODE N K`, and the words after them.
fn settings<'a>(words: &'a [&'a str]) -> Result<(Settings, &'a [&'a str]), String> {
    let (version, words) = match words {
        ["--version", version, words @ ..] => (number(version)?, words),
        _ => (1, words),
    };
    let [mode, n, k, words @ ..] = words else {
        return Err(USAGE.to_string());
    };
    let settings = Settings::new(number(mode)?, number(n)?, number(k)?);
    Ok((settings.of_version(version), words))
}

/// The events of `ask 0 turn 0 free 0`.
fn events_of(words: &[&str]) -> Result<Vec<Event>, String> {
    let event = |pair: &[&str]| {
        let [word, id] = pair else {
            return Err(format!("{} needs an identifier", pair[0]));
        };
        let kind = Kind::ALL.into_iter().find(|kind| kind.word() == *word);
        let kind = kind.ok_or(format!("'{word}' is none of ask, turn, free"))?;
        Ok(Event::new(kind, number(id)?))
    };
    words.chunks(2).map(event).collect()
}

fn read_file(path: &str) -> Result<Vec<u8>, String> {
    fs::read(path).map_err(|error| format!("{path}: {error}"))
}

fn print(bytes: &[u8]) -> Result<ExitCode, String> {
    let mut output = io::stdout().lock();
    let written = output.write_all(bytes).and_then(|()| output.flush());
    written.map(|()| ExitCode::SUCCESS).map_err(|error| error.to_string())
}

fn read_input() -> Result<Vec<u8>, String> {
    let mut bytes = Vec::new();
    io::stdin().lock().read_to_end(&mut bytes).map_err(|error| error.to_string())?;
    Ok(bytes)
}

fn variant(name: &str) -> Result<&'static dyn Rules, String> {
    rules_named(name).ok_or(format!("no variant {name}"))
}

fn list_input(name: &str) -> Result<ExitCode, String> {
    print(listing(variant(name)?, &read_input()?).as_bytes())
}

fn make_calls(name: &str) -> Result<ExitCode, String> {
    print(call_cases::outcomes(variant(name)?, &read_input()?)?.as_bytes())
}

/// The fixed cases and the random ones of a seed.
fn compare_with(program: &str, words: &[&str]) -> Result<ExitCode, String> {
    let (options, arguments) = program_arguments(words);
    let options = Options::read(options, &["--seed", "--count", "--seconds"])?;
    Ok(closing_line(compare::run(&compare::Plan {
        program: Program { path: PathBuf::from(program), arguments },
        fixed: true,
        seed: options.seed.unwrap_or(SEED),
        count: options.count.or(options.seconds.is_none().then_some(COMPARED)),
        seconds: options.seconds,
    })))
}

/// Checks the schedules of a seed by the listings of a program or, if none is named, of the grid here.
fn check_listings(
    check: fn(&dyn Printer, u64, u64) -> (usize, usize),
    words: &[&str],
) -> Result<ExitCode, String> {
    let (words, arguments) = program_arguments(words);
    let (program, options) = match words {
        [program, options @ ..] if !program.starts_with("--") => (Some(program), options),
        _ => (None, words),
    };
    let options = Options::read(options, &["--seed", "--count"])?;
    let (seed, count) = (options.seed.unwrap_or(SEED), options.count.unwrap_or(TRACED));
    Ok(closing_line(match program {
        None => check(&ListingHere, seed, count),
        Some(path) => check(&Program { path: PathBuf::from(path), arguments }, seed, count),
    }))
}

/// The calls of a seed and, if there is a time, of those that follow.
fn compare_calls(program: &str, words: &[&str]) -> Result<ExitCode, String> {
    let (options, arguments) = program_arguments(words);
    let options = Options::read(options, &["--seed", "--seconds"])?;
    Ok(closing_line(call_cases::run(&call_cases::Plan {
        program: Program { path: PathBuf::from(program), arguments },
        seed: options.seed.unwrap_or(SEED),
        seconds: options.seconds,
    })))
}

/// Converts standard input, or says why it is refused.
fn convert_input(words: &[&str]) -> Result<ExitCode, String> {
    let (mut conversion, mut room): (&dyn Conversion, usize) = (&Lines, AS_NEEDED);
    for pair in words.chunks(2) {
        match *pair {
            ["--room", length] => room = number(length)?,
            ["--variant", name] => {
                conversion = conversion_named(name).ok_or(format!("no variant {name}"))?;
            }
            _ => return Err(USAGE.to_string()),
        }
    }
    print(&convert(conversion, &read_input()?, room).map_err(said)?)
}

/// The fixed texts and files and the random ones of a seed.
fn compare_lines(program: &str, words: &[&str]) -> Result<ExitCode, String> {
    let (words, arguments) = program_arguments(words);
    let (rooms, options) = match words {
        ["--rooms", options @ ..] => (true, options),
        _ => (false, words),
    };
    let options = Options::read(options, &["--seed", "--count", "--seconds"])?;
    Ok(closing_line(line_cases::compare::run(&line_cases::compare::Plan {
        program: Program { path: PathBuf::from(program), arguments },
        rooms,
        seed: options.seed.unwrap_or(SEED),
        count: options.count.or(options.seconds.is_none().then_some(CONVERTED)),
        seconds: options.seconds,
    })))
}

/// Only random cases, of a seed from the clock.
fn fresh_with(program: &str, words: &[&str]) -> Result<ExitCode, String> {
    let (options, arguments) = program_arguments(words);
    let options = Options::read(options, &["--seconds"])?;
    let clock = SystemTime::now().duration_since(UNIX_EPOCH).map_err(|error| error.to_string())?;
    Ok(closing_line(compare::run(&compare::Plan {
        program: Program { path: PathBuf::from(program), arguments },
        fixed: false,
        seed: clock.as_nanos() as u64,
        count: None,
        seconds: Some(options.seconds.unwrap_or(SECONDS)),
    })))
}

/// The last line of a command that checks something, and its exit status.
fn closing_line((passed, failed): (usize, usize)) -> ExitCode {
    println!("{passed} passed, {failed} failed");
    if passed > 0 && failed == 0 {
        ExitCode::SUCCESS
    } else {
        ExitCode::FAILURE
    }
}

/// Runs what prints so many bytes for about two seconds.
fn time(printed: impl Fn() -> usize) -> Result<ExitCode, String> {
    let start = Instant::now();
    let mut runs = 0;
    let mut length = 0;
    while runs == 0 || start.elapsed().as_secs_f64() < 2.0 {
        length = printed();
        runs += 1;
    }
    let each = start.elapsed().as_secs_f64() * 1000.0 / f64::from(runs);
    println!("{each:.3} ms a run, {runs} runs, {length} bytes printed by each");
    Ok(ExitCode::SUCCESS)
}
