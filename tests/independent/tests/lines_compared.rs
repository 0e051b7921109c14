//! What the generated texts and files cover, that they tell each misreading of 02, P12, and the
//! commands that convert and compare.

use std::collections::{BTreeMap, BTreeSet};
use std::fs;
use std::io::Write;
use std::path::{Path, PathBuf};
use std::process::{Command, Output, Stdio};

use independent::line_cases::{answer_word, due, fixed_cases, random_case, shown, store};
use independent::lines::{convert, Lines, AS_NEEDED};
use independent::power;
use independent::program::Program;
use independent::variants::lines::{all, conversion_named};

const BINARY: &str = env!("CARGO_BIN_EXE_independent");

fn run(arguments: &[&str], input: &[u8]) -> Output {
    let mut command = Command::new(BINARY);
    command.args(arguments).stdin(Stdio::piped()).stdout(Stdio::piped()).stderr(Stdio::piped());
    let mut child = command.spawn().unwrap();
    child.stdin.take().unwrap().write_all(input).unwrap();
    child.wait_with_output().unwrap()
}

/// (standard output, standard error, exit status) of `convert`.
fn converted(options: &[&str], input: &[u8]) -> (Vec<u8>, String, Option<i32>) {
    let output = run(&[&["convert"], options].concat(), input);
    (output.stdout, String::from_utf8(output.stderr).unwrap(), output.status.code())
}

#[test]
fn cases_have_every_refusal_and_both_directions() {
    let mut answers: BTreeMap<String, usize> = BTreeMap::new();
    for case in fixed_cases() {
        let answer = convert(&Lines, &case.bytes, AS_NEEDED);
        *answers.entry(answer_word(&answer)).or_default() += 1;
    }
    let seen: BTreeSet<&str> = answers.keys().map(String::as_str).collect();
    let numbers =
        ["refused 1", "refused 8", "refused 10", "refused 11", "refused 12", "refused 20"];
    assert_eq!(seen, numbers.into_iter().chain(["file", "text"]).collect());
    assert!(answers.values().all(|count| *count > 20), "{answers:?}");
}

#[test]
fn a_seed_gives_the_same_cases_again() {
    for index in 0..50 {
        assert_eq!(random_case(3, index).bytes, random_case(3, index).bytes);
    }
    assert_ne!(random_case(3, 5).bytes, random_case(4, 5).bytes);
}

#[test]
fn each_misreading_is_told() {
    let names: BTreeSet<&str> = all().iter().map(|misreading| misreading.name).collect();
    assert!(names.iter().all(|name| conversion_named(name).is_some()));
    assert_eq!(names.len(), all().len());
    assert_eq!(power::of_lines(1, 20), (names.len(), 0));
}

#[test]
fn a_run_shows_its_status_its_refusal_and_its_output() {
    let right = due(&Lines, b"1,2,2,3\r\n", AS_NEEDED);
    assert_eq!(right, "status 1\nsaid \"refused 10\"\n");
    assert_eq!(shown(1, "refused 10: the version\nand more\n", b""), right);
    assert_eq!(shown(1, "refused 10\n", b""), right);
    let wrong =
        [(0, "refused 10"), (2, "refused 10"), (1, ""), (1, "refused 1"), (1, " refused 10")];
    for (status, said) in wrong {
        assert_ne!(shown(status, said, b""), right);
    }
    assert_ne!(shown(1, "refused 10", b"\n"), right);
    let right = due(&Lines, b"0,1,1,1\r\n", AS_NEEDED);
    assert_eq!(shown(0, "", b"GRS\x01\0\0\x01\0\x01\0\0"), right);
    assert_ne!(shown(0, "done", b"GRS\x01\0\0\x01\0\x01\0\0"), right);
    assert_ne!(shown(0, "", b"GRS\x01\0\0\x01\0\x01\0"), right);
}

#[test]
fn a_program_is_run_with_all_that_it_leaves() {
    let command = "cat; echo said >&2; exit 3";
    let arguments = ["-c", command].map(str::to_string).to_vec();
    let program = Program { path: PathBuf::from("sh"), arguments };
    let ran = program.run(b"GRS", 1).unwrap();
    assert_eq!((&ran.printed[..], &ran.said[..], ran.status), (&b"GRS"[..], &b"said\n"[..], 3));
}

/// Runs `lines` for a second on a program; whether all is well, and what is printed.
fn compared(test: &str, words: &[&str]) -> (bool, String) {
    let directory = Path::new(env!("CARGO_TARGET_TMPDIR")).join(test);
    fs::create_dir_all(&directory).unwrap();
    let mut command = Command::new(BINARY);
    command.args(["lines", BINARY, "--seconds", "1", "--"]).args(words);
    let output = command.current_dir(directory).output().unwrap();
    (output.status.success(), String::from_utf8(output.stdout).unwrap())
}

#[test]
fn a_program_with_the_conversions_agrees_and_one_with_a_misreading_differs() {
    let (success, text) = compared("lines-agree", &["convert"]);
    assert!(success && text.ends_with(" passed, 0 failed\n"), "{text}");
    let (success, text) = compared("lines-differ", &["convert", "--variant", "version-and-k"]);
    assert!(!success && text.contains("DIFFERENT: case 0, good small: "), "{text}");
}

#[test]
fn convert_writes_one_or_says_why_not() {
    let lines = b"1,2,2,1\r\nask,3\r\n";
    let file = b"GRS\x01\x00\x01\x02\x00\x02\x01\x00\x00\x03\x00";
    assert_eq!(converted(&[], lines), (file.to_vec(), String::new(), Some(0)));
    assert_eq!(converted(&[], file), (lines.to_vec(), String::new(), Some(0)));
    let refused = |text: &str| (Vec::new(), format!("{text}\n"), Some(1));
    let form = refused("refused 20 at line 3: the line breaks the form");
    assert_eq!(converted(&[], b"1,2,2,1\r\nask,3\r\nask,03\r\n"), form);
    assert_eq!(converted(&[], b"1,2,2,3\r\n"), refused("refused 10: version unknown"));
    assert_eq!(converted(&["--room", "13"], lines), refused("refused 14: output room short"));
    assert_eq!(converted(&["--room", "14"], lines).2, Some(0));
    assert_eq!(converted(&["--room", "15"], file), refused("refused 14: output room short"));
    assert_eq!(converted(&["--room", "16"], file).2, Some(0));
    assert_eq!(converted(&["--variant", "lf-alone"], b"1,2,2,1\n").2, Some(0));
}

#[test]
fn texts_are_stored_with_what_is_due() {
    let directory = Path::new(env!("CARGO_TARGET_TMPDIR")).join("texts");
    let _ = fs::remove_dir_all(&directory);
    store::write(&directory, 1, 5).unwrap();
    let list = fs::read_to_string(directory.join("cases.txt")).unwrap();
    assert_eq!(list.lines().count(), fixed_cases().len() + 5);
    for line in list.lines().take(40) {
        let (number, rest) = line.split_once(' ').unwrap();
        let input = fs::read(directory.join(format!("{number}.in"))).unwrap();
        let output = fs::read(directory.join(format!("{number}.out")));
        match convert(&Lines, &input, AS_NEEDED) {
            Ok(due) => assert_eq!(output.unwrap(), due),
            Err(refusal) => assert!(rest.starts_with(&refusal.to_string()) && output.is_err()),
        }
    }
    fs::remove_dir_all(&directory).unwrap();
}
