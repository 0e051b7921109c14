//! The stored calls, and that `calls` notices a program with a wrong answer.

use std::collections::BTreeSet;
use std::fs;
use std::path::{Path, PathBuf};
use std::process::Command;

use independent::call_cases::{cases, inputs, outcomes, pack, store, CallCase, MOST_BYTES};
use independent::rules::Grid;
use independent::variants::{self, Variant};

const BINARY: &str = env!("CARGO_BIN_EXE_independent");

/// A directory of one test.
fn directory(test: &str) -> PathBuf {
    let directory = Path::new(env!("CARGO_TARGET_TMPDIR")).join(test);
    let _ = fs::remove_dir_all(&directory);
    fs::create_dir_all(&directory).unwrap();
    directory
}

#[test]
fn stored_cases_are_of_every_small_family() {
    let families =
        |cases: &[CallCase]| -> BTreeSet<&str> { cases.iter().map(|case| case.tries).collect() };
    let mut all = families(&cases(1));
    for large in ["anything", "every block", "greatest rows"] {
        assert!(all.remove(large));
    }
    let stored = store::cases();
    assert_eq!(families(&stored), all);
    for mode in [0, 1] {
        let calls = |accepted: bool| {
            let such =
                |case: &&CallCase| case.settings.mode == mode && case.answer.is_ok() == accepted;
            let code = |case: &CallCase| pack(case)[0];
            stored.iter().filter(such).map(code).collect::<BTreeSet<u8>>().len()
        };
        assert_eq!((calls(true), calls(false)), (if mode == 0 { 3 } else { 4 }, 4));
    }
}

#[test]
fn stored_files_are_checked() {
    let directory = directory("store");
    assert_eq!(store::check(&directory), (0, 2));
    store::write(&directory).unwrap();
    assert_eq!(store::check(&directory), (2, 0));
    let input = fs::read(directory.join("stdin")).unwrap();
    let due = fs::read_to_string(directory.join("stdout")).unwrap();
    assert!(input.len() <= MOST_BYTES);
    assert_eq!(outcomes(&Grid, &input).unwrap(), due);
    fs::write(directory.join("stdout"), due.replacen("seeks", "holds 0", 1)).unwrap();
    assert_eq!(store::check(&directory), (1, 1));
    fs::write(directory.join("stdin"), &input[1..]).unwrap();
    assert_eq!(store::check(&directory), (0, 2));
    fs::remove_file(directory.join("stdin")).unwrap();
    assert_eq!(store::check(&directory), (0, 2));
}

#[test]
fn each_variant_is_told_by_the_cases_and_by_the_stored_ones() {
    let stored: Vec<u8> = store::cases().iter().flat_map(pack).collect();
    let all: Vec<u8> = cases(1).iter().flat_map(pack).collect();
    for input in [stored, all] {
        let due = outcomes(&Grid, &input).unwrap();
        for Variant { name, rules, .. } in variants::told_by_calls() {
            assert_ne!(outcomes(rules, &input).unwrap(), due, "{name}");
        }
    }
}

/// Runs `calls` on a program; whether all is well, how many passed and failed, and what is printed.
fn compared(test: &str, words: &[&str]) -> (bool, usize, usize, String) {
    let mut command = Command::new(BINARY);
    let output = command.current_dir(directory(test)).arg("calls").args(words).output().unwrap();
    let text = String::from_utf8(output.stdout).unwrap();
    let last: Vec<&str> = text.lines().last().unwrap().split(' ').collect();
    let [passed, "passed,", failed, "failed"] = last[..] else { panic!("{last:?}") };
    let (passed, failed) = (passed.parse().unwrap(), failed.parse().unwrap());
    (output.status.success(), passed, failed, text)
}

#[test]
fn a_program_with_the_grid_agrees() {
    let (success, passed, failed, _) = compared("agrees", &[BINARY, "--", "memories"]);
    assert_eq!((success, passed, failed), (true, cases(1).len(), 0));
}

#[test]
fn a_program_with_a_variant_differs() {
    let words = [BINARY, "--seed", "2", "--", "memories", "--variant", "shared-mark"];
    let (success, passed, failed, text) = compared("differs", &words);
    assert!(!success && passed > 0 && failed > 100);
    assert_eq!(passed + failed, cases(2).len());
    assert_eq!(text.matches("DIFFERENT").count(), 100);
    let kept = Path::new(env!("CARGO_TARGET_TMPDIR")).join("differs/target/differences");
    let first = fs::read(kept.join("seed-2-input-0.calls")).unwrap();
    assert_eq!(first, inputs(2)[0].bytes);
}

/// A program that spoils the right text with a command of the shell.
fn spoiled(test: &str, command: &str) -> (bool, usize, usize, String) {
    compared(test, &["sh", "--", "-c", command, BINARY])
}

#[test]
fn too_much_too_little_and_a_crash_are_failures() {
    let all = cases(1).len();
    let inputs = inputs(1).len();
    let (success, passed, failed, _) = spoiled("much", "\"$0\" memories; echo more");
    assert_eq!((success, passed, failed), (false, all - inputs, inputs));
    let (success, passed, failed, _) = spoiled("little", "\"$0\" memories | sed '$d'");
    assert_eq!((success, passed, failed), (false, all - inputs, inputs));
    let (success, passed, failed, text) = spoiled("crash", "\"$0\" memories; kill -9 $$");
    assert_eq!((success, passed, failed), (false, 0, all));
    assert!(text.contains("and the 1 after it in its input: ended by a signal"));
    let (success, passed, failed, _) = spoiled("nothing", "cat > /dev/null");
    assert_eq!((success, passed, failed), (false, 0, all));
}

#[test]
fn one_wrong_answer_is_said_plainly() {
    let wrong = "\"$0\" memories | sed '1s/answer seeks/answer holds 3/'";
    let (success, _, failed, text) = spoiled("plainly", wrong);
    assert!(!success && failed > 0 && failed <= inputs(1).len());
    let said = "seed 1 case 0, byte 0 of input 0, greatest rows, settings 1 256 16 1, call turn 255: line 1: \
                due \"answer seeks R M 119 255 1\\n\", printed \"answer holds 3 R M 119 255 1\\n\"";
    assert!(text.contains(said), "{text}");
}
