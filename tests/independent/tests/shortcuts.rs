//! 01, "Shortcuts that look right": the stories it tells, under the shortcut and under the grid.

use independent::calls::{Answer, Stand};
use independent::grid::Settings;
use independent::history::History;
use independent::refusal::Refusal;
use independent::rules::{Grid, Rules};
use independent::schedule::{Event, Kind};
use independent::variants::shortcuts::{
    BlockNames, ClearEveryMark, CountHolders, ScanAtOnce, SharedMark, TestXFirst,
};

/// Runs `ask` and `free` by `a2`, `f2` and turns by `2` or, six of them, `2*6`; the last answer.
fn run<'a>(history: &mut History<'a>, story: &str) -> Result<Answer, Refusal> {
    let mut answer = Ok(Answer::Done);
    for word in story.split_whitespace() {
        let (kind, rest) = match word.as_bytes()[0] {
            b'a' => (Kind::Ask, &word[1..]),
            b'f' => (Kind::Free, &word[1..]),
            _ => (Kind::Turn, word),
        };
        let (id, times) = rest.split_once('*').unwrap_or((rest, "1"));
        for _ in 0..times.parse().unwrap() {
            answer = history.call(Event::new(kind, id.parse().unwrap()));
        }
    }
    answer
}

fn held(answer: Result<Answer, Refusal>) -> Option<u32> {
    match answer.ok()?.stand()? {
        Stand::Holds(name) => Some(name.0),
        Stand::Seeks => None,
    }
}

fn new(rules: &dyn Rules, n: u16, k: u8) -> History<'_> {
    History::new(rules, Settings::new(1, n, k)).unwrap()
}

#[test]
fn shared_mark_gives_one_name_to_two_tasks() {
    // Tasks 1 then 0 write X and scan clear; both set the mark; 0 holds; 1 goes down, clearing it.
    let story = "a0 a1 a2 1 0 1*3 0*3 1 0 0";
    let mut shared = new(&SharedMark, 3, 3);
    assert_eq!(held(run(&mut shared, story)), Some(0));
    assert_eq!(held(run(&mut shared, "1*2 2*6")), Some(0));
    let mut grid = new(&Grid, 3, 3);
    assert_eq!(held(run(&mut grid, story)), Some(0));
    assert_eq!(held(run(&mut grid, "1*2 2*6")), None);
}

#[test]
fn clearing_every_mark_wipes_the_mark_of_another() {
    // Task 1 holds; task 0 has set its mark in the same block when 1 releases.
    let story = "a0 a1 0 1 0*2 1*2 0 1 1 f1";
    let mut wiped = new(&ClearEveryMark, 2, 2);
    assert!(run(&mut wiped, story).is_ok());
    assert_eq!(wiped.memory.registers.marks, [0, 0]);
    let mut grid = new(&Grid, 2, 2);
    assert!(run(&mut grid, story).is_ok());
    assert_eq!(grid.memory.registers.marks, [1, 0]);
    // Task 1 asks again and meets that mark, or does not.
    assert_eq!(held(run(&mut wiped, "a1 1*3")), None);
    assert_eq!(held(run(&mut grid, "a1 1*3")), Some(1));
}

#[test]
fn counting_only_holders_overruns_the_edge() {
    let mut counted = new(&CountHolders, 3, 2);
    assert!(run(&mut counted, "a0 a1 a2").is_ok());
    assert_eq!(run(&mut new(&Grid, 3, 2), "a0 a1 a2"), Err(Refusal::TooManyOut));
}

#[test]
fn scan_as_one_turn_miscounts_turns() {
    let mut at_once = new(&ScanAtOnce, 2, 2);
    assert_eq!(held(run(&mut at_once, "a0 0*4")), Some(0));
    let mut grid = new(&Grid, 2, 2);
    assert_eq!(held(run(&mut grid, "a0 0*4")), None);
    assert_eq!(held(run(&mut grid, "0")), Some(0));
}

#[test]
fn testing_x_before_setting_the_mark_lets_two_stop_together() {
    let mut tested = new(&TestXFirst, 2, 2);
    run(&mut tested, "a0 a1 0*4 1*4").unwrap();
    assert_eq!(held(run(&mut tested, "0")), Some(0));
    assert_eq!(held(run(&mut tested, "1")), Some(0));
}

#[test]
fn block_formula_collides_on_the_edge() {
    let story = "a0 a1 0 1 0*5";
    assert_eq!(held(run(&mut new(&Grid, 2, 2), story)), Some(2));
    let mut numbered = new(&BlockNames, 2, 2);
    assert_eq!(held(run(&mut numbered, story)), Some(1));
}
