//! 02, P8: what light load costs, and that false claims like it are found false.

use std::collections::BTreeSet;

use independent::generate::histories::light_schedule;
use independent::generate::worst::{light_worst_schedule, LastWriter};
use independent::grid::Settings;
use independent::history::History;
use independent::light_load::{most_turns, refuted, turns, Claim, FALSE, P8};
use independent::random::Random;
use independent::rules::Grid;
use independent::schedule::{Event, Kind};

/// For which m the history refutes the claim.
fn refuting(claim: &Claim, settings: Settings, events: &[Event]) -> Vec<usize> {
    let found = refuted(&[claim], settings, events).unwrap();
    found[0].keys().copied().collect()
}

fn claim(name: &str) -> &'static Claim {
    FALSE.iter().find(|claim| claim.name == name).unwrap()
}

#[test]
fn figures_of_the_claim() {
    let long = |n, m| turns(Settings::new(1, n, 3), m);
    assert_eq!((long(3, 1), long(3, 2), long(4, 2)), (6, 13, 15));
    assert_eq!([1, 2].map(|m| turns(Settings::new(0, 3, 3), m)), [4, 8]);
}

#[test]
fn no_history_of_a_small_grid_uses_more_and_some_use_as_many() {
    for (mode, n, m, most) in [(1, 3, 1, 6), (1, 3, 2, 13), (0, 3, 2, 8)] {
        assert_eq!(most_turns(Settings::new(mode, n, 3), m), Ok((most, m - 1)));
    }
    // With k out the bound is demand 3's.
    assert_eq!(most_turns(Settings::new(0, 3, 3), 3), Ok((8, 2)));
    assert_eq!(most_turns(Settings::new(1, 2, 2), 2), Ok((6, 1)));
}

#[test]
fn worst_histories_refute_each_claim_on_turns_places_and_names() {
    for (mode, version) in [(0, 1), (0, 2), (1, 1), (1, 2)] {
        let settings = Settings::new(mode, 6, 5).of_version(version);
        for m in 2..5 {
            let events = light_worst_schedule(settings, m, LastWriter::Holds);
            let refutes = |name| refuting(claim(name), settings, &events).contains(&m.into());
            assert_eq!(refuting(&P8, settings, &events), []);
            assert!(refutes("one turn less") && refutes("one diagonal less"));
            assert_eq!(refutes("names below m(m-1)/2"), version == 2);
            assert_eq!(refutes("one name less"), version == 2);
            assert_eq!(refutes("names in version 1 too"), version == 1);
            assert!(!refutes("m counted at the end only"));
        }
    }
}

/// Task 0 loses to task 1, which frees its name: one task is out, and it holds on the next diagonal.
#[test]
fn load_at_the_end_is_not_the_load_of_the_history() {
    let settings = Settings::new(1, 3, 3);
    let mut events = light_worst_schedule(settings, 2, LastWriter::Holds);
    events.push(Event::new(Kind::Free, 1));
    assert_eq!(refuting(&P8, settings, &events), []);
    assert_eq!(refuting(claim("m counted at the end only"), settings, &events), [1]);
}

#[test]
fn light_histories_let_out_every_number_below_k() {
    let mut loads = BTreeSet::new();
    for index in 0..400 {
        let schedule = light_schedule(&mut Random::of_case(1, index));
        let mut history = History::new(&Grid, schedule.settings).unwrap();
        for event in schedule.events {
            let _ = history.call(event);
        }
        assert!(history.peak < schedule.settings.k(), "{}", schedule.label);
        loads.insert((schedule.settings.k, history.peak));
    }
    for (k, m) in (2..=6).flat_map(|k| (1..k).map(move |m| (k, m))) {
        assert!(loads.contains(&(k, m.into())), "k {k} m {m}");
    }
}
