//! The listing of 01 byte for byte, with the accesses of 02, P6, and what bad and empty files print.

use independent::generate::edges::listing_of_01;
use independent::generate::worst::{in_order, worst_schedule, LastWriter};
use independent::grid::Settings;
use independent::listing::listing;
use independent::rules::Grid;
use independent::schedule::{file_of, Event, Kind};

const LISTING: &str = "\
grid 1 2 2
0 ask 0 seeks
1 ask 1 seeks
2 turn 0 seeks W X 0 0 1
3 turn 1 seeks W X 0 0 2
4 turn 0 seeks R M 0 0 0
5 turn 0 seeks R M 0 1 0
6 turn 0 seeks W M 0 0 1
7 turn 0 seeks R X 0 0 2
8 turn 0 holds 2 W M 0 0 0
9 turn 1 seeks R M 0 0 0
10 turn 1 seeks R M 0 1 0
11 turn 1 seeks W M 0 1 1
12 turn 1 holds 0 R X 0 0 2
13 free 0 freed 2 none
14 turn 0 refused 15
15 free 1 freed 0 W M 0 1 0
end 0 2 6
";

#[test]
fn listing_of_01_byte_for_byte() {
    let header = [0x47, 0x52, 0x53, 0x01, 0x00, 0x01, 0x02, 0x00, 0x02, 0x10, 0x00];
    let mut file = header.to_vec();
    for line in LISTING.lines().skip(1).take(16) {
        let words: Vec<&str> = line.split(' ').collect();
        let code = ["ask", "turn", "free"].iter().position(|kind| *kind == words[1]);
        file.extend([code.unwrap() as u8, words[2].parse().unwrap(), 0]);
    }
    assert_eq!(file.len(), 11 + 16 * 3);
    assert_eq!(listing(&Grid, &file), LISTING);
    assert_eq!(listing_of_01().bytes, file);
}

#[test]
fn bad_file_prints_its_refusal_only() {
    assert_eq!(listing(&Grid, b""), "refused 8\n");
    assert_eq!(listing(&Grid, b"GRS"), "refused 8\n");
    assert_eq!(listing(&Grid, b"GRT\x01\x00\x01\x02\x00\x02\x00\x00"), "refused 9\n");
    assert_eq!(listing(&Grid, b"GRS\x01\x00\x01\x02\x00\x03\x00\x00"), "refused 1\n");
}

#[test]
fn file_without_events() {
    let file = file_of(Settings::new(0, 256, 16), &[]).unwrap();
    assert_eq!(listing(&Grid, &file), "grid 0 256 16\nend 0 0 0\n");
}

/// 02, P3: version 2 changes names only, and the first line does not tell it.
#[test]
fn version_2_names_by_diagonal() {
    let settings = Settings::new(0, 3, 3);
    let events = worst_schedule(settings, &in_order(3), LastWriter::Holds);
    let text = |version| listing(&Grid, &file_of(settings.of_version(version), &events).unwrap());
    assert!(text(1).starts_with("grid 0 3 3\n") && text(1).contains("turn 1 holds 3 R X 2 0 2\n"));
    assert_eq!(text(2), text(1).replace("turn 1 holds 3 ", "turn 1 holds 2 "));
}

/// 02, P2: PEAK is the greatest number out, also where no name is given.
#[test]
fn peak_counts_seekers_and_holders() {
    let settings = Settings::new(1, 2, 2);
    let mut events = [0, 1].map(|id| Event::new(Kind::Ask, id)).to_vec();
    let asked = listing(&Grid, &file_of(settings, &events).unwrap());
    assert_eq!(asked, "grid 1 2 2\n0 ask 0 seeks\n1 ask 1 seeks\nend 0 2 0\n");
    events.extend([Event::new(Kind::Turn, 0); 5]);
    events.push(Event::new(Kind::Free, 0));
    let freed = listing(&Grid, &file_of(settings, &events).unwrap());
    assert!(freed.ends_with("6 turn 0 holds 0 R X 0 0 1\n7 free 0 freed 0 W M 0 0 0\nend 0 2 5\n"));
}

#[test]
fn most_counts_only_completed_acquisitions_and_peak_outlasts_releases() {
    let settings = Settings::new(1, 2, 1);
    let kinds = [(Kind::Ask, 1), (Kind::Ask, 0), (Kind::Free, 1), (Kind::Turn, 65_535)];
    let events = kinds.map(|(kind, id)| Event::new(kind, id));
    let text = listing(&Grid, &file_of(settings, &events).unwrap());
    let due = "grid 1 2 1\n0 ask 1 holds 0\n1 ask 0 refused 7\n2 free 1 freed 0 none\n\
               3 turn 65535 refused 4\nend 0 1 0\n";
    assert_eq!(text, due);
    let settings = Settings::new(1, 9, 2);
    let mut events = vec![Event::new(Kind::Ask, 4)];
    events.extend([Event::new(Kind::Turn, 4); 11]);
    let unfinished = listing(&Grid, &file_of(settings, &events).unwrap());
    assert!(unfinished.ends_with("11 turn 4 seeks W M 0 4 1\nend 0 1 0\n"));
    events.push(Event::new(Kind::Turn, 4));
    let finished = listing(&Grid, &file_of(settings, &events).unwrap());
    assert!(finished.ends_with("12 turn 4 holds 0 R X 0 0 5\nend 1 1 12\n"));
}
