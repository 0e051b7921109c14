//! The schedule file: opening, reading on, writing, and their refusals.

use independent::generate::damaged::full_file;
use independent::generate::{fixed_cases, random_case};
use independent::grid::Settings;
use independent::refusal::Refusal;
use independent::schedule::{
    file_bytes, file_of, open, read_all, write, Event, Kind, Opened, Reader, LARGEST_FILE,
};

const GOOD: Settings = Settings::new(1, 2, 2);
const BAD: Settings = Settings::new(1, 2, 3);
const BAD_CODE: u32 = 3 * 65_536;

#[test]
fn opening_tests_in_their_order() {
    let mut bytes = file_bytes(BAD.of_version(3), 16_385, &[BAD_CODE]);
    bytes[0] = b'g';
    assert_eq!(open(&bytes[..10]), Err(Refusal::FileLength));
    assert_eq!(open(&bytes), Err(Refusal::Letters));
    for version in [0, 3, 255, 256, 257, 258, 65_535] {
        let (good, bad) = (GOOD.of_version(version), BAD.of_version(version));
        assert_eq!(open(&file_bytes(good, 0, &[])), Err(Refusal::Version));
        assert_eq!(open(&file_bytes(bad, 16_385, &[BAD_CODE])), Err(Refusal::Version));
    }
    for version in [1, 2] {
        let (good, bad) = (GOOD.of_version(version), BAD.of_version(version));
        assert_eq!(open(&file_bytes(bad, 16_385, &[BAD_CODE])), Err(Refusal::Settings));
        assert_eq!(open(&file_bytes(good, 16_385, &[BAD_CODE])), Err(Refusal::EventCount));
        assert_eq!(open(&file_bytes(good, 2, &[BAD_CODE])), Err(Refusal::FileLength));
        assert_eq!(open(&file_bytes(good, 1, &[BAD_CODE])), Err(Refusal::EventCode));
        let opened = Opened { settings: good, count: 1 };
        assert_eq!(open(&file_bytes(good, 1, &[65_535])), Ok(opened));
    }
}

#[test]
fn counts_about_the_limit() {
    assert_eq!(full_file(16_384).len(), LARGEST_FILE);
    assert_eq!(open(&full_file(16_384)).map(|opened| opened.count), Ok(16_384));
    assert_eq!(open(&full_file(16_385)), Err(Refusal::EventCount));
    assert_eq!(open(b""), Err(Refusal::FileLength));
}

#[test]
fn reader_gives_one_event_after_another() {
    let events = [Event::new(Kind::Free, 65_535), Event::new(Kind::Ask, 258)];
    let bytes = file_of(GOOD, &events).unwrap();
    let mut reader = Reader { bytes: &bytes, position: 0 };
    assert_eq!(reader.next_event(), Ok(events[0]));
    assert_eq!(reader.next_event(), Ok(events[1]));
    assert_eq!(reader.next_event(), Err(Refusal::NoEvent));
    assert_eq!(reader.position, 2);
    reader.position = usize::MAX;
    assert_eq!(reader.next_event(), Err(Refusal::NoEvent));
}

#[test]
fn bad_code_stops_a_reader_only_there() {
    let bytes = file_bytes(GOOD, 3, &[65_536, BAD_CODE, 1]);
    let mut reader = Reader { bytes: &bytes, position: 0 };
    assert_eq!(reader.next_event(), Ok(Event::new(Kind::Turn, 0)));
    assert_eq!(reader.next_event(), Err(Refusal::EventCode));
    assert_eq!(reader.position, 1);
    reader.position = 2;
    assert_eq!(reader.next_event(), Ok(Event::new(Kind::Ask, 1)));
    let mut cut = Reader { bytes: &bytes[..19], position: 3 };
    assert_eq!(cut.next_event(), Err(Refusal::FileLength));
}

#[test]
fn writer_tests_in_their_order_and_leaves_the_rest_of_the_room() {
    let too_many = vec![BAD_CODE; 16_385];
    let mut room = [7; 20];
    for settings in [BAD, BAD.of_version(2), GOOD.of_version(0), GOOD.of_version(3)] {
        assert_eq!(write(settings, &too_many, &mut room), Err(Refusal::Settings));
    }
    assert_eq!(write(GOOD, &too_many, &mut room), Err(Refusal::EventCount));
    assert_eq!(write(GOOD, &[0, u32::MAX], &mut room[..10]), Err(Refusal::EventCode));
    assert_eq!(write(GOOD, &[0, 1, 2, 3], &mut room), Err(Refusal::OutputRoom));
    assert_eq!(room, [7; 20]);
    assert_eq!(write(GOOD, &[131_073, 256], &mut room), Ok(17));
    let file = [b'G', b'R', b'S', 1, 0, 1, 2, 0, 2, 2, 0, 2, 1, 0, 0, 0, 1];
    assert_eq!(room[..17], file);
    assert_eq!(room[17..], [7; 3]);
    assert_eq!(write(GOOD.of_version(2), &[], &mut room), Ok(11));
    assert_eq!(room[..11], [b'G', b'R', b'S', 2, 0, 1, 2, 0, 2, 0, 0]);
    assert_eq!(room[11..17], file[11..]);
}

#[test]
fn accepted_files_read_and_written_back_are_the_same() {
    let random = (0..300).map(|index| random_case(7, index));
    let mut accepted = 0;
    for case in fixed_cases().into_iter().chain(random) {
        if let Ok((settings, events)) = read_all(&case.bytes) {
            assert_eq!(file_of(settings, &events), Ok(case.bytes));
            accepted += 1;
        }
    }
    assert!(accepted > 1000);
}
