//! 02, P12: comma lines to a schedule file and back, each refusal in its order, and both round trips.

use independent::generate::damaged::full_file;
use independent::grid::Settings;
use independent::line_cases::{fixed_cases, in_rooms, random_case, ROOMS};
use independent::lines::{convert, plain_decimal, said, Conversion, Line, Lines, AS_NEEDED, END};
use independent::refusal::Refusal;
use independent::schedule::{file_bytes, file_of, Event, Kind, LARGEST_FILE};

fn file(text: &str) -> Result<Vec<u8>, Refusal> {
    Lines.file(text.as_bytes(), AS_NEEDED)
}

fn text(file: &[u8]) -> Result<Vec<u8>, Refusal> {
    Lines.text(file, AS_NEEDED)
}

fn broken(line: usize) -> Result<Vec<u8>, Refusal> {
    Err(Refusal::Form { line })
}

/// A text of so many asks after a first line.
fn asks(first: &str, count: usize) -> String {
    format!("{first}\r\n{}", "ask,0\r\n".repeat(count))
}

#[test]
fn a_text_becomes_a_file_and_the_file_that_text() {
    let lines = "1,2,2,1\r\nask,3\r\nturn,258\r\nfree,65535\r\n";
    let bytes = b"GRS\x01\x00\x01\x02\x00\x02\x03\x00\x00\x03\x00\x01\x02\x01\x02\xff\xff";
    assert_eq!(file(lines), Ok(bytes.to_vec()));
    assert_eq!(text(bytes), Ok(lines.into()));
    let bare = b"GRS\x02\x00\x00\x00\x01\x10\x00\x00";
    assert_eq!(file("0,256,16,2\r\n"), Ok(bare.to_vec()));
    assert_eq!(text(bare), Ok(b"0,256,16,2\r\n".to_vec()));
}

#[test]
fn lines_are_cut_at_cr_lf_only() {
    let line = |bytes, ended| Line { bytes, ended };
    assert_eq!(Lines.cut(b""), []);
    assert_eq!(Lines.cut(b"\r\n"), [line(b"", true)]);
    assert_eq!(Lines.cut(b"a\r\nb"), [line(b"a", true), line(b"b", false)]);
    assert_eq!(Lines.cut(b"a\r\r\n\n\r\n"), [line(b"a\r", true), line(b"\n", true)]);
    assert_eq!(Lines.cut(b"a\r\n\r"), [line(b"a", true), line(b"\r", false)]);
}

#[test]
fn plain_decimals() {
    for (digits, number) in [("0", 0), ("7", 7), ("10", 10), ("65535", 65_535)] {
        assert_eq!(plain_decimal(digits.as_bytes(), 65_535), Some(number));
    }
    assert_eq!(plain_decimal(b"255", 255), Some(255));
    assert_eq!(plain_decimal(b"256", 255), None);
    let none = ["", "00", "01", "+1", "-1", " 1", "1 ", "1.0", "a", "\"1\"", "65536", "4294967297"];
    for digits in none.into_iter().chain(["18446744073709551617", "\u{661}"]) {
        assert_eq!(plain_decimal(digits.as_bytes(), 65_535), None, "{digits}");
    }
}

#[test]
fn the_first_line_that_breaks_the_form_is_told() {
    for breaks in ["", "1,2,2,1", "\r\n", "1,2,2\r\n", "1,2,2,1,\r\n", "1,2,2,01\r\n", "1,2,2,1\n"]
    {
        assert_eq!(file(breaks), broken(1), "{breaks:?}");
    }
    for line in
        ["", "ask", "ask,", "ask,00", "ask, 1", "ask,1,1", "Ask,1", "\"ask\",1", "ask,65536"]
    {
        assert_eq!(file(&format!("1,2,2,1\r\n{line}\r\n")), broken(2), "{line:?}");
        assert_eq!(file(&format!("1,2,2,1\r\nask,1\r\n{line}\r\nask\r\n")), broken(3), "{line:?}");
    }
    assert_eq!(file("1,2,2,1\r\nask,1"), broken(2));
    assert_eq!(file("1,2,2,1\r\nask,1\r\n\r\n"), broken(3));
    assert_eq!(file("1,2,2,1\r\nask,1\nask,2\r\nask\r\n"), broken(2));
    assert_eq!(file("1,2,2,1\r\nask,1\r\r\n"), broken(2));
}

#[test]
fn a_number_too_large_for_its_field_breaks_the_form() {
    let fits = [("255,1,1,1", 1), ("1,65535,1,1", 1), ("1,256,255,1", 1), ("1,1,1,65535", 10)];
    for (first, number) in fits {
        let refusal = file(&format!("{first}\r\n")).map_err(|refusal| refusal.number());
        assert_eq!(refusal, Err(number), "{first}");
    }
    for first in ["256,1,1,1", "1,65536,1,1", "1,256,256,1", "1,1,1,65536", "1,1,1,65537"] {
        assert_eq!(file(&format!("{first}\r\n")), broken(1), "{first}");
    }
    assert!(file("1,1,1,1\r\nfree,65535\r\n").is_ok());
    assert_eq!(file("1,1,1,1\r\nfree,65536\r\n"), broken(2));
}

#[test]
fn refusals_of_a_text_in_their_order() {
    let many = 16_385;
    let end = |text: String| format!("{text}ask\r\n");
    assert_eq!(file(&end(asks("1,2,3,3", many))), broken(many + 2));
    assert_eq!(file(&asks("1,2,3,3", many)), Err(Refusal::Version));
    assert_eq!(file(&asks("1,2,3,0", many)), Err(Refusal::Version));
    assert_eq!(file(&asks("1,2,3,1", many)), Err(Refusal::Settings));
    for settings in ["1,257,2,2", "1,0,1,1", "1,2,0,1", "255,2,2,1", "1,256,17,1"] {
        assert_eq!(file(&asks(settings, many)), Err(Refusal::Settings));
    }
    assert_eq!(Lines.file(asks("1,2,2,1", many).as_bytes(), 0), Err(Refusal::EventCount));
    for count in [65_535, 65_536, 65_537, 81_920] {
        assert_eq!(file(&asks("1,2,2,2", count)), Err(Refusal::EventCount));
    }
    let most = asks("1,2,2,1", many - 1);
    assert_eq!(Lines.file(most.as_bytes(), LARGEST_FILE - 1), Err(Refusal::OutputRoom));
    let longest = Lines.file(most.as_bytes(), LARGEST_FILE);
    assert_eq!(longest.map(|bytes| bytes.len()), Ok(LARGEST_FILE));
}

#[test]
fn refusals_of_a_file_in_their_order() {
    let (good, bad) = (Settings::new(1, 2, 2), Settings::new(1, 2, 3));
    let code = 3 * 65_536;
    let mut letters = file_bytes(bad.of_version(3), 16_385, &[code]);
    letters[2] = b's';
    let refused = |bytes: &[u8], refusal| assert_eq!(Lines.text(bytes, 0), Err(refusal));
    refused(&letters[..10], Refusal::FileLength);
    refused(&letters, Refusal::Letters);
    refused(&file_bytes(bad.of_version(3), 16_385, &[code]), Refusal::Version);
    refused(&file_bytes(bad, 16_385, &[code]), Refusal::Settings);
    refused(&file_bytes(good, 16_385, &[code]), Refusal::EventCount);
    refused(&file_bytes(good, 2, &[code]), Refusal::FileLength);
    refused(&file_bytes(good, 1, &[code]), Refusal::EventCode);
    refused(&file_bytes(good, 1, &[0]), Refusal::OutputRoom);
    let bytes = file_bytes(good, 1, &[10]);
    assert_eq!(Lines.text(&bytes, 16), Err(Refusal::OutputRoom));
    assert_eq!(Lines.text(&bytes, 17), Ok(b"1,2,2,1\r\nask,10\r\n".to_vec()));
}

#[test]
fn the_letters_of_a_file_tell_the_direction() {
    let converted = |bytes: &[u8]| convert(&Lines, bytes, AS_NEEDED);
    assert_eq!(converted(b"GRS"), Err(Refusal::FileLength));
    assert_eq!(converted(b"GRs\r\n"), broken(1));
    assert_eq!(converted(b"1,2,2,1\r\n"), file("1,2,2,1\r\n"));
    assert_eq!(converted(&full_file(9)), text(&full_file(9)));
}

#[test]
fn refusals_in_words() {
    assert_eq!(said(Refusal::Form { line: 3 }), "refused 20 at line 3: the line breaks the form");
    assert_eq!(said(Refusal::Version), "refused 10: version unknown");
}

#[test]
fn accepted_texts_and_files_come_back_identical() {
    let (mut texts, mut files) = (0, 0);
    let random = (0..600).map(|index| random_case(7, index));
    for case in fixed_cases().into_iter().chain(random) {
        let Ok(output) = convert(&Lines, &case.bytes, AS_NEEDED) else {
            continue;
        };
        assert_eq!(convert(&Lines, &output, AS_NEEDED), Ok(case.bytes), "{}", case.label);
        if output.ends_with(END) {
            files += 1;
        } else {
            texts += 1;
        }
    }
    assert!(texts > 300 && files > 300, "{texts} texts, {files} files");
}

#[test]
fn every_event_comes_back() {
    let events = Kind::ALL.map(|kind| (0..=65_535).map(move |id| Event::new(kind, id)));
    let events: Vec<Event> = events.into_iter().flatten().collect();
    for some in events.chunks(16_384) {
        let bytes = file_of(Settings::new(1, 256, 16).of_version(2), some).unwrap();
        let lines = text(&bytes).unwrap();
        assert_eq!(Lines.schedule(&lines).unwrap().1, some);
        assert_eq!(Lines.file(&lines, AS_NEEDED), Ok(bytes));
    }
}

#[test]
fn a_room_refuses_what_is_longer_and_nothing_else() {
    for case in in_rooms() {
        let needed = convert(&Lines, &case.bytes, AS_NEEDED);
        for room in ROOMS {
            let due = match &needed {
                Ok(output) if output.len() > room => Err(Refusal::OutputRoom),
                _ => needed.clone(),
            };
            assert_eq!(convert(&Lines, &case.bytes, room), due, "{} in {room}", case.label);
        }
    }
}
