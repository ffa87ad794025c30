//! The line monitor's program: texts and records from files and from pipes cut anywhere, what it says of a fault and what
//! it has written before, and captures there and back.

use doljurven_tests::captures;
use doljurven_tests::dice::Dice;
use doljurven_tests::model::{self, Event, Record};
use doljurven_tests::programs;
use doljurven_tests::texts::{records, some_line, some_text, spoil_records, spoil_text};
use std::fs;
use std::path::{Path, PathBuf};
use std::process::{Command, Output, Stdio};

/// What the program has written, and what it has said on standard error.
type Told = (Vec<u8>, String);

fn monitor(direction: &str) -> Command {
    let mut command = Command::new(programs::built("monitor"));
    command.arg(direction);
    command
}

/// It always ends well: the language has no exit status.
fn told(output: Output) -> Told {
    assert!(output.status.success(), "{}", output.status);
    (output.stdout, String::from_utf8(output.stderr).expect("plain text"))
}

fn of_pieces(direction: &str, pieces: &[&[u8]]) -> Told {
    told(programs::fed(&mut monitor(direction), pieces))
}

fn of_input(direction: &str, bytes: &[u8]) -> Told {
    of_pieces(direction, &[bytes])
}

fn of_file(direction: &str, path: &Path) -> Told {
    told(monitor(direction).arg(path).stdin(Stdio::null()).output().expect("the program runs"))
}

/// A file of its own for a test to read from.
fn file(name: &str, bytes: &[u8]) -> PathBuf {
    let path = Path::new(env!("CARGO_TARGET_TMPDIR")).join(name);
    fs::write(&path, bytes).expect("a folder to write to");
    path
}

fn expected(direction: &str, bytes: &[u8]) -> Told {
    match direction {
        "import" => model::monitor_import(bytes),
        _ => model::monitor_export(bytes),
    }
}

/// Compared, not shown: what differs would fill the screen.
fn same(told: &Told, expected: &Told, what: &str) {
    assert_eq!(told.1, expected.1, "{what}");
    assert!(told.0 == expected.0, "{what}: {} bytes written, not the {} expected", told.0.len(), expected.0.len());
}

const DIRECTIONS: [&str; 2] = ["import", "export"];

/// Records of every kind, most of them line bytes: what a replay file has, in any order.
fn some_records(dice: &mut Dice, count: usize) -> Vec<u8> {
    let mut file = Vec::new();
    for _ in 0..count {
        let kind = dice.pick(&[0, 1, 1, 1, 1, 1, 1, 2, 3, 4, 5]);
        file.push(kind);
        match kind {
            1 => file.extend([u8::from(dice.percent(10)), dice.byte()]),
            _ => file.extend(dice.bytes([1, 2, 8, 10, 0, 2][usize::from(kind)])),
        }
    }
    file
}

/// What either direction can take, of about so many bytes.
fn some_input(dice: &mut Dice, direction: &str, len: usize) -> Vec<u8> {
    if direction == "export" {
        return some_records(dice, len / 4);
    }
    let line = some_line(dice, len / 3, 5);
    some_text(dice, &line, 30)
}

// ---------------------------------------------------------------- files, and pipes cut anywhere

#[test]
fn files_and_pipes_of_any_length() {
    let mut dice = Dice::new(0x3017_0001);
    for direction in DIRECTIONS {
        for len in [0, 1, 10, 1000, 100_000] {
            let input = some_input(&mut dice, direction, len);
            let expected = expected(direction, &input);
            assert_eq!(expected.1, "");
            let path = file(&format!("any-length-{direction}"), &input);
            same(&of_file(direction, &path), &expected, &format!("{direction} of a file of {} bytes", input.len()));
            same(&of_input(direction, &input), &expected, &format!("{direction} of {} bytes", input.len()));
        }
    }
}

const SMALL_TEXT: &[u8] = b"AA 0f! 7F\n1b!\n00 01 02 03 04 05 06 07 08 09 0a 0B 0c 0D 0e 0F 10 11!\n";

/// Records of every kind, 18 line bytes among them.
fn small_file() -> Vec<u8> {
    let line = |count: u8| (0..count).flat_map(|byte| [1, byte % 2, byte]);
    let mut file: Vec<u8> = vec![0, 2, 4, 3, 0, 1, 2, 3, 4, 5, 6, 7, 8, 9];
    file.extend(line(3));
    file.extend([2, 0, 1, 2, 3, 4, 5, 6, 7, 4, 5, 0, 1, 4]);
    file.extend(line(15));
    file.extend([0, 9]);
    file
}

#[test]
fn every_cut_in_two() {
    let spoiled_text = [SMALL_TEXT, b"00 01! ?", SMALL_TEXT].concat();
    let spoiled_file = [small_file(), vec![6], small_file()].concat();
    for (direction, input) in [
        ("import", SMALL_TEXT.to_vec()),
        ("import", SMALL_TEXT[..SMALL_TEXT.len() - 1].to_vec()),
        ("import", spoiled_text),
        ("export", small_file()),
        ("export", small_file()[..44].to_vec()),
        ("export", spoiled_file),
    ] {
        let expected = expected(direction, &input);
        for cut in 0..=input.len() {
            let pieces = [&input[..cut], &input[cut..]];
            same(&of_pieces(direction, &pieces), &expected, &format!("{direction}, cut at {cut}"));
        }
    }
}

#[test]
fn single_bytes() {
    let mut dice = Dice::new(0x3017_0002);
    for direction in DIRECTIONS {
        let input = some_input(&mut dice, direction, 3000);
        let pieces: Vec<&[u8]> = input.chunks(1).collect();
        same(&of_pieces(direction, &pieces), &expected(direction, &input), direction);
    }
}

fn cut_anywhere<'a>(dice: &mut Dice, input: &'a [u8], most: usize) -> Vec<&'a [u8]> {
    let mut pieces = Vec::new();
    let mut rest = input;
    while !rest.is_empty() {
        let (piece, after) = rest.split_at(rest.len().min(1 + dice.below(most)));
        pieces.push(piece);
        rest = after;
    }
    pieces
}

#[test]
fn pieces_of_any_length() {
    let mut dice = Dice::new(0x3017_0003);
    for direction in DIRECTIONS {
        for (len, most) in [(5000, 30), (100_000, 5000), (400_000, 100_000)] {
            let input = some_input(&mut dice, direction, len);
            let pieces = cut_anywhere(&mut dice, &input, most);
            same(&of_pieces(direction, &pieces), &expected(direction, &input), &format!("{direction}, {len} bytes"));
        }
    }
}

/// Lengths that a buffer may have, and those next to them.
const NEAR_BUFFERS: [usize; 9] = [4095, 4096, 4097, 16_383, 16_384, 16_385, 65_535, 65_536, 65_537];

#[test]
fn pieces_around_a_buffers_length() {
    let mut dice = Dice::new(0x3017_0004);
    for direction in DIRECTIONS {
        let input = some_input(&mut dice, direction, 300_000);
        let expected = expected(direction, &input);
        for len in NEAR_BUFFERS {
            let pieces: Vec<&[u8]> = input.chunks(len).collect();
            same(&of_pieces(direction, &pieces), &expected, &format!("{direction}, pieces of {len}"));
        }
    }
}

#[test]
fn megabytes() {
    let mut dice = Dice::new(0x3017_0005);
    for direction in DIRECTIONS {
        let input = some_input(&mut dice, direction, 6_000_000);
        let expected = expected(direction, &input);
        assert!(expected.0.len() > 2_000_000 && expected.1.is_empty());
        same(&of_input(direction, &input), &expected, direction);
        let path = file(&format!("megabytes-{direction}"), &input);
        same(&of_file(direction, &path), &expected, direction);
    }
}

// ---------------------------------------------------------------- texts at fault

#[test]
fn texts_at_fault_by_hand() {
    let cases: [(&str, &[u8], &str); 24] = [
        ("", &[], ""),
        ("AA\n", &[1, 0, 0xAA], ""),
        ("\n", &[], "bad text: offset 0, line 1, column 1\n"),
        ("A", &[], "text breaks off: offset 1, line 1, column 2\n"),
        ("AA", &[], "text breaks off: offset 2, line 1, column 3\n"),
        ("AA?", &[], "bad text: offset 2, line 1, column 3\n"),
        ("AA0", &[], "bad text: offset 2, line 1, column 3\n"),
        ("AA!", &[1, 1, 0xAA], "text breaks off: offset 3, line 1, column 4\n"),
        ("AA!?", &[1, 1, 0xAA], "bad text: offset 3, line 1, column 4\n"),
        ("AA!!", &[1, 1, 0xAA], "bad text: offset 3, line 1, column 4\n"),
        ("AA ", &[1, 0, 0xAA], "text breaks off: offset 3, line 1, column 4\n"),
        ("AA \n", &[1, 0, 0xAA], "bad text: offset 3, line 1, column 4\n"),
        ("AA B", &[1, 0, 0xAA], "text breaks off: offset 4, line 1, column 5\n"),
        ("AA BB", &[1, 0, 0xAA], "text breaks off: offset 5, line 1, column 6\n"),
        ("AA BB\r\n", &[1, 0, 0xAA], "bad text: offset 5, line 1, column 6\n"),
        ("AA\n\n", &[1, 0, 0xAA], "bad text: offset 3, line 2, column 1\n"),
        ("AA\n?", &[1, 0, 0xAA], "bad text: offset 3, line 2, column 1\n"),
        ("AA\n0", &[1, 0, 0xAA], "text breaks off: offset 4, line 2, column 2\n"),
        ("AA\n0\n00\n", &[1, 0, 0xAA], "bad text: offset 4, line 2, column 2\n"),
        ("AA!\nbb 0g\n", &[1, 1, 0xAA, 1, 0, 0xBB], "bad text: offset 8, line 2, column 5\n"),
        ("AA\nBB\n01 02!x", &[1, 0, 0xAA, 1, 0, 0xBB, 1, 0, 1, 1, 1, 2], "bad text: offset 12, line 3, column 7\n"),
        ("AA\nBB\n\0", &[1, 0, 0xAA, 1, 0, 0xBB], "bad text: offset 6, line 3, column 1\n"),
        ("AA\nBB ", &[1, 0, 0xAA, 1, 0, 0xBB], "text breaks off: offset 6, line 2, column 4\n"),
        (" AA\n\n\n", &[], "bad text: offset 0, line 1, column 1\n"),
    ];
    for (text, records, said) in cases {
        let (written, told) = of_input("import", text.as_bytes());
        assert_eq!((&written[..], told.as_str()), (records, said), "{text:?}");
        let path = file("text-at-fault", text.as_bytes());
        assert_eq!(of_file("import", &path), (records.to_vec(), said.to_string()), "{text:?}, from a file");
    }
}

#[test]
fn text_that_breaks_off_at_each_length() {
    let mut ends = 0;
    for len in 0..=SMALL_TEXT.len() {
        let expected = model::monitor_import(&SMALL_TEXT[..len]);
        ends += usize::from(expected.1.is_empty());
        same(&of_input("import", &SMALL_TEXT[..len]), &expected, &format!("{len} characters"));
    }
    assert_eq!(ends, 4, "behind nothing and behind each newline it is a text");
}

/// At a buffer's end and around it, in lines of any length, with all before it written.
#[test]
fn faults_around_a_buffers_length() {
    let mut dice = Dice::new(0x3017_0006);
    for most_on_line in [1, 16, 100_000] {
        let line = some_line(&mut dice, 50_000, 5);
        let text = some_text(&mut dice, &line, most_on_line);
        for at in NEAR_BUFFERS.into_iter().chain([131_071, 131_072, 131_073]) {
            let mut spoiled = text.clone();
            spoiled[at] = b'?';
            let expected = model::monitor_import(&spoiled);
            assert!(expected.1.starts_with(&format!("bad text: offset {at}, ")), "{}", expected.1);
            same(&of_input("import", &spoiled), &expected, &format!("fault at {at}"));
            spoiled.truncate(at);
            same(&of_input("import", &spoiled), &model::monitor_import(&spoiled), &format!("{at} characters"));
        }
    }
}

#[test]
fn spoiled_texts_by_dice() {
    let mut dice = Dice::new(0x3017_0007);
    let (mut bad, mut broken_off) = (0, 0);
    for turn in 0..600 {
        let line = some_line(&mut dice, 1 + turn % 90, 10);
        let mut text = some_text(&mut dice, &line, 20);
        spoil_text(&mut dice, &mut text);
        let expected = model::monitor_import(&text);
        bad += usize::from(expected.1.starts_with("bad text"));
        broken_off += usize::from(expected.1.starts_with("text breaks off"));
        let pieces = cut_anywhere(&mut dice, &text, 100);
        same(&of_pieces("import", &pieces), &expected, &format!("{:?}", String::from_utf8_lossy(&text)));
    }
    assert!(bad > 200 && broken_off > 80, "{bad} bad, {broken_off} broken off");
}

// ---------------------------------------------------------------- records of other kinds, and bad ones

#[test]
fn records_by_hand() {
    let line_bytes = |count: u8| (0..count).flat_map(|byte| [1, 0, byte]).collect::<Vec<u8>>();
    let sixteen = "00 01 02 03 04 05 06 07 08 09 0A 0B 0C 0D 0E 0F\n";
    let cases: [(Vec<u8>, String, &str); 18] = [
        (vec![], String::new(), ""),
        (vec![4], String::new(), ""),
        (vec![4, 4, 0, 1, 1, 1, 0xAB, 4], "AB!\n".to_string(), ""),
        // bodies of other kinds are not looked at, be they ever so bad
        ([vec![0, 77, 2], vec![255; 8], vec![3], vec![1; 10], vec![5, 9, 9, 1, 0, 7]].concat(), "07\n".to_string(), ""),
        (line_bytes(16), sixteen.to_string(), ""),
        ([line_bytes(16), vec![0, 2]].concat(), sixteen.to_string(), ""),
        (line_bytes(17), format!("{sixteen}10\n"), ""),
        (vec![6], String::new(), "bad record: offset 0\n"),
        (vec![255, 1, 0, 0], String::new(), "bad record: offset 0\n"),
        (vec![1], String::new(), "bad record: offset 0\n"),
        (vec![1, 0], String::new(), "bad record: offset 0\n"),
        (vec![1, 2, 0], String::new(), "bad record: offset 0\n"),
        (vec![1, 0, 7, 1, 2, 0, 1, 0, 8], "07\n".to_string(), "bad record: offset 3\n"),
        (vec![4, 1, 0, 7, 1, 1, 8, 6, 1, 0, 9], "07 08!\n".to_string(), "bad record: offset 7\n"),
        ([line_bytes(15), vec![6]].concat(), sixteen.replace(" 0F", ""), "bad record: offset 45\n"),
        ([line_bytes(16), vec![6]].concat(), sixteen.to_string(), "bad record: offset 48\n"),
        ([line_bytes(17), vec![1, 1]].concat(), format!("{sixteen}10\n"), "bad record: offset 51\n"),
        (vec![1, 0, 7, 0], "07\n".to_string(), "bad record: offset 3\n"),
    ];
    for (records, text, said) in cases {
        let expected = (text.into_bytes(), said.to_string());
        assert_eq!(of_input("export", &records), expected, "{records:?}");
        let path = file("records-by-hand", &records);
        assert_eq!(of_file("export", &path), expected, "{records:?}, from a file");
    }
}

#[test]
fn records_of_every_kind_cut_at_each_length() {
    for (kind, body_length) in [1, 2, 8, 10, 0, 2].into_iter().enumerate() {
        let record = [vec![kind as u8], vec![1; body_length]].concat();
        for len in 0..=record.len() {
            let cut = [&[1, 0, 0x5A], &record[..len]].concat();
            let whole = len == 0 || len == record.len();
            let text = if kind == 1 && len == record.len() { "5A 01!\n" } else { "5A\n" };
            let said = if whole { "" } else { "bad record: offset 3\n" };
            assert_eq!(of_input("export", &cut), (text.into(), said.into()), "kind {kind}, {len} bytes");
        }
    }
}

#[test]
fn every_unknown_kind_and_mark() {
    for number in 2..=255 {
        if number > 5 {
            let unknown = [1, 1, 0xA5, number, 0, 0, 1, 0, 0];
            assert_eq!(of_input("export", &unknown), (b"A5!\n".to_vec(), "bad record: offset 3\n".into()), "{number}");
        }
        let marked = [0, 2, 1, 0, 0xA5, 1, number, 0x11, 1, 0, 0];
        assert_eq!(of_input("export", &marked), (b"A5\n".to_vec(), "bad record: offset 5\n".into()), "mark {number}");
    }
}

#[test]
fn spoiled_records_by_dice() {
    let mut dice = Dice::new(0x3017_0008);
    let mut bad = 0;
    for turn in 0..600 {
        let mut records = some_records(&mut dice, 1 + turn % 90);
        spoil_records(&mut dice, &mut records);
        let expected = model::monitor_export(&records);
        bad += usize::from(!expected.1.is_empty());
        let pieces = cut_anywhere(&mut dice, &records, 100);
        same(&of_pieces("export", &pieces), &expected, &format!("{records:?}"));
    }
    assert!(bad > 200, "{bad} bad");
}

/// At a buffer's end and around it, with all before it written as a whole text.
#[test]
fn bad_records_around_a_buffers_length() {
    let mut dice = Dice::new(0x3017_0009);
    let file = some_records(&mut dice, 60_000);
    for at in NEAR_BUFFERS.into_iter().chain([131_071, 131_072, 131_073]) {
        for spoiled in [file[..at].to_vec(), [&file[..at], &[1, 0xFF, 0xFF], &file[at..]].concat()] {
            let expected = model::monitor_export(&spoiled);
            same(&of_input("export", &spoiled), &expected, &format!("{} bytes, spoiled at {at}", spoiled.len()));
        }
    }
}

// ---------------------------------------------------------------- captures

/// The line bytes of a replay file up to where it is cut or has an unknown kind or mark.
fn line_records(file: &[u8]) -> Vec<u8> {
    let (mut found, mut rest) = (Vec::new(), file);
    while let Some((record, length)) = Record::first(rest) {
        match record {
            Record::Event(Event::LineByte { mark, .. }) if mark > 1 => break,
            Record::Event(Event::LineByte { .. }) => found.extend(&rest[..length]),
            _ => {}
        }
        rest = &rest[length..];
    }
    found
}

#[test]
fn captures_are_exported_and_imported_back() {
    let paths = captures::with_extension("nmc");
    assert!(paths.len() >= 90, "only {} captures found", paths.len());
    let (mut line_bytes, mut bad) = (0, 0);
    for path in paths {
        let capture = fs::read(&path).expect("a readable capture");
        let exported = of_file("export", &path);
        assert_eq!(exported, model::monitor_export(&capture), "{path:?}");
        let (text, said) = exported;
        let records = line_records(&capture);
        assert_eq!(of_input("import", &text), (records.clone(), String::new()), "{path:?}");
        line_bytes += records.len() / 3;
        bad += usize::from(!said.is_empty());
    }
    assert!(line_bytes > 3000 && bad >= 8, "{line_bytes} line bytes, {bad} captures with a bad record");
}

/// As the README has it: a file of the modules, then the imported records, piped into replay.
#[test]
fn imported_text_behind_its_modules_replays_as_the_capture() {
    let mut replayed = 0;
    for path in captures::with_extension("nmc") {
        let capture = fs::read(&path).expect("a readable capture");
        let lines = line_records(&capture);
        let modules = capture.len().saturating_sub(lines.len());
        let only_modules = capture[..modules].chunks(2).all(|record| record[0] == 0);
        if lines.is_empty() || capture[modules..] != lines || !only_modules {
            continue;
        }
        let (text, said) = of_file("export", &path);
        assert_eq!(said, "", "{path:?}");
        let printed = Command::new("sh")
            .args(["-c", r#"{ cat "$0"; "$1" import "$2"; } | "$3""#])
            .arg(file("modules.nmc", &capture[..modules]))
            .arg(programs::built("monitor"))
            .arg(file("capture.txt", &text))
            .arg(programs::built("replay"))
            .output()
            .expect("a shell");
        assert_eq!(String::from_utf8_lossy(&printed.stderr), "", "{path:?}");
        let expected = fs::read_to_string(path.with_extension("out")).expect("an .out beside each .nmc");
        assert_eq!(String::from_utf8_lossy(&printed.stdout), expected, "{path:?}");
        replayed += usize::from(!expected.is_empty());
    }
    assert!(replayed >= 10, "only {replayed} captures of modules and line bytes print anything");
}

#[test]
fn whatever_is_exported_is_imported_back() {
    let mut dice = Dice::new(0x3017_000A);
    for len in [1, 16, 1000, 50_000] {
        let line = some_line(&mut dice, len, 10);
        let (text, said) = of_input("export", &records(&line));
        assert_eq!(said, "");
        same(&of_input("import", &text), &(records(&line), String::new()), &format!("{len} bytes"));
    }
}

// ---------------------------------------------------------------- what fails

const USAGE: &str = "usage: monitor import [TEXT]\n       monitor export [RECORDS]\n";

#[test]
fn wrong_usage_is_told() {
    let text = file("usage.txt", b"AA\n");
    let text = text.to_str().expect("a plain path");
    for arguments in [
        &[][..],
        &[""],
        &["imports"],
        &["Import"],
        &["impor"],
        &["exported"],
        &["-h"],
        &[text],
        &[text, "import"],
        &["import", text, text],
        &["export", text, text],
        &["import", text, text, text],
    ] {
        let mut command = Command::new(programs::built("monitor"));
        let output = command.args(arguments).stdin(Stdio::null()).output().expect("the program runs");
        assert_eq!(told(output), (vec![], USAGE.to_string()), "{arguments:?}");
    }
}

#[test]
fn program_tells_where_it_cannot_read() {
    let missing = captures::folder().join("there-is-no-such.txt");
    for direction in DIRECTIONS {
        let said = format!("{}: No such file or directory\n", missing.display());
        assert_eq!(of_file(direction, &missing), (vec![], said));
        assert_eq!(of_file(direction, &captures::folder()), (vec![], "read: Is a directory\n".to_string()));
    }
}

#[test]
fn program_tells_where_it_cannot_write() {
    let mut dice = Dice::new(0x3017_000B);
    for direction in DIRECTIONS {
        let path = file(&format!("full-{direction}"), &some_input(&mut dice, direction, 300_000));
        let full = fs::OpenOptions::new().write(true).open("/dev/full").expect("the device that is always full");
        let output = monitor(direction).arg(path).stdout(full).output().expect("the program runs");
        // once: it ends there
        assert_eq!(told(output).1, "write: No space left on device\n");
    }
}
