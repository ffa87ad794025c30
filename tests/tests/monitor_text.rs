//! The calls of the line monitor's text: every short text against the grammar itself, every character at every stage of
//! it, long captures, round trips, refusals, and texts by dice against the model.

use std::collections::{HashMap, HashSet};

use doljurven_tests::branches::{self, TEXT};
use doljurven_tests::calls::*;
use doljurven_tests::capi::Library;
use doljurven_tests::dice::Dice;
use doljurven_tests::model;
use doljurven_tests::slips::{self, Slip};
use doljurven_tests::steering::buffer::Line;
use doljurven_tests::texts::{self, records, some_line, some_text, spoil_text};

/// What a lent room holds before a call: no two neighbours alike, so that nothing can be moved unseen.
fn junk(len: usize) -> Vec<u8> {
    (0..len).map(|at| (at % 251) as u8 ^ 0xA5).collect()
}

/// A refusal's number, and the offset that came with it.
type Refusal = (u32, usize);

/// What was written, or the refusal. The room behind what was written stays as it was, all of it if that is nothing.
fn outcome(number: u32, mut room: Vec<u8>, written: usize, offset: usize) -> Result<Vec<u8>, Refusal> {
    assert_eq!(room[written..], junk(room.len())[written..], "number {number}: the room behind what was written");
    if number != DONE {
        assert_eq!(written, 0, "refusal {number} reported a length");
        return Err((number, offset));
    }
    assert_eq!(offset, 0, "done, and an offset is told");
    room.truncate(written);
    Ok(room)
}

fn import(text: &[u8], room_len: usize) -> Result<Vec<u8>, Refusal> {
    let lent = text.to_vec();
    let (mut room, mut written, mut offset) = (junk(room_len), 77, 77);
    let number = Library.import_text(&lent, &mut room, &mut written, &mut offset);
    assert!(lent == text, "number {number}: the text changed");
    outcome(number, room, written, offset)
}

fn export(records: &[u8], room_len: usize) -> Result<Vec<u8>, Refusal> {
    let lent = records.to_vec();
    let (mut room, mut written) = (junk(room_len), 77);
    let number = Library.export_text(&lent, &mut room, &mut written);
    assert!(lent == records, "number {number}: the records changed");
    outcome(number, room, written, 0)
}

/// With more room than any import or export of so many bytes takes.
fn roomy(len: usize) -> usize {
    2 * len + 9
}

fn imported(text: &[u8]) -> Vec<u8> {
    import(text, roomy(text.len())).unwrap_or_else(|told| panic!("{:?}: {told:?}", String::from_utf8_lossy(text)))
}

fn exported(records: &[u8]) -> Vec<u8> {
    export(records, roomy(records.len())).unwrap_or_else(|told| panic!("{records:02X?}: {told:?}"))
}

const BAD_KINDS_OR_MARKS: Result<Vec<u8>, Refusal> = Err((BAD_RECORDS, 0));
const ROOM_TOO_SHORT: Result<Vec<u8>, Refusal> = Err((SHORT_ROOM, 0));

// ---------------------------------------------------------------- the grammar itself

/// A part of a text, and the records of its bytes.
type Part = (Vec<u8>, Vec<u8>);

fn behind((text, records): &Part, between: &[u8], (more, more_records): &Part) -> Part {
    ([text, between, more].concat(), [&records[..], more_records].concat())
}

/// One such part or more with that between two of them, of at most so many characters.
fn in_a_row(parts: &[Part], between: &[u8], most: usize) -> Vec<Part> {
    let mut rows: Vec<Part> = parts.to_vec();
    let mut from = 0;
    while from < rows.len() {
        let longer: Vec<Part> = parts.iter().map(|part| behind(&rows[from], between, part)).collect();
        rows.extend(longer.into_iter().filter(|(text, _)| text.len() <= most));
        from += 1;
    }
    rows
}

/// All texts of at most so many characters with these digits, put together as the grammar says.
fn good_texts(digits: &[u8], most: usize) -> HashMap<Vec<u8>, Vec<u8>> {
    let mut bytes: Vec<Part> = Vec::new();
    for high in digits {
        for low in digits {
            let digits = [*high, *low];
            let value = u8::from_str_radix(std::str::from_utf8(&digits).expect("digits"), 16).expect("a byte");
            bytes.push((digits.to_vec(), vec![1, 0, value]));
            bytes.push(([&digits[..], b"!"].concat(), vec![1, 1, value]));
        }
    }
    let newline = (b"\n".to_vec(), Vec::new());
    let lines: Vec<Part> = in_a_row(&bytes, b" ", most - 1).iter().map(|line| behind(line, b"", &newline)).collect();
    let mut texts: HashMap<Vec<u8>, Vec<u8>> = in_a_row(&lines, b"", most).into_iter().collect();
    texts.insert(Vec::new(), Vec::new());
    texts
}

/// The text of that number among all those of a length.
fn nth_text(alphabet: &[u8], len: usize, mut number: usize) -> Vec<u8> {
    let mut text = vec![0; len];
    for character in &mut text {
        *character = alphabet[number % alphabet.len()];
        number /= alphabet.len();
    }
    text
}

/// No parser: the offset is the least k such that no good text begins with the first k + 1 characters, looked up among
/// all that good texts begin with. A text that can go on at all does so by three characters at most.
#[test]
fn every_short_text_is_taken_or_refused_as_the_grammar_says() {
    const MOST: usize = 7;
    let alphabet = b"Aa1 \n!g";
    let good = good_texts(b"Aa1", MOST + 3);
    let begins: HashSet<&[u8]> = good.keys().flat_map(|text| (0..=text.len()).map(move |len| &text[..len])).collect();
    let (mut taken, mut refused) = (0, 0);
    for len in 0..=MOST {
        for number in 0..alphabet.len().pow(len as u32) {
            let text = nth_text(alphabet, len, number);
            if let Some(records) = good.get(&text) {
                assert_eq!(import(&text, records.len()).as_ref(), Ok(records), "{text:?}");
                if !records.is_empty() {
                    assert_eq!(import(&text, records.len() - 1), ROOM_TOO_SHORT, "{text:?}");
                }
                taken += 1;
            } else {
                let fault = (0..len).find(|k| !begins.contains(&text[..=*k])).unwrap_or(len);
                assert_eq!(import(&text, 3 * len), Err((BAD_TEXT, fault)), "{text:?}");
                assert_eq!(import(&text, 0), Err((BAD_TEXT, fault)), "{text:?}");
                refused += 1;
            }
        }
    }
    assert_eq!((taken, taken + refused), (505, 960_800));
}

const DIGITS: &[u8] = b"0123456789ABCDEFabcdef";

/// The same over all 256 characters, by hand: what may stand behind each stage of a text, and how it goes on from there.
#[test]
fn every_character_at_every_stage() {
    let stages: [(&[u8], &[u8]); 12] = [
        (b"", DIGITS),
        (b"A", DIGITS),
        (b"Aa", b"! \n"),
        (b"Aa!", b" \n"),
        (b"Aa ", DIGITS),
        (b"Aa! ", DIGITS),
        (b"Aa! 0", DIGITS),
        (b"Aa 00", b"! \n"),
        (b"Aa 00!", b" \n"),
        (b"Aa\n", DIGITS),
        (b"Aa!\n9", DIGITS),
        (b"Aa\n99", b"! \n"),
    ];
    for (before, may_stand) in stages {
        let in_byte = before.iter().rev().take_while(|character| DIGITS.contains(character)).count();
        for character in 0..=255 {
            let text = [before, &[character]].concat();
            if !may_stand.contains(&character) {
                for rest in [&b""[..], b"\n", b"0\n", b"00\n", b" 00\n"] {
                    let told = import(&[&text, rest].concat(), 100);
                    assert_eq!(told, Err((BAD_TEXT, before.len())), "{text:?}, then {rest:?}");
                }
                continue;
            }
            let rest: &[u8] = match character {
                b'\n' => b"",
                b'!' => b"\n",
                b' ' => b"00\n",
                _ if in_byte == 0 => b"0\n",
                _ => b"\n",
            };
            let whole = [&text, rest].concat();
            let bytes = whole.iter().filter(|character| DIGITS.contains(character)).count() / 2;
            assert_eq!(imported(&whole).len(), 3 * bytes, "{whole:?}");
            for len in text.len()..whole.len() {
                assert_eq!(import(&whole[..len], 100), Err((BAD_TEXT, len)), "{whole:?} breaks off at {len}");
            }
        }
    }
}

#[test]
fn every_pair_of_digits() {
    // the small letters stand behind the capitals
    let value = |at: usize| if at < 16 { at as u8 } else { at as u8 - 6 };
    for (high_at, high) in DIGITS.iter().enumerate() {
        for (low_at, low) in DIGITS.iter().enumerate() {
            let byte = 16 * value(high_at) + value(low_at);
            assert_eq!(imported(&[*high, *low, b'\n']), [1, 0, byte]);
            assert_eq!(imported(&[*high, *low, b'!', b'\n']), [1, 1, byte]);
        }
    }
    for byte in 0..=255 {
        assert_eq!(exported(&[1, 0, byte]), format!("{byte:02X}\n").as_bytes());
        assert_eq!(exported(&[1, 1, byte]), format!("{byte:02X}!\n").as_bytes());
    }
}

// ---------------------------------------------------------------- by hand

#[test]
fn texts_at_fault_by_hand() {
    for (text, offset) in [
        ("A", 1),
        ("AA", 2),
        ("AA!", 3),
        ("AA ", 3),
        ("AA 0", 4),
        ("AA\n0", 4),
        ("AA\n00", 5),
        ("\n", 0),
        (" AA\n", 0),
        ("!AA\n", 0),
        ("A A\n", 1),
        ("A!\n", 1),
        ("AA \n", 3),
        ("AA! \n", 4),
        ("AA !\n", 3),
        ("AA!!\n", 3),
        ("AA  00\n", 3),
        ("AA\t00\n", 2),
        ("AA00\n", 2),
        ("AA!00\n", 3),
        ("AA\r\n", 2),
        ("AA!\r\n", 3),
        ("AA\n\n", 3),
        ("AA\n\n00\n", 3),
        ("AA\n \n", 3),
        ("AA\n00 \n", 6),
        ("AA\n00\nGG\n", 6),
        ("AA\n00\n0x\n", 7),
        ("AA\n00\n\0", 6),
        ("AA\u{1A}", 2),
        ("\u{FEFF}AA\n", 0),
    ] {
        assert_eq!(import(text.as_bytes(), 100), Err((BAD_TEXT, offset)), "{text:?}");
    }
    assert_eq!(imported(b""), []);
    assert_eq!(imported(b"aA 01! ff\n7F!\n"), [1, 0, 0xAA, 1, 1, 0x01, 1, 0, 0xFF, 1, 1, 0x7F]);
}

/// Bytes 0, 1, 2 and so on, of which every seventh is marked if any is.
fn counted(len: usize, marked: bool) -> Line {
    let marks = (0..len).map(|at| u8::from(marked && at % 7 == 6)).collect();
    Line { bytes: (0..len).map(|at| at as u8).collect(), marks }
}

#[test]
fn sixteen_bytes_a_line_by_hand() {
    let sixteen = "00 01 02 03 04 05 06 07 08 09 0A 0B 0C 0D 0E 0F\n";
    let sixteen_more = "10 11 12 13 14 15 16 17 18 19 1A 1B 1C 1D 1E 1F\n";
    for (len, text) in [
        (0, String::new()),
        (1, "00\n".to_string()),
        (2, "00 01\n".to_string()),
        (15, sixteen.replace(" 0F", "")),
        (16, sixteen.to_string()),
        (17, format!("{sixteen}10\n")),
        (31, format!("{sixteen}{}", sixteen_more.replace(" 1F", ""))),
        (32, format!("{sixteen}{sixteen_more}")),
        (33, format!("{sixteen}{sixteen_more}20\n")),
    ] {
        let records = records(&counted(len, false));
        assert_eq!(export(&records, text.len()), Ok(text.clone().into_bytes()), "{len} bytes");
        assert_eq!(imported(text.as_bytes()), records);
        let lower = text.to_lowercase();
        assert_eq!(imported(lower.as_bytes()), records);
    }
    let marked = records(&counted(17, true));
    assert_eq!(exported(&marked), b"00 01 02 03 04 05 06! 07 08 09 0A 0B 0C 0D! 0E 0F\n10\n");
}

/// Any number of bytes on a line, and any number of lines.
#[test]
fn lines_of_any_length_are_imported() {
    for len in [1, 15, 16, 17, 31, 32, 33, 256, 10_000] {
        for marked in [false, true] {
            let line = counted(len, marked);
            let normal = exported(&records(&line));
            let on_one: Vec<u8> = normal.iter().map(|c| if *c == b'\n' { b' ' } else { *c }).collect();
            let (one_a_line, on_one) = (
                normal.iter().map(|c| if *c == b' ' { b'\n' } else { *c }).collect::<Vec<u8>>(),
                [&on_one[..on_one.len() - 1], b"\n"].concat(),
            );
            for text in [&normal, &one_a_line, &on_one] {
                assert!(imported(text) == records(&line), "{len} bytes, {} lines", text.split(|c| *c == b'\n').count());
            }
        }
    }
}

// ---------------------------------------------------------------- rooms and lengths

fn marks(line: &Line) -> usize {
    line.marks.iter().filter(|mark| **mark == 1).count()
}

#[test]
fn room_is_as_long_as_the_output_or_refused() {
    let mut dice = Dice::new(0x7E_0001);
    for len in [1, 2, 15, 16, 17, 31, 32, 33, 100] {
        for marked in [0, 20, 100] {
            let line = some_line(&mut dice, len, marked);
            let (text, records) = (some_text(&mut dice, &line, 20), records(&line));
            let normal_len = 3 * len + marks(&line);
            for more in [0, 1, 50] {
                assert_eq!(import(&text, 3 * len + more), Ok(records.clone()));
                assert_eq!(export(&records, normal_len + more).map(|text| text.len()), Ok(normal_len));
            }
            for room_len in (0..3 * len).rev().take(4).chain([0]) {
                assert_eq!(import(&text, room_len), ROOM_TOO_SHORT, "{len} bytes, room {room_len}");
            }
            for room_len in (0..normal_len).rev().take(4).chain([0]) {
                assert_eq!(export(&records, room_len), ROOM_TOO_SHORT, "{len} bytes, room {room_len}");
            }
        }
    }
    assert_eq!(import(b"", 0), Ok(vec![]));
    assert_eq!(export(b"", 0), Ok(vec![]));
}

/// A bad text or bad records are told whatever the room is.
#[test]
fn room_is_tested_last() {
    let mut dice = Dice::new(0x7E_0002);
    for len in [1, 5, 40] {
        let line = some_line(&mut dice, len, 10);
        let good = some_text(&mut dice, &line, 20);
        for (spoiled, offset) in [
            ([&good[..], b"\n"].concat(), good.len()),
            ([&good[..], b"0"].concat(), good.len() + 1),
            ([b" ", &good[..]].concat(), 0),
        ] {
            for room_len in [0, 1, 3 * len - 1, 3 * len] {
                assert_eq!(import(&spoiled, room_len), Err((BAD_TEXT, offset)), "room {room_len}");
            }
        }
        let good = records(&line);
        for spoiled in [[&good[..], &[1]].concat(), [&good[..], &[0, 0]].concat(), [&good[..], &[1, 2, 0]].concat()] {
            for room_len in [0, 1, 3 * len - 1, 3 * len, 4 * len, 4 * len + 4] {
                assert_eq!(export(&spoiled, room_len), BAD_KINDS_OR_MARKS, "room {room_len}");
            }
        }
    }
}

// ---------------------------------------------------------------- records that are no line bytes

/// Where among so many records a bad one may stand.
fn places(len: usize) -> Vec<usize> {
    let mut places = vec![0, 1, len / 2, len - 2, len - 1];
    places.dedup();
    places
}

#[test]
fn every_other_kind_is_refused() {
    let good = records(&counted(40, true));
    assert_eq!(good.len() % 3, 0);
    for place in places(40) {
        for kind in (0..=255).filter(|kind| *kind != 1) {
            let mut other = good.clone();
            other[3 * place] = kind;
            assert_eq!(export(&other, roomy(other.len())), BAD_KINDS_OR_MARKS, "kind {kind} at {place}");
        }
    }
    // whole records of each kind, alone and behind line bytes
    let body_lengths = [1, 2, 8, 10, 0, 2];
    for (kind, body_length) in body_lengths.iter().enumerate().filter(|(kind, _)| *kind != 1) {
        let record = [vec![kind as u8], vec![0; *body_length]].concat();
        assert_eq!(export(&record, 100), BAD_KINDS_OR_MARKS, "kind {kind}");
        assert_eq!(export(&[&good[..], &record].concat(), 1000), BAD_KINDS_OR_MARKS, "kind {kind}");
        assert_eq!(export(&[&record[..], &good].concat(), 1000), BAD_KINDS_OR_MARKS, "kind {kind}");
    }
}

#[test]
fn every_other_mark_is_refused() {
    let good = records(&counted(40, true));
    for place in places(40) {
        for mark in 2..=255 {
            let mut other = good.clone();
            other[3 * place + 1] = mark;
            assert_eq!(export(&other, roomy(other.len())), BAD_KINDS_OR_MARKS, "mark {mark} at {place}");
        }
    }
}

#[test]
fn cut_records_are_refused_at_each_length() {
    for marked in [false, true] {
        let good = records(&counted(50, marked));
        for len in 0..=good.len() {
            let told = export(&good[..len], roomy(len));
            if len % 3 == 0 {
                assert_eq!(told.map(|text| text.len()), Ok(len + marks(&counted(len / 3, marked))));
            } else {
                assert_eq!(told, BAD_KINDS_OR_MARKS, "{len} bytes");
            }
        }
    }
}

// ---------------------------------------------------------------- long captures and round trips

/// What holds of any text that is taken, the normal form being the model's.
fn holds_of(text: &[u8], line: &Line) {
    let records = records(line);
    let (bytes, marks) = (line.len(), marks(line));
    // compared, not shown: what differs would fill the screen
    assert!(import(text, 3 * bytes).as_ref() == Ok(&records), "import of {bytes} bytes");
    assert_eq!(records.len(), text.len() - text.iter().filter(|character| **character == b'!').count());
    let normal = export(&records, 3 * bytes + marks).expect("line bytes");
    assert_eq!(normal.len(), records.len() + marks);
    assert!(Some(&normal) == model::export(&records, Slip::None).as_ref(), "export of {bytes} bytes");
    if bytes > 0 {
        assert_eq!(import(text, 3 * bytes - 1), ROOM_TOO_SHORT);
        assert_eq!(export(&records, normal.len() - 1), ROOM_TOO_SHORT);
    }
    assert!(imported(&normal) == records, "the normal form of {bytes} bytes imported");
    assert!(exported(&imported(&normal)) == normal, "the normal form of {bytes} bytes is one");
}

#[test]
fn long_captures_there_and_back() {
    let mut dice = Dice::new(0x7E_0003);
    for (len, marked, most_on_line) in
        [(300_000, 5, 40), (400_000, 50, 16), (250_000, 0, 1), (250_000, 100, 200_000), (262_144, 1, 5000)]
    {
        let line = some_line(&mut dice, len, marked);
        let text = some_text(&mut dice, &line, most_on_line);
        holds_of(&text, &line);
    }
}

#[test]
fn short_captures_there_and_back() {
    let mut dice = Dice::new(0x7E_0004);
    for turn in 0..20_000 {
        let line = some_line(&mut dice, turn % 100, [0, 10, 100][turn % 3]);
        let text = some_text(&mut dice, &line, 1 + turn % 40);
        holds_of(&text, &line);
    }
}

#[test]
fn long_texts_at_fault() {
    let mut dice = Dice::new(0x7E_0005);
    let line = some_line(&mut dice, 200_000, 5);
    let text = some_text(&mut dice, &line, 40);
    for at in [1, 65_535, 65_536, 300_000, text.len() - 2, text.len() - 1] {
        let mut spoiled = text.clone();
        spoiled[at] = b'?';
        assert_eq!(import(&spoiled, 0), Err((BAD_TEXT, at)));
        // behind a newline it would be a text
        let broken_off = text[..at].strip_suffix(b"\n").unwrap_or(&text[..at]);
        assert_eq!(import(broken_off, 0), Err((BAD_TEXT, broken_off.len())));
    }
    for _ in 0..40 {
        let mut spoiled = text.clone();
        spoil_text(&mut dice, &mut spoiled);
        let told = import(&spoiled, roomy(spoiled.len()));
        let expected = model::import(&spoiled, Slip::None).map_err(|offset| (BAD_TEXT, offset));
        assert!(told == expected, "{:?} and {:?}", told.err(), expected.err());
    }
}

// ---------------------------------------------------------------- by dice

const SEED: u64 = 0x7E_0006;

#[test]
fn library_and_model_agree_on_texts_by_dice() {
    let seen = texts::run(&Library, Slip::None, SEED, 150_000).unwrap_or_else(|told| panic!("{told}"));
    for number in [DONE, SHORT_ROOM, BAD_TEXT] {
        assert!(seen.imports[number as usize] > 10_000, "imports by number {:?}", seen.imports);
    }
    for number in [DONE, SHORT_ROOM, BAD_RECORDS] {
        assert!(seen.exports[number as usize] > 10_000, "exports by number {:?}", seen.exports);
    }
    for (branch, words) in TEXT {
        assert!(branches::times(*branch) > 500, "{words}: {}", branches::times(*branch));
    }
}

#[test]
fn texts_by_dice_notice_every_slip() {
    assert!(slips::TEXT.len() >= 40);
    let missed: Vec<&str> = slips::TEXT
        .iter()
        .filter(|(slip, _)| texts::run(&Library, *slip, SEED, 20_000).is_ok())
        .map(|(_, words)| *words)
        .collect();
    assert!(missed.is_empty(), "nobody noticed that {missed:?}");
}
