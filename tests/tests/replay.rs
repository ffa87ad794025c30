//! The replay program, the captures that ship with the project, and the model's replay.

use doljurven_tests::branches::{self, REPLAY};
use doljurven_tests::calls::Calls;
use doljurven_tests::capi::Library;
use doljurven_tests::captures::{self, Capture};
use doljurven_tests::dice::Dice;
use doljurven_tests::model::{self, frame_bytes};
use doljurven_tests::programs;
use doljurven_tests::record::Model;
use doljurven_tests::slips::{self, Slip};
use std::ffi::OsString;
use std::fs;
use std::io::Write;
use std::path::{Path, PathBuf};
use std::process::{Command, Stdio};

fn program() -> OsString {
    programs::built("replay")
}

fn printed(command: &mut Command) -> String {
    let output = command.output().expect("the replay program runs");
    assert!(output.stderr.is_empty(), "{}", String::from_utf8_lossy(&output.stderr));
    String::from_utf8(output.stdout).expect("plain text")
}

fn replay_of_file(path: &Path) -> String {
    printed(Command::new(program()).arg(path))
}

fn replay_of_standard_input(bytes: &[u8]) -> String {
    let mut child =
        Command::new(program()).stdin(Stdio::piped()).stdout(Stdio::piped()).spawn().expect("the replay program runs");
    let mut input = child.stdin.take().expect("a pipe");
    let bytes = bytes.to_vec();
    // a bad record ends the program before it has read all; what it left in the pipe is no fault
    let writer = std::thread::spawn(move || drop(input.write_all(&bytes)));
    let output = child.wait_with_output().expect("the replay program ends");
    writer.join().expect("the writer ends");
    String::from_utf8(output.stdout).expect("plain text")
}

fn all_captures() -> Vec<(PathBuf, Capture)> {
    let texts = captures::with_extension("txt");
    assert!(texts.len() >= 90, "only {} captures found", texts.len());
    let parsed = texts.into_iter().map(|path| {
        let text = fs::read_to_string(&path).expect("a readable text");
        let capture = captures::parse(&text).unwrap_or_else(|told| panic!("{}: {told}", path.display()));
        (path, capture)
    });
    parsed.collect()
}

#[test]
fn captures_are_what_their_texts_say() {
    for (path, capture) in all_captures() {
        let bytes = fs::read(path.with_extension("nmc")).expect("an .nmc beside each .txt");
        assert_eq!(bytes, capture.bytes, "{}", path.display());
        let printed = fs::read_to_string(path.with_extension("out")).expect("an .out beside each .txt");
        assert_eq!(printed, capture.printed, "{}", path.display());
    }
    for extension in ["nmc", "out"] {
        for path in captures::with_extension(extension) {
            assert!(path.with_extension("txt").exists(), "{} has no text", path.display());
        }
    }
}

#[test]
fn readme_names_every_capture() {
    let readme = fs::read_to_string(captures::folder().join("README.md")).expect("a readable README");
    for path in captures::with_extension("txt") {
        let name = path.file_stem().expect("a name").to_string_lossy();
        assert!(readme.contains(&format!("`{name}`")), "{name} is not in captures/README.md");
    }
}

#[test]
fn model_prints_what_the_captures_expect() {
    for (path, capture) in all_captures() {
        assert_eq!(model::replay(&capture.bytes), capture.printed, "{}", path.display());
    }
    assert!(branches::unreached(REPLAY).is_empty(), "no capture comes to {:?}", branches::unreached(REPLAY));
}

#[test]
fn captures_notice_every_slip_of_a_replay() {
    let captures = all_captures();
    let noticed =
        |slip| captures.iter().any(|(_, capture)| model::replay_with(&capture.bytes, slip) != capture.printed);
    assert!(!noticed(Slip::None));
    assert!(slips::REPLAY.len() >= 6);
    for (slip, words) in slips::REPLAY {
        assert!(noticed(*slip), "no capture notices that {words}");
    }
}

/// Those who play captures by the calls.
const PLAYERS: [(&str, &dyn Calls); 2] = [("library", &Library), ("model", &Model { slip: Slip::None })];

#[test]
fn library_and_model_drive_what_the_captures_say() {
    let mut lines = 0;
    for (path, capture) in all_captures() {
        lines += capture.drives.len();
        for (name, calls) in PLAYERS {
            let told = capture.driven_otherwise(calls);
            assert!(told.is_empty(), "{}, {name}:\n{}", path.display(), told.join("\n"));
        }
    }
    assert!(lines >= 40, "only {lines} lines of all captures say what is driven");
}

#[test]
fn lines_that_say_something_else_than_is_driven_are_told() {
    let texts = [
        ("module 0\ndrives 0 00 00 00 00 00 00 00 00", vec![]),
        ("module 2\ndrives 0 FF 0F 00 00 00 00 00 00\ntick\ndrives 0 FF 0F 00 00 00 00 00 00", vec![]),
        (
            "module 0 2\ndrives 0 00 00 01 00 00 00 00 00\ndrives 1 FF 0F 00 00 00 00 00 00\ndrives 1 FF 0F 00 00 00 00 00 80",
            vec![
                "line 2: the text says 00 00 01 00 00 00 00 00, driven is 00 00 00 00 00 00 00 00",
                "line 4: the text says FF 0F 00 00 00 00 00 80, driven is FF 0F 00 00 00 00 00 00",
            ],
        ),
        ("drives 0 00 00 00 00 00 00 00 00", vec!["line 1: place 0 is not there, or a record cannot be played"]),
        (
            "module 0\ndrives 1 00 00 00 00 00 00 00 00",
            vec!["line 2: place 1 is not there, or a record cannot be played"],
        ),
        (
            "module 0\nservo 0 3 00 00000000 0 # refused\n> bad 2\ndrives 0 00 00 00 00 00 00 00 00",
            vec!["line 4: place 0 is not there, or a record cannot be played"],
        ),
        (
            "module 0\ntick\nmodule 0 # late\n> bad 3\ndrives 0 00 00 00 00 00 00 00 00",
            vec!["line 5: place 0 is not there, or a record cannot be played"],
        ),
    ];
    for (text, expected) in texts {
        let capture = captures::parse(text).expect("good lines");
        for (name, calls) in PLAYERS {
            assert_eq!(capture.driven_otherwise(calls), expected, "{name}: {text}");
        }
    }
}

#[test]
fn drives_lines_that_say_no_place_with_eight_bytes_are_told() {
    for (line, told) in [
        ("drives", "\"\" is no place with eight bytes"),
        ("drives 0", "\"0\" is no place with eight bytes"),
        ("drives 0 1 2 3 4 5 6 7", "\"0 1 2 3 4 5 6 7\" is no place with eight bytes"),
        ("drives 0 1 2 3 4 5 6 7 8 9", "\"0 1 2 3 4 5 6 7 8 9\" is no place with eight bytes"),
        ("drives 0 1 2 3 4 5 6 7 100", "100 is no byte"),
        ("drives 0 1 2 3 x 5 6 7 8", "x is no hex number"),
        ("drives A 1 2 3 4 5 6 7 8", "A is no number below 256"),
        ("drives 256 1 2 3 4 5 6 7 8", "256 is no number below 256"),
        ("driven 0 1 2 3 4 5 6 7 8", "\"driven 0 1 2 3 4 5 6 7 8\" is no record"),
    ] {
        let parsed = captures::parse(&format!("module 0\n\n{line} # here\ntick\n"));
        assert_eq!(parsed.err(), Some(format!("line 3: {told}")), "{line}");
    }
}

#[test]
fn program_prints_what_the_captures_expect() {
    for path in captures::with_extension("nmc") {
        let expected = fs::read_to_string(path.with_extension("out")).expect("an .out beside each .nmc");
        assert_eq!(replay_of_file(&path), expected, "{}", path.display());
    }
}

#[test]
fn program_reads_standard_input_too() {
    let path = captures::folder().join("thirty-two-modules.nmc");
    let bytes = fs::read(&path).expect("the capture of 32 modules");
    let expected = fs::read_to_string(path.with_extension("out")).expect("its .out");
    assert_eq!(replay_of_standard_input(&bytes), expected);
    assert_eq!(replay_of_standard_input(&[]), "");
}

/// What the program says on standard error, where it is to say something.
fn told(command: &mut Command) -> (String, String) {
    let output = command.output().expect("the replay program runs");
    let text = |bytes| String::from_utf8(bytes).expect("plain text");
    (text(output.stdout), text(output.stderr))
}

#[test]
fn program_tells_where_it_cannot_write() {
    let full = fs::OpenOptions::new().write(true).open("/dev/full").expect("the device that is always full");
    let capture = captures::folder().join("groups-and-leaders.nmc");
    let (_, said) = told(Command::new(program()).arg(capture).stdout(full));
    // once: the replay ends there
    assert_eq!(said, "write: No space left on device\n");
}

#[test]
fn program_tells_where_it_cannot_read() {
    let missing = captures::folder().join("there-is-no-such.nmc");
    let (printed, said) = told(Command::new(program()).arg(&missing));
    assert_eq!((printed.as_str(), said), ("", format!("{}: No such file or directory\n", missing.display())));
    let (printed, said) = told(Command::new(program()).arg(captures::folder()));
    assert_eq!((printed.as_str(), said.as_str()), ("", "read: Is a directory\n"));
}

#[test]
fn program_with_two_names_says_how_it_is_used() {
    let capture = captures::folder().join("no-op.nmc");
    let (printed, said) = told(Command::new(program()).args([&capture, &capture]));
    assert_eq!((printed.as_str(), said.as_str()), ("", "usage: replay [CAPTURE]\n"));
}

/// A command that a module of this type knows, with data that it can often take.
fn command(dice: &mut Dice, module_type: u8) -> (u8, Vec<u8>) {
    match module_type {
        0 => servo_command(dice),
        2 => {
            let (code, count) = dice.pick(&[(0, 2), (2, 1), (3, 1), (5, 0), (6, 2), (7, 4), (12, 0), (14, 0)]);
            (code, dice.bytes(count))
        }
        _ => stepper_command(dice),
    }
}

fn stepper_command(dice: &mut Dice) -> (u8, Vec<u8>) {
    let code = dice.pick(&[2, 3, 3, 4, 4, 4, 5, 5, 6, 7, 7, 14]);
    let data = match code {
        2 | 3 => vec![dice.pick(&[0x00, 0x01, 0x20, 0x21, 0x21, 0xFF])],
        4 => vec![dice.pick(&[0x06, 0x16, 0x86, 0x96]), 1 + dice.below(20) as u8, 1 + dice.below(3) as u8],
        6 => vec![0, dice.below(8) as u8, 0, 0, 0],
        7 => vec![dice.pick(&[0, 1, 4, 8, 9, 9, 12])],
        _ => Vec::new(),
    };
    (code, data)
}

fn servo_command(dice: &mut Dice) -> (u8, Vec<u8>) {
    let low = |dice: &mut Dice| u32::from(dice.byte()).to_le_bytes();
    let code = dice.pick(&[0, 2, 3, 4, 4, 4, 5, 5, 6, 7, 9, 9, 11, 11, 14]);
    let data = match code {
        2 | 3 => dice.bytes(1),
        4 => {
            let control = dice.pick(&[0x17, 0x97, 0x36, 0xB6, 0xF6, 0x11, 0x91]);
            let mut data = vec![control];
            for bit in 0..3 {
                if control >> bit & 1 == 1 {
                    // the third byte of a speed counts whole counts
                    let number = low(dice);
                    data.extend(if bit == 0 { number } else { [number[1], 1, number[0] & 7, 0] });
                }
            }
            data
        }
        6 => vec![0, 1, 0, 1, 0, 0, 0, 0, 255, 0, 0xFF, 0x3F, 1, 0, 1],
        7 => vec![dice.pick(&[1, 2, 5, 9, 6])],
        9 => vec![dice.pick(&[0x01, 0x02, 0x03, 0x05, 0x11, 0x12, 0x13, 0x21, 0x23, 0x31])],
        _ => Vec::new(),
    };
    (code, data)
}

/// A good sample: a motor that hardly moves, mostly with power, and limit inputs that are often the same; any inputs;
/// mostly no stop input.
fn sample_record(dice: &mut Dice, place: u8, module_type: u8) -> Vec<u8> {
    match module_type {
        0 => {
            let power = dice.pick(&[0, 1, 1, 1, 1, 2]);
            vec![2, place, power, dice.byte(), dice.byte(), 0, 0, 0, dice.pick(&[0, 0, 0, 1, 2, 3])]
        }
        2 => [vec![3, place, dice.byte(), dice.byte() & 15], dice.bytes(7)].concat(),
        _ => vec![5, place, u8::from(dice.percent(15))],
    }
}

/// A long capture: a chain of all types addressed, then frames, samples and ticks.
fn long_capture(dice: &mut Dice, records: usize) -> Vec<u8> {
    let mut types = vec![0, 2, 3];
    types.rotate_left(dice.below(3));
    types.extend((0..dice.below(4)).map(|_| dice.pick(&[0, 2, 3])));
    let modules = types.len();
    let mut file = Vec::new();
    for module_type in &types {
        file.extend([0, *module_type]);
    }
    let line = |file: &mut Vec<u8>, bytes: &[u8]| {
        for byte in bytes {
            file.extend([1, 0, *byte]);
        }
    };
    for place in 0..modules {
        line(&mut file, &frame_bytes(0, 1, &[place as u8 + 1, dice.pick(&[0xFF, 0x7F])]));
    }
    for _ in 0..records {
        match dice.below(8) {
            0 => file.push(4),
            1 => {
                let place = dice.below(modules);
                file.extend(sample_record(dice, place as u8, types[place]));
            }
            _ => {
                let place = dice.below(modules);
                let address = if dice.percent(30) { 0xFF } else { 1 + place as u8 };
                let (code, data) = command(dice, types[place]);
                let mut bytes = frame_bytes(address, code, &data);
                let last = bytes.len() - 1;
                bytes[last] ^= u8::from(dice.percent(10));
                line(&mut file, &bytes);
            }
        }
    }
    file
}

#[test]
fn program_agrees_with_the_model_on_long_captures() {
    let mut dice = Dice::new(0x5EED_0003);
    for records in [300, 3000, 30_000] {
        let file = long_capture(&mut dice, records);
        let expected = model::replay(&file);
        assert!(expected.lines().count() > records / 4, "too little printed to tell anything");
        // compared, not shown: what differs would fill the screen
        assert!(replay_of_standard_input(&file) == expected, "{} bytes", file.len());
    }
}

#[test]
fn program_agrees_with_the_model_wherever_a_capture_is_cut_or_spoiled() {
    let mut dice = Dice::new(0x5EED_0004);
    let file = long_capture(&mut dice, 900);
    let mut bad = 0;
    for turn in 0..400 {
        let mut spoiled = file.clone();
        match turn % 3 {
            0 => spoiled.truncate(dice.below(file.len())),
            1 => {
                let at = dice.below(file.len());
                spoiled[at] = dice.byte();
            }
            // around the powers of two that a buffer may have for its length
            _ => spoiled.truncate((1 << (8 + turn % 5)) + turn % 7 - 3),
        }
        let expected = model::replay(&spoiled);
        bad += usize::from(expected.lines().last().map_or(false, |line| line.starts_with("bad ")));
        assert!(replay_of_standard_input(&spoiled) == expected, "turn {turn}, {} bytes", spoiled.len());
    }
    assert!(bad > 100, "only {bad} of the spoiled captures were bad");
}
