//! Captures as text. A capture's `.txt` says both the bytes of its `.nmc` and what replaying them prints, its `.out`. It
//! may say besides what a module drives, which no replay prints:
//!
//! ```text
//! module 2 2                       types, place 0 first (kind 0)
//! line AA 01 0E 0F!                line bytes in hex, ! after one with a framing error (kind 1)
//! servo 0 1 80 00001234 0          place, then power, A/D, raw count and limit inputs in hex (kind 2)
//! sample 0 FFF 10 20 30 DEADBEEF   place, then inputs, A/D 1 to 3 and counter in hex (kind 3)
//! tick                             (kind 4)
//! stepper 0 1                      place, then stop input in hex (kind 5)
//! raw 01 00                        bytes as they stand, for what is cut or impossible
//! > 0 00 00                        a line that is printed here
//! drives 0 32 00 01 00 00 00 00 00 place, then the eight bytes of what it drives here in hex
//! ```
//!
//! A `#` begins a comment.

use crate::calls::*;
use crate::model::{Event, Record};
use std::fs;
use std::path::{Path, PathBuf};

pub struct Capture {
    pub bytes: Vec<u8>,
    pub printed: String,
    pub drives: Vec<Drives>,
}

/// What a line of the text says of a place, once the records before it have been played.
pub struct Drives {
    line: usize,
    /// Bytes of those records.
    played: usize,
    place: u8,
    outputs: [u8; 8],
}

fn hex(word: &str) -> Result<u32, String> {
    u32::from_str_radix(word, 16).map_err(|_| format!("{word} is no hex number"))
}

fn hex_byte(word: &str) -> Result<u8, String> {
    u8::try_from(hex(word)?).map_err(|_| format!("{word} is no byte"))
}

fn decimal_byte(word: &str) -> Result<u8, String> {
    word.parse().map_err(|_| format!("{word} is no number below 256"))
}

fn records(line: &str) -> Result<Vec<u8>, String> {
    let words: Vec<&str> = line.split_whitespace().collect();
    let mut bytes = Vec::new();
    match words[..] {
        ["module", ref types @ ..] if !types.is_empty() => {
            for module_type in types {
                bytes.extend([0, decimal_byte(module_type)?]);
            }
        }
        ["line", ref on_line @ ..] if !on_line.is_empty() => {
            for word in on_line {
                let unmarked = word.trim_end_matches('!');
                bytes.extend([1, u8::from(unmarked != *word), hex_byte(unmarked)?]);
            }
        }
        ["servo", place, power, ad, raw, inputs] => {
            bytes.extend([2, decimal_byte(place)?, hex_byte(power)?, hex_byte(ad)?]);
            bytes.extend(hex(raw)?.to_le_bytes());
            bytes.push(hex_byte(inputs)?);
        }
        ["sample", place, inputs, ad1, ad2, ad3, counter] => {
            let inputs = u16::try_from(hex(inputs)?).map_err(|_| format!("{inputs} is more than two bytes"))?;
            bytes.extend([3, decimal_byte(place)?]);
            bytes.extend(inputs.to_le_bytes());
            bytes.extend([hex_byte(ad1)?, hex_byte(ad2)?, hex_byte(ad3)?]);
            bytes.extend(hex(counter)?.to_le_bytes());
        }
        ["tick"] => bytes.push(4),
        ["stepper", place, stop] => bytes.extend([5, decimal_byte(place)?, hex_byte(stop)?]),
        ["raw", ref raw @ ..] if !raw.is_empty() => {
            for word in raw {
                bytes.push(hex_byte(word)?);
            }
        }
        _ => return Err(format!("\"{line}\" is no record")),
    }
    Ok(bytes)
}

fn place_and_outputs(said: &str) -> Result<(u8, [u8; 8]), String> {
    let words: Vec<&str> = said.split_whitespace().collect();
    if words.len() != 9 {
        return Err(format!("\"{said}\" is no place with eight bytes"));
    }
    let mut outputs = [0; 8];
    for (output, word) in outputs.iter_mut().zip(&words[1..]) {
        *output = hex_byte(word)?;
    }
    Ok((decimal_byte(words[0])?, outputs))
}

pub fn parse(text: &str) -> Result<Capture, String> {
    let mut capture = Capture { bytes: Vec::new(), printed: String::new(), drives: Vec::new() };
    for (number, line) in text.lines().enumerate() {
        let number = number + 1;
        let line = line.split('#').next().unwrap_or("").trim();
        let in_line = |told| format!("line {number}: {told}");
        if let Some(printed) = line.strip_prefix('>') {
            capture.printed.push_str(printed.trim());
            capture.printed.push('\n');
        } else if let Some(said) = line.strip_prefix("drives") {
            let (place, outputs) = place_and_outputs(said.trim()).map_err(in_line)?;
            capture.drives.push(Drives { line: number, played: capture.bytes.len(), place, outputs });
        } else if !line.is_empty() {
            capture.bytes.extend(records(line).map_err(in_line)?);
        }
    }
    Ok(capture)
}

impl Capture {
    /// Plays the records by these calls, and tells each line of the text by which a module drives something else.
    pub fn driven_otherwise(&self, calls: &dyn Calls) -> Vec<String> {
        let mut board = Board { calls, types: Vec::new(), samples: Vec::new(), net: Vec::new() };
        let mut otherwise = Vec::new();
        let mut played = 0;
        for Drives { line, played: until, place, outputs } in &self.drives {
            let found = board.play(&self.bytes[played..*until]).and_then(|()| board.drives(*place));
            played = *until;
            match found {
                Some(found) if found == *outputs => {}
                Some(found) => {
                    let [said, found] =
                        [*outputs, found].map(|bytes| bytes.map(|byte| format!("{byte:02X}")).join(" "));
                    otherwise.push(format!("line {line}: the text says {said}, driven is {found}"));
                }
                None => {
                    otherwise.push(format!("line {line}: place {place} is not there, or a record cannot be played"));
                    break;
                }
            }
        }
        otherwise
    }
}

/// A network behind the calls, on which records are played.
struct Board<'a> {
    calls: &'a dyn Calls,
    types: Vec<u8>,
    /// The list of the next tick.
    samples: Vec<u8>,
    /// Empty until all modules are known.
    net: Vec<u8>,
}

impl Board<'_> {
    fn set_up(&mut self) -> Option<()> {
        if self.net.is_empty() {
            self.net = vec![0; NET_LEN];
            return done(self.calls.setup(&mut self.net, &self.types));
        }
        Some(())
    }

    /// Nothing where a record is bad.
    fn play(&mut self, mut records: &[u8]) -> Option<()> {
        while !records.is_empty() {
            let (record, length) = Record::first(records)?;
            match record {
                Record::Module(_) if !self.net.is_empty() => return None,
                Record::Module(module_type) => {
                    self.types.push(module_type);
                    self.samples.extend(no_sample(module_type));
                }
                Record::Event(event) => {
                    self.set_up()?;
                    done(self.bring_about(event))?;
                }
            }
            records = &records[length..];
        }
        Some(())
    }

    fn bring_about(&mut self, event: Event) -> u32 {
        match event {
            Event::LineByte { mark, byte } => {
                self.calls.byte(&mut self.net, mark.into(), byte, &mut [0; ROOM_LEN], &mut 0)
            }
            Event::ServoSample { place, power, ad, raw, inputs } => {
                self.gather(place.into(), servo_sample(raw, power, ad, inputs))
            }
            Event::IoSample { place, inputs, ad, counter } => self.gather(place.into(), io_sample(inputs, ad, counter)),
            Event::StepperSample { place, stop } => self.gather(place.into(), stepper_sample(stop)),
            Event::Tick => self.calls.tick(&mut self.net, &self.samples),
        }
    }

    /// Puts a sample into the list, where a tick would take it.
    fn gather(&mut self, place: usize, sample: Sample) -> u32 {
        match self.samples.chunks_exact_mut(SAMPLE_LEN).nth(place) {
            Some(before) => before.copy_from_slice(&sample),
            None => return BAD_PLACE,
        }
        self.calls.tick(&mut self.net.clone(), &self.samples)
    }

    fn drives(&mut self, place: u8) -> Option<[u8; 8]> {
        self.set_up()?;
        let mut outputs = [0xEE; 8];
        done(self.calls.outputs(&self.net, place.into(), &mut outputs))?;
        Some(outputs)
    }
}

/// Nothing where the number tells of a refusal.
fn done(number: u32) -> Option<()> {
    if number <= DAMAGED {
        Some(())
    } else {
        None
    }
}

pub fn folder() -> PathBuf {
    Path::new(env!("CARGO_MANIFEST_DIR")).join("../captures")
}

/// The captures that have a file of this kind, in the order of their names.
pub fn with_extension(extension: &str) -> Vec<PathBuf> {
    let entries = fs::read_dir(folder()).expect("the captures are there");
    let mut paths: Vec<PathBuf> = entries
        .map(|entry| entry.expect("a readable folder").path())
        .filter(|path| path.extension().map_or(false, |found| found == extension))
        .collect();
    paths.sort();
    paths
}
