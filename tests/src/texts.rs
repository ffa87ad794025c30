//! Captures of the line monitor by dice: as texts of any case and line length, as records, and with something wrong with
//! them. Library and model take them side by side, and all that was lent is compared.

use crate::calls::*;
use crate::dice::Dice;
use crate::record::Model;
use crate::slips::Slip;
use crate::steering::buffer::Line;

/// Line bytes of which so many in a hundred are marked.
pub fn some_line(dice: &mut Dice, len: usize, marked: usize) -> Line {
    let marks = (0..len).map(|_| u8::from(dice.percent(marked))).collect();
    Line { bytes: dice.bytes(len), marks }
}

pub fn records(line: &Line) -> Vec<u8> {
    line.marks.iter().zip(&line.bytes).flat_map(|(mark, byte)| [1, *mark, *byte]).collect()
}

/// The line as a monitor may write it: letters of any case, and no more bytes on a line than that.
pub fn some_text(dice: &mut Dice, line: &Line, most_on_line: usize) -> Vec<u8> {
    let mut text = Vec::with_capacity(4 * line.len());
    let mut left = 1 + dice.below(most_on_line);
    for (at, (mark, byte)) in line.marks.iter().zip(&line.bytes).enumerate() {
        let digits = format!("{byte:02X}");
        text.extend(digits.bytes().map(|digit| if dice.percent(50) { digit.to_ascii_lowercase() } else { digit }));
        text.extend(&b"!"[..usize::from(*mark)]);
        left -= 1;
        let ends = left == 0 || at + 1 == line.len();
        text.push(if ends { b'\n' } else { b' ' });
        if ends {
            left = 1 + dice.below(most_on_line);
        }
    }
    text
}

/// Characters of a text, those next to them, and such as other programs put there.
const CHARACTERS: &[u8] = b"09AFaf !\n/:@G`g\r\t\x0B\0\"\x1F\x80\xC1\xFF";

/// Another character at one place, one more, one less, two exchanged, or cut there.
pub fn spoil_text(dice: &mut Dice, text: &mut Vec<u8>) {
    let at = dice.below(text.len() + 1);
    let other = if dice.percent(80) { dice.pick(CHARACTERS) } else { dice.byte() };
    match dice.below(5) {
        0 => text.insert(at, other),
        _ if at == text.len() => text.truncate(at.saturating_sub(1)),
        1 => drop(text.remove(at)),
        2 => text.truncate(at),
        3 if at > 0 => text.swap(at - 1, at),
        _ => text[at] = other,
    }
}

/// Another kind, another mark, a byte more or less anywhere, or bytes cut off.
pub fn spoil_records(dice: &mut Dice, records: &mut Vec<u8>) {
    let at = dice.below(records.len() + 1);
    let other = if dice.percent(60) { dice.below(7) as u8 } else { dice.byte() };
    let record = at / 3 * 3;
    match dice.below(5) {
        0 => records.insert(at, other),
        _ if at == records.len() => records.truncate(at.saturating_sub(1 + dice.below(2))),
        1 => drop(records.remove(at)),
        2 => records.truncate(at),
        3 => records[record] = other,
        _ => records[at.min(record + 1)] = other,
    }
}

/// How often each number came.
#[derive(Default)]
pub struct Seen {
    pub imports: [usize; 23],
    pub exports: [usize; 23],
}

struct Pair<'a> {
    library: &'a dyn Calls,
    model: Model,
    dice: Dice,
    seen: Seen,
}

/// All that a call gives back and leaves: number, written, offset, room.
type Left = (u32, usize, usize, Vec<u8>);

fn same(what: &str, lent: &[u8], library: &Left, model: &Left) -> Result<(), String> {
    if library == model {
        return Ok(());
    }
    let shown = String::from_utf8_lossy(&lent[..lent.len().min(200)]);
    Err(format!("{what} of {} bytes, {shown:?}:\nlibrary {library:X?},\nmodel {model:X?}", lent.len()))
}

impl Pair<'_> {
    /// A room as long as is needed, mostly; else a little shorter, longer, or none.
    fn room(&mut self, needed: usize) -> Vec<u8> {
        let len = match self.dice.below(8) {
            0 => needed.saturating_sub(1),
            1 => needed.saturating_sub(1 + self.dice.below(4)),
            2 => self.dice.below(needed + 1),
            3 => needed + 1 + self.dice.below(20),
            _ => needed,
        };
        self.dice.bytes(len)
    }

    fn import(&mut self, text: &[u8], needed: usize) -> Result<(), String> {
        let room = self.room(needed);
        let left = |calls: &dyn Calls, mut room: Vec<u8>| {
            let (mut written, mut offset) = (77, 77);
            let number = calls.import_text(text, &mut room, &mut written, &mut offset);
            (number, written, offset, room)
        };
        let before = text.to_vec();
        let library = left(self.library, room.clone());
        same("import", text, &library, &left(&self.model, room))?;
        if before != text {
            return Err("the import changed its text".to_string());
        }
        self.seen.imports[library.0 as usize] += 1;
        Ok(())
    }

    fn export(&mut self, records: &[u8], needed: usize) -> Result<(), String> {
        let room = self.room(needed);
        let left = |calls: &dyn Calls, mut room: Vec<u8>| {
            let mut written = 77;
            let number = calls.export_text(records, &mut room, &mut written);
            (number, written, 0, room)
        };
        let before = records.to_vec();
        let library = left(self.library, room.clone());
        same("export", records, &library, &left(&self.model, room))?;
        if before != records {
            return Err("the export changed its records".to_string());
        }
        self.seen.exports[library.0 as usize] += 1;
        Ok(())
    }

    /// A capture in both directions, good and spoiled.
    fn round(&mut self) -> Result<(), String> {
        let len = match self.dice.below(4) {
            0 => self.dice.below(4),
            1 => self.dice.below(12) * 16,
            _ => self.dice.below(70),
        };
        let marked = self.dice.pick(&[0, 3, 30, 100]);
        let line = some_line(&mut self.dice, len, marked);
        let marks = line.marks.iter().filter(|mark| **mark == 1).count();
        let most_on_line = self.dice.pick(&[1, 3, 16, 20, 60]);
        let mut text = some_text(&mut self.dice, &line, most_on_line);
        self.import(&text, 3 * len)?;
        for _ in 0..1 + self.dice.below(2) {
            spoil_text(&mut self.dice, &mut text);
        }
        self.import(&text, 3 * len)?;
        let mut records = records(&line);
        self.export(&records, 3 * len + marks)?;
        for _ in 0..1 + self.dice.below(2) {
            spoil_records(&mut self.dice, &mut records);
        }
        self.export(&records, 3 * len + marks)
    }
}

/// So many captures through library and model, or where they part.
pub fn run(library: &dyn Calls, slip: Slip, seed: u64, rounds: usize) -> Result<Seen, String> {
    let mut pair = Pair { library, model: Model { slip }, dice: Dice::new(seed), seen: Seen::default() };
    for _ in 0..rounds {
        pair.round()?;
    }
    Ok(pair.seen)
}
