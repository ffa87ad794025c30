//! The line monitor's text: the line's bytes in hex, an exclamation mark behind one that came with a framing error. A
//! text is cut into lines and these into words; where it is at fault is found by trying how much of it can begin a text.

use super::replay::{Event, Record};
use crate::branches::{all_hold, reach, uncounted, Branch};
use crate::slips::Slip;

const BYTES_A_LINE: usize = 16;
const LINE_BYTE: u8 = 1;

/// A mark, 0 or 1, and the byte that came with it.
type Marked = [u8; 2];

/// What makes a text, perhaps by a wrong rule.
struct Grammar(Slip);

impl Grammar {
    fn digit(&self, character: u8) -> Option<u8> {
        let taken = match self.0 {
            Slip::TextLowerOnly => !character.is_ascii_uppercase(),
            Slip::TextUpperOnly => !character.is_ascii_lowercase(),
            _ => true,
        };
        char::from(character).to_digit(16).filter(|_| taken).map(|digit| digit as u8)
    }

    /// Two digits, and a mark or none.
    fn word(&self, word: &[u8]) -> Option<Marked> {
        let (digits, mark) = match (word, self.0) {
            ([b'!', digits @ ..], Slip::TextMarkBefore) => (digits, 1),
            ([digits @ .., b'!', b'!'], Slip::TextTwoMarksTaken) => (digits, 1),
            (digits, Slip::TextMarkBefore) => (digits, 0),
            ([digits @ .., b'!'], _) => (digits, 1),
            (digits, _) => (digits, 0),
        };
        match *digits {
            [high, low] => Some([mark, self.digit(high)? << 4 | self.digit(low)?]),
            [low] if self.0 == Slip::TextOneDigitTaken => Some([mark, self.digit(low)?]),
            _ => None,
        }
    }

    fn begins_word(&self, word: &[u8]) -> bool {
        let unmarked = if self.0 == Slip::TextMarkBefore { word.strip_prefix(b"!").unwrap_or(word) } else { word };
        match *unmarked {
            [] => true,
            [high] => self.digit(high).is_some(),
            _ => self.word(word).is_some(),
        }
    }

    /// The words of a line without its newline: one at least, a space between two.
    fn words<'a>(&self, line: &'a [u8]) -> Vec<&'a [u8]> {
        let line = match self.0 {
            Slip::TextReturnTaken => line.strip_suffix(b"\r").unwrap_or(line),
            Slip::TextTrailingSpaceTaken => line.strip_suffix(b" ").unwrap_or(line),
            _ => line,
        };
        let words = line.split(|character| *character == b' ' || *character == b'\t' && self.0 == Slip::TextTabTaken);
        words.filter(|word| !(word.is_empty() && self.0 == Slip::TextSpacesTaken)).collect()
    }

    fn line(&self, line: &[u8]) -> Option<Vec<Marked>> {
        if line.is_empty() && self.0 == Slip::TextBlankLineTaken {
            return Some(Vec::new());
        }
        let bytes: Option<Vec<Marked>> = self.words(line).into_iter().map(|word| self.word(word)).collect();
        bytes.filter(|bytes| bytes.len() <= BYTES_A_LINE || self.0 != Slip::TextLinesOf16)
    }

    fn begins_line(&self, line: &[u8]) -> bool {
        let words = self.words(line);
        let (last, before) = match words.split_last() {
            Some(words) => words,
            None => return true,
        };
        before.iter().all(|word| self.word(word).is_some()) && self.begins_word(last)
    }

    /// All lines end in a newline, so that nothing stands behind the last one.
    fn text(&self, text: &[u8]) -> Option<Vec<Marked>> {
        let mut lines: Vec<&[u8]> = text.split(|character| *character == b'\n').collect();
        let behind = lines.pop().expect("one at least");
        if text.is_empty() && self.0 == Slip::TextEmptyRefused {
            return None;
        }
        if !behind.is_empty() {
            if self.0 != Slip::TextUnendedTaken {
                return None;
            }
            lines.push(behind);
        }
        let lines: Option<Vec<Vec<Marked>>> = lines.into_iter().map(|line| self.line(line)).collect();
        lines.map(|lines| lines.concat())
    }

    fn begins_text(&self, text: &[u8]) -> bool {
        let mut lines = text.rsplit(|character| *character == b'\n');
        let last = lines.next().expect("one at least");
        self.begins_line(last) && lines.all(|line| self.line(line).is_some())
    }

    /// The longest part from the front that a text can begin with. What begins with more begins with less, too.
    fn beginning<'a>(&self, text: &'a [u8]) -> &'a [u8] {
        let (mut begins, mut not) = (0, text.len() + 1);
        while not - begins > 1 {
            let middle = (begins + not) / 2;
            if self.begins_text(&text[..middle]) {
                begins = middle;
            } else {
                not = middle;
            }
        }
        &text[..begins]
    }
}

fn records_of(bytes: &[Marked]) -> Vec<u8> {
    bytes.iter().flat_map(|[mark, byte]| [LINE_BYTE, *mark, *byte]).collect()
}

/// What stands before a fault, and whether anything comes behind.
fn fault_as(before: &[u8], breaks_off: bool) -> Branch {
    match (before.last(), breaks_off) {
        (None | Some(b'\n'), _) => Branch::ImportFaultAtLine,
        (Some(b' '), false) => Branch::ImportFaultAtSpace,
        (Some(b' '), true) => Branch::ImportOffAtSpace,
        (Some(b'!'), false) => Branch::ImportFaultAtMark,
        (Some(b'!'), true) => Branch::ImportOffAtMark,
        (Some(_), _) => {
            let word = before.rsplit(|character| b" \n".contains(character)).next().unwrap_or(before);
            match (word.len(), breaks_off) {
                (1, false) => Branch::ImportFaultAtDigit,
                (1, true) => Branch::ImportOffAtDigit,
                (_, false) => Branch::ImportFaultAtByte,
                (_, true) => Branch::ImportOffAtByte,
            }
        }
    }
}

/// Records of all bytes of a text, or the offset at which it is at fault.
pub fn import(text: &[u8], slip: Slip) -> Result<Vec<u8>, usize> {
    let grammar = Grammar(slip);
    if let Some(mut bytes) = grammar.text(text) {
        reach(if bytes.is_empty() { Branch::ImportNothing } else { Branch::ImportDone });
        for [mark, byte] in &mut bytes {
            match slip {
                Slip::ImportMarkLost => *mark = 0,
                Slip::ImportMarkTwo => *mark *= 2,
                Slip::ImportDigitsExchanged => *byte = byte.rotate_left(4),
                _ => {}
            }
        }
        return Ok(records_of(&bytes));
    }
    let before = grammar.beginning(text);
    reach(fault_as(before, before.len() == text.len()));
    let line_at = before.iter().rposition(|character| *character == b'\n').map_or(0, |end| end + 1);
    Err(match slip {
        Slip::ImportOffsetOneOn => before.len() + 1,
        Slip::ImportOffsetInLine => before.len() - line_at,
        Slip::ImportOffsetOfLine => line_at,
        Slip::ImportOffsetLast if before.len() == text.len() => text.len().saturating_sub(1),
        _ => before.len(),
    })
}

/// Marks and bytes of records that are line bytes, whole ones, each with a mark of 0 or 1.
fn line_bytes(records: &[u8], slip: Slip) -> Option<Vec<Marked>> {
    let each = records.chunks(3);
    let whole = records.len() % 3 == 0 || slip == Slip::ExportCutTaken;
    let looked_at = if slip == Slip::ExportFirstTested { 1 } else { records.len() };
    let kinds = each.clone().take(looked_at).all(|record| record[0] == LINE_BYTE || slip == Slip::ExportAnyKind);
    let marks = each.clone().take(looked_at).all(|record| record.get(1).map_or(true, |mark| *mark <= 1));
    let taken = all_hold(&[
        (whole, Branch::ExportCut),
        (kinds, Branch::ExportKind),
        (marks || slip == Slip::ExportAnyMark, Branch::ExportMark),
    ]);
    taken.then(|| records.chunks_exact(3).map(|record| [record[1], record[2]]).collect())
}

fn written(bytes: &[Marked], slip: Slip) -> Vec<u8> {
    let on_line = match slip {
        Slip::ExportLinesOf15 => 15,
        Slip::ExportLinesOf17 => 17,
        _ => BYTES_A_LINE,
    };
    let word = |[mark, byte]: &Marked| {
        let digits = if slip == Slip::ExportLowerCase { format!("{byte:02x}") } else { format!("{byte:02X}") };
        digits + if *mark == 0 || slip == Slip::ExportMarkLost { "" } else { "!" }
    };
    let line = |line: &[Marked]| line.iter().map(word).collect::<Vec<String>>().join(" ");
    let mut text: String = bytes.chunks(on_line).map(|bytes| line(bytes) + "\n").collect();
    let full_line = bytes.len() % on_line == 0;
    match slip {
        Slip::ExportLastUnended => drop(text.pop()),
        Slip::ExportFullUnended if full_line => drop(text.pop()),
        Slip::ExportLineBehindFull if full_line && !bytes.is_empty() => text.push('\n'),
        Slip::ExportLineForNone if bytes.is_empty() => text.push('\n'),
        _ => {}
    }
    text.into_bytes()
}

/// The text of records that are all line bytes, or nothing.
pub fn export(records: &[u8], slip: Slip) -> Option<Vec<u8>> {
    let bytes = line_bytes(records, slip)?;
    reach(match bytes.len() {
        0 => Branch::ExportNothing,
        n if n % BYTES_A_LINE == 0 => Branch::ExportFullLine,
        _ => Branch::ExportShortLine,
    });
    Some(written(&bytes, slip))
}

/// What the program writes for a text, and what it says of a fault: records of all bytes whose end it has read.
pub fn monitor_import(text: &[u8]) -> (Vec<u8>, String) {
    let grammar = Grammar(Slip::None);
    let before = grammar.beginning(text);
    let mut words: Vec<&[u8]> = before.split(|character| b" \n".contains(character)).collect();
    // a mark ends its byte as well as what stands behind it
    if !words.last().map_or(false, |word| word.ends_with(b"!")) {
        words.pop();
    }
    let bytes: Option<Vec<Marked>> = words.into_iter().map(|word| grammar.word(word)).collect();
    let records = records_of(&bytes.expect("words that were taken"));
    if grammar.text(text).is_some() {
        return (records, String::new());
    }
    let what = if before.len() < text.len() { "bad text" } else { "text breaks off" };
    let lines: Vec<&[u8]> = before.split(|character| *character == b'\n').collect();
    let (line, column) = (lines.len(), lines[lines.len() - 1].len() + 1);
    (records, format!("{what}: offset {}, line {line}, column {column}\n", before.len()))
}

/// The same for a file of records of any kind.
pub fn monitor_export(file: &[u8]) -> (Vec<u8>, String) {
    let mut bytes = Vec::new();
    let mut at = 0;
    while at < file.len() {
        let length = match uncounted(|| Record::first(&file[at..])) {
            Some((Record::Event(Event::LineByte { mark: mark @ 0..=1, byte }), length)) => {
                bytes.push([mark, byte]);
                length
            }
            Some((Record::Event(Event::LineByte { .. }), _)) | None => {
                return (written(&bytes, Slip::None), format!("bad record: offset {at}\n"));
            }
            Some((_, length)) => length,
        };
        at += length;
    }
    (written(&bytes, Slip::None), String::new())
}
