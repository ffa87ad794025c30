//! Traffic for the line: frames one after another, whole and damaged, what stands between them, and buffers with
//! something wrong with them.

use super::{data_byte, frame};
use crate::branches::uncounted;
use crate::calls::*;
use crate::dice::Dice;
use crate::model::{frame_bytes, sum, Network};

/// Bytes for the line, each with its mark.
#[derive(Clone, Debug, Default)]
pub struct Line {
    pub bytes: Vec<u8>,
    pub marks: Vec<u8>,
}

impl Line {
    pub fn unmarked(bytes: &[u8]) -> Line {
        Line { bytes: bytes.to_vec(), marks: vec![0; bytes.len()] }
    }

    pub fn len(&self) -> usize {
        self.bytes.len()
    }

    pub fn is_empty(&self) -> bool {
        self.bytes.is_empty()
    }

    /// So many bytes from a place on.
    pub fn part(&self, from: usize, count: usize) -> Line {
        let part = from..from + count;
        Line { bytes: self.bytes[part.clone()].to_vec(), marks: self.marks[part].to_vec() }
    }

    fn push(&mut self, other: Line) {
        self.bytes.extend(other.bytes);
        self.marks.extend(other.marks);
    }

    fn truncate(&mut self, len: usize) {
        self.bytes.truncate(len);
        self.marks.truncate(len);
    }

    /// So many bytes and marks, those that are more being the same over again.
    fn repeat_to(&mut self, len: usize) {
        if self.is_empty() {
            *self = Line::unmarked(&[0]);
        }
        self.bytes = self.bytes.iter().copied().cycle().take(len).collect();
        self.marks = self.marks.iter().copied().cycle().take(len).collect();
    }
}

/// A frame that somebody in the network is likely to hear, now and then damaged: by a mark, by its sum, by a byte lost.
pub fn frame_on_line(dice: &mut Dice, network: &Network) -> Line {
    let (address, code, data) = frame(dice, network);
    let mut line = Line::unmarked(&frame_bytes(address, code, &data));
    let last = line.len() - 1;
    match dice.below(25) {
        0 | 1 => line.marks[1 + dice.below(last)] = 1,
        2 => line.marks[0] = 1,
        3 => line.bytes[last] ^= 1 + dice.below(255) as u8,
        // a sum that leaves the address out
        4 => line.bytes[last] = line.bytes[2].wrapping_add(sum(&data)),
        5 => {
            let lost = dice.below(line.len());
            line.bytes.remove(lost);
            line.marks.remove(lost);
        }
        _ => {}
    }
    line
}

/// A frame without data.
fn short_frame(dice: &mut Dice, network: &Network) -> Line {
    let station = network.modules[dice.below(network.modules.len())].station();
    let address = if dice.percent(50) { station.group } else { station.individual };
    let code = dice.pick(&[0, 5, 5, 11, 12, 13, 14, 14, 14]);
    Line::unmarked(&frame_bytes(address, code, &[]))
}

/// Bytes that belong to no frame, if none is open.
pub fn noise(dice: &mut Dice) -> Line {
    let len = 1 + dice.below(4);
    let bytes: Vec<u8> = (0..len).map(|_| data_byte(dice)).collect();
    let marks = (0..len).map(|_| u8::from(dice.percent(20))).collect();
    Line { bytes, marks }
}

/// So many frames, each for the network as the ones before leave it.
fn one_after_another(dice: &mut Dice, network: &Network, frames: usize, next: fn(&mut Dice, &Network) -> Line) -> Line {
    let mut ahead = network.clone();
    let mut traffic = Line::default();
    for _ in 0..frames {
        let line = next(dice, &ahead);
        for (mark, byte) in line.marks.iter().zip(&line.bytes) {
            uncounted(|| ahead.byte(*mark == 1, *byte));
        }
        traffic.push(line);
    }
    traffic
}

/// Frames of any kind, now and then with something between them.
pub fn traffic(dice: &mut Dice, network: &Network, frames: usize) -> Line {
    one_after_another(dice, network, frames, |dice, network| {
        let mut line = if dice.percent(10) { noise(dice) } else { Line::default() };
        line.push(frame_on_line(dice, network));
        line
    })
}

/// Frames without data, of which the most fit into a buffer.
pub fn short_traffic(dice: &mut Dice, network: &Network, frames: usize) -> Line {
    one_after_another(dice, network, frames, short_frame)
}

/// As many bytes as a buffer has, short frames or any.
pub fn full_buffer(dice: &mut Dice, network: &Network) -> Line {
    let mut line = if dice.percent(50) {
        short_traffic(dice, network, BUFFER_LEN / SHORTEST_FRAME)
    } else {
        traffic(dice, network, BUFFER_LEN / SHORTEST_FRAME)
    };
    line.truncate(BUFFER_LEN);
    line
}

/// What may come in one buffer: from nothing to several frames, the last of them often cut.
pub fn any_buffer(dice: &mut Dice, network: &Network) -> Line {
    let frames = dice.pick(&[0, 1, 1, 2, 3, 5, 8]);
    let mut line = traffic(dice, network, frames);
    let most = if dice.percent(30) { dice.below(line.len() + 1) } else { BUFFER_LEN };
    line.truncate(most.min(BUFFER_LEN));
    line
}

/// Lists that do not belong together, or are too long: by one, by several, by what one byte or two do not count.
fn spoil_lists(dice: &mut Dice, line: &mut Line) {
    match dice.below(10) {
        0 | 1 => drop(line.marks.pop()),
        2 | 3 => drop(line.bytes.pop()),
        4 => line.marks.clear(),
        5 => line.bytes.clear(),
        6 | 7 => line.repeat_to(BUFFER_LEN + 1),
        8 => {
            let len = dice.pick(&[BUFFER_LEN + 2, 2 * BUFFER_LEN, 255, 256, 257, 256 + BUFFER_LEN, 65_536]);
            line.repeat_to(len);
        }
        _ => {
            let longer = line.len() + dice.pick(&[1, 256]);
            let list = if dice.percent(50) { &mut line.bytes } else { &mut line.marks };
            list.resize(longer, 0);
        }
    }
}

/// One mark above 1 mostly, else some; often at an end.
fn spoil_marks(dice: &mut Dice, marks: &mut [u8]) {
    if marks.is_empty() {
        return;
    }
    for _ in 0..dice.pick(&[1, 1, 1, 2, 3]) {
        let at = match dice.below(4) {
            0 => 0,
            1 => marks.len() - 1,
            _ => dice.below(marks.len()),
        };
        marks[at] = dice.pick(&[2, 2, 3, 127, 128, 254, 255]);
    }
}

fn short_room(dice: &mut Dice) -> usize {
    match dice.below(6) {
        0 => dice.pick(&[0, 1, ROOM_LEN - 1]),
        1 => ROOM_LEN,
        2 => BUFFER_ROOM_LEN - ROOM_LEN,
        3 | 4 => BUFFER_ROOM_LEN - 1,
        _ => dice.below(BUFFER_ROOM_LEN),
    }
}

/// A buffer that is mostly refused, often for two reasons at once: its lists and how much room there is.
pub fn spoiled_buffer(dice: &mut Dice, network: &Network) -> (Line, usize) {
    const LISTS: u8 = 1;
    const MARKS: u8 = 2;
    const ROOM: u8 = 4;
    let faults = dice.pick(&[LISTS, LISTS, MARKS, MARKS, ROOM, ROOM, LISTS | MARKS, LISTS | ROOM, MARKS | ROOM, 7]);
    let mut line = any_buffer(dice, network);
    if faults & MARKS != 0 {
        spoil_marks(dice, &mut line.marks);
    }
    if faults & LISTS != 0 {
        spoil_lists(dice, &mut line);
    }
    let room_len = if faults & ROOM != 0 { short_room(dice) } else { BUFFER_ROOM_LEN };
    (line, room_len)
}
