//! A whole buffer from the line: two lists, of bytes and of the marks that came with them. What may be wrong with it,
//! and what it brings: the receiver takes all of its bytes, and the frames that have ended in it then go along the chain
//! one after another.

use super::line::{Frame, Receiver};
use super::network::{Ended, Network};
use crate::branches::{reach, uncounted, Branch};
use crate::calls::*;
use crate::slips::Slip;

pub struct Buffer<'a> {
    pub bytes: &'a [u8],
    pub marks: &'a [u8],
    pub room_len: usize,
}

impl Buffer<'_> {
    /// Whether the two lists belong together.
    fn has_lengths(&self, slip: Slip) -> bool {
        let (bytes, marks) = (self.bytes.len(), self.marks.len());
        let most = match slip {
            Slip::BufferOf65Taken => BUFFER_LEN + 1,
            Slip::BufferOf64Refused => BUFFER_LEN - 1,
            _ => BUFFER_LEN,
        };
        match slip {
            Slip::BufferCutToShorter => bytes.min(marks) <= most,
            Slip::BufferMarksMayLack => marks <= bytes && bytes <= most,
            Slip::BufferMarksMayExceed => bytes <= marks && bytes <= most,
            Slip::BufferLengthsInOneByte => bytes as u8 == marks as u8 && usize::from(bytes as u8) <= most,
            Slip::BufferCutTo64 => bytes == marks,
            Slip::EmptyBufferRefused => bytes == marks && (1..=most).contains(&bytes),
            _ => bytes == marks && bytes <= most,
        }
    }

    /// Where marks stand that are neither 0 nor 1.
    fn bad_marks(&self, receiver: Option<&Receiver>, slip: Slip) -> Vec<usize> {
        let first_end = || self.ends(receiver?).first().copied();
        let most = if slip == Slip::BufferMarkOf2Taken { 2 } else { 1 };
        let looked_at = match slip {
            Slip::BufferAnyMarkTaken | Slip::BufferMarkByBit0 => 0,
            Slip::BufferFirstMarkTested => 1,
            Slip::BufferLastMarkUntested => self.marks.len().saturating_sub(1),
            Slip::BufferMarksToFirstEnd => first_end().map_or(self.marks.len(), |end| end + 1),
            _ => self.marks.len(),
        };
        let marks = self.marks.iter().enumerate().take(looked_at);
        let bad: Vec<usize> = marks.filter(|(_, mark)| **mark > most).map(|(at, _)| at).collect();
        match receiver {
            Some(receiver) if slip == Slip::BufferOutsideMarksUntested => {
                let inside = self.inside(receiver);
                bad.into_iter().filter(|at| inside.get(*at) != Some(&false)).collect()
            }
            _ => bad,
        }
    }

    fn room_asked(&self, network: Option<&Network>, slip: Slip) -> usize {
        match (slip, network) {
            (Slip::BufferRoomForEnded, Some(network)) => ROOM_LEN * self.ends(&network.receiver).len(),
            (Slip::BufferRoomForReplies, Some(network)) => uncounted(|| {
                let ended = network.clone().buffer(self);
                put_replies(&ended, &mut [], slip)
            }),
            (Slip::BufferRoomByChain, Some(network)) => BUFFER_FRAMES * REPLY_LEN * network.modules.len(),
            (Slip::BufferRoomForOne, _) => ROOM_LEN,
            (Slip::BufferRoomFor15, _) => BUFFER_ROOM_LEN - ROOM_LEN,
            (Slip::BufferRoomOneLess, _) => BUFFER_ROOM_LEN - 1,
            (Slip::EmptyBufferNeedsNoRoom, _) if self.bytes.is_empty() => 0,
            _ => BUFFER_ROOM_LEN,
        }
    }

    /// The number by which the buffer is refused, if it is: first comes the record, then the lengths of the lists, then
    /// any mark, then the room.
    pub fn refusal(&self, network: Option<&Network>, slip: Slip) -> Option<u32> {
        let bad_marks = self.bad_marks(network.map(|network| &network.receiver), slip);
        let record = (network.is_none(), BAD_RECORD);
        let lists = (!self.has_lengths(slip), BAD_LIST);
        let marks = (!bad_marks.is_empty(), BAD_FIELD);
        let room = (self.room_len < self.room_asked(network, slip), SHORT_ROOM);
        self.note_refusal(record.0, lists.0, &bad_marks, room.0, network);
        // a slip that goes before one test leaves the order of the others
        let tests = match slip {
            Slip::BufferListsBeforeRecord => [lists, record, marks, room],
            Slip::BufferMarksBeforeRecord if record.0 => [marks, record, lists, room],
            Slip::BufferRoomBeforeRecord if record.0 => [room, record, lists, marks],
            Slip::BufferMarksBeforeLists => [record, marks, lists, room],
            Slip::BufferRoomBeforeLists if lists.0 => [record, room, lists, marks],
            Slip::BufferRoomBeforeMarks => [record, lists, room, marks],
            _ => [record, lists, marks, room],
        };
        tests.into_iter().find(|(wrong, _)| *wrong).map(|(_, number)| number)
    }

    /// Counts by what the buffer is refused, and what that hides.
    fn note_refusal(&self, record: bool, lists: bool, marks: &[usize], room: bool, network: Option<&Network>) {
        let marks_too = !marks.is_empty();
        if record {
            reach(Branch::BufferRecord);
            note_hidden(&[
                (lists, Branch::BufferRecordBeforeLists),
                (marks_too, Branch::BufferRecordBeforeMarks),
                (room, Branch::BufferRecordBeforeRoom),
            ]);
        } else if lists {
            self.note_lists();
            note_hidden(&[(marks_too, Branch::BufferListsBeforeMarks), (room, Branch::BufferListsBeforeRoom)]);
        } else if marks_too {
            reach(Branch::BufferMark);
            self.note_marks(marks, network);
            note_hidden(&[(room, Branch::BufferMarksBeforeRoom)]);
        } else if room {
            self.note_room(network);
        }
    }

    fn note_lists(&self) {
        let (bytes, marks) = (self.bytes.len(), self.marks.len());
        reach(match (bytes, marks) {
            (0, _) => Branch::BufferMarksAlone,
            (_, 0) => Branch::BufferBytesAlone,
            _ if marks < bytes => Branch::BufferFewerMarks,
            _ if marks > bytes => Branch::BufferMoreMarks,
            _ if bytes == BUFFER_LEN + 1 => Branch::BufferOf65,
            _ => Branch::BufferLong,
        });
    }

    /// Where the only bad mark stands, and whether a frame ends before any.
    fn note_marks(&self, marks: &[usize], network: Option<&Network>) {
        match *marks {
            [0] if self.marks.len() > 1 => reach(Branch::BufferMarkFirst),
            [at] if at > 0 && at == self.marks.len() - 1 => reach(Branch::BufferMarkLast),
            _ => {}
        }
        let ends = network.map_or(Vec::new(), |network| self.ends(&network.receiver));
        if ends.first() < marks.first() && !ends.is_empty() {
            reach(Branch::BufferMarkBehindFrame);
        }
    }

    fn note_room(&self, network: Option<&Network>) {
        let ends = network.map_or(Vec::new(), |network| self.ends(&network.receiver));
        reach(match (self.room_len, ends.len()) {
            _ if self.bytes.is_empty() => Branch::BufferRoomForNothing,
            (_, 0) => Branch::BufferRoomForNoFrame,
            (len, _) if len == BUFFER_ROOM_LEN - 1 => Branch::BufferRoomByOne,
            (len, ended) if len >= ROOM_LEN * ended => Branch::BufferRoomForAllThatEnd,
            _ => Branch::BufferRoom,
        });
    }

    /// The bytes as they are taken, each with whether it is marked.
    fn line(&self, slip: Slip) -> Vec<(bool, u8)> {
        let mut marks: Vec<bool> = self.marks.iter().map(|mark| *mark != 0).collect();
        marks.resize(self.bytes.len(), false);
        match slip {
            Slip::BufferMarksForgotten => marks.fill(false),
            Slip::BufferMarkForAll if marks.contains(&true) => marks.fill(true),
            Slip::BufferMarkOfByteBefore if !marks.is_empty() => {
                marks.rotate_right(1);
                marks[0] = false;
            }
            Slip::BufferMarkByBit0 => marks = self.marks.iter().map(|mark| mark & 1 == 1).collect(),
            _ => {}
        }
        let taken = match slip {
            Slip::BufferCutToShorter => self.marks.len(),
            Slip::BufferLengthsInOneByte => usize::from(self.bytes.len() as u8),
            Slip::BufferCutTo64 => BUFFER_LEN,
            _ => self.bytes.len(),
        };
        marks.into_iter().zip(self.bytes.iter().copied()).take(taken).collect()
    }

    /// Where in the buffer a frame ends, if the receiver is so before it.
    fn ends(&self, receiver: &Receiver) -> Vec<usize> {
        let mut receiver = receiver.clone();
        let mut ends_at = |marked, byte| uncounted(|| receiver.take(marked, byte, Slip::None).is_some());
        let line = self.line(Slip::None).into_iter().enumerate();
        line.filter(|(_, (marked, byte))| ends_at(*marked, *byte)).map(|(at, _)| at).collect()
    }

    /// Which bytes of the buffer belong to a frame, if the receiver is so before it.
    fn inside(&self, receiver: &Receiver) -> Vec<bool> {
        let mut receiver = receiver.clone();
        let mut is_inside =
            |marked, byte| uncounted(|| receiver.take(marked, byte, Slip::None)).is_some() || receiver.fill > 0;
        self.line(Slip::None).into_iter().map(|(marked, byte)| is_inside(marked, byte)).collect()
    }

    /// What of a refused buffer is taken: nothing, but for the slips by which it is half done.
    pub fn taken_though_refused(&self, number: u32, slip: Slip) -> Option<Buffer<'_>> {
        let taken = match (slip, number) {
            (Slip::RefusedListsTaken, BAD_LIST) => self.bytes.len().min(self.marks.len()).min(BUFFER_LEN),
            (Slip::RefusedMarksTaken, BAD_FIELD) => self.marks.iter().position(|mark| *mark > 1)?,
            (Slip::RefusedRoomTaken, SHORT_ROOM) => self.bytes.len(),
            _ => return None,
        };
        Some(Buffer { bytes: &self.bytes[..taken], marks: &self.marks[..taken], room_len: self.room_len })
    }
}

fn note_hidden(hidden: &[(bool, Branch)]) {
    hidden.iter().filter(|(hides, _)| *hides).for_each(|(_, branch)| reach(*branch));
}

impl Network {
    /// All bytes of a buffer that was not refused, and what each frame that ended in it brings.
    pub fn buffer(&mut self, buffer: &Buffer) -> Vec<Ended> {
        let slip = self.slip;
        let before = self.clone();
        match slip {
            Slip::BufferBeginsIdle => self.receiver = Receiver::default(),
            Slip::BufferForgetsMark => self.receiver.marked = false,
            _ => {}
        }
        let line = buffer.line(slip).into_iter();
        let mut frames: Vec<Frame> = line.filter_map(|(marked, byte)| self.receiver.take(marked, byte, slip)).collect();
        note_taken(buffer, &before.receiver, &self.receiver, frames.len());
        match slip {
            Slip::BufferLeavesIdle => self.receiver = Receiver::default(),
            Slip::BufferOfOneFrame => frames.truncate(1),
            Slip::BufferOf15Frames => frames.truncate(BUFFER_FRAMES - 1),
            Slip::BufferEndsAtDamaged => {
                let undamaged = frames.iter().take_while(|frame| !frame.damaged).count();
                frames.truncate(undamaged + 1);
            }
            _ => {}
        }
        let mut ended = Vec::new();
        for frame in frames {
            let judged = if slip == Slip::BufferTouchJudgedOnce { before.clone() } else { self.clone() };
            let replies = self.hand_along(&frame, &judged);
            ended.push(Ended { frame, replies });
        }
        if slip == Slip::BufferRepliesAfterAll {
            for Ended { frame, replies } in &mut ended {
                replies.iter_mut().for_each(|(place, reply)| *reply = self.modules[*place].reply(frame, slip));
            }
        }
        ended
    }
}

/// Counts how a buffer that is taken stands to the frames in it.
fn note_taken(buffer: &Buffer, before: &Receiver, after: &Receiver, ended: usize) {
    reach(match ended {
        0 => Branch::BufferEndsNone,
        1 => Branch::BufferEndsOne,
        BUFFER_FRAMES => Branch::BufferEndsMost,
        _ => Branch::BufferEndsSeveral,
    });
    let (inside, open) = (before.fill != 0, after.fill != 0);
    match buffer.bytes.len() {
        0 => reach(if inside { Branch::BufferEmptyInside } else { Branch::BufferEmpty }),
        _ if inside => reach(if ended > 0 { Branch::BufferCarriedIn } else { Branch::BufferCarriedThrough }),
        _ => {}
    }
    if buffer.bytes.len() == BUFFER_LEN {
        reach(Branch::BufferFull);
    }
    if open && (ended > 0 || !inside) {
        reach(Branch::BufferCarriedOut);
    }
}

/// Puts the replies into the room, one frame's behind another's, and gives the length of all.
pub fn put_replies(ended: &[Ended], room: &mut [u8], slip: Slip) -> usize {
    let mut frames: Vec<Vec<(usize, Vec<u8>)>> = ended.iter().map(|ended| ended.replies.clone()).collect();
    match slip {
        Slip::BufferLaterRepliesFirst => frames.reverse(),
        Slip::BufferRepliesByPlace => {
            let mut all = frames.concat();
            all.sort_by_key(|(place, _)| *place);
            frames = vec![all];
        }
        Slip::BufferRepliesOnce => {
            let mut spoken = [false; MOST_MODULES];
            let mut first = |place: usize| !std::mem::replace(&mut spoken[place], true);
            frames.iter_mut().for_each(|replies| replies.retain(|(place, _)| first(*place)));
        }
        _ => {}
    }
    let (mut total, mut last) = (0, 0);
    for (number, replies) in frames.into_iter().enumerate() {
        let replies: Vec<u8> = replies.into_iter().flat_map(|(_, reply)| reply).collect();
        let from = match slip {
            Slip::BufferRepliesOverwrite => 0,
            Slip::BufferRepliesApart => number * ROOM_LEN,
            _ => total,
        };
        // a slip may have more of them than there is room for
        room.iter_mut().skip(from).zip(&replies).for_each(|(to, byte)| *to = *byte);
        total += replies.len();
        last = replies.len();
    }
    match slip {
        Slip::BufferLastLengthTold => last,
        Slip::BufferLengthOfOneFrame => total.min(ROOM_LEN),
        _ => total,
    }
}

/// What a buffer that was taken gives: it does not tell what its bytes have ended.
pub fn number_given(ended: &[Ended], slip: Slip) -> u32 {
    let any = |damaged: bool| ended.iter().any(|ended| ended.frame.damaged == damaged);
    match slip {
        Slip::BufferTellsFrame if any(false) => UNDAMAGED,
        Slip::BufferTellsDamage if any(true) => DAMAGED,
        _ => DONE,
    }
}
