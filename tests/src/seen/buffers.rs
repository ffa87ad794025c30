//! What buffers have come to, told byte by byte.

use std::collections::BTreeMap;

use super::{add, Tally};
use crate::calls::{BUFFER_FRAMES, BUFFER_ROOM_LEN};
use crate::model::{Ended, Network};

/// The frame that is open between two calls.
#[derive(Clone, Copy, Debug)]
struct Open {
    /// Whether a buffer has brought its header, or else a byte call.
    by_buffer: bool,
    /// Whether it has already gone on through a buffer without ending.
    through: bool,
    ticked: bool,
}

/// What has become of a byte of a buffer.
#[derive(Clone, Copy, Debug, PartialEq, Eq)]
pub enum Fate {
    /// It stands outside of frames, and is no header of one.
    Dropped {
        marked: bool,
    },
    Inside,
    Ended {
        damaged: bool,
        replied: bool,
        /// Whether the addresses before the buffer tell otherwise than those before the frame whom it touches.
        touched_anew: bool,
    },
}

impl Fate {
    /// Of a frame's last byte; the network is the one before the buffer, then the one before the frame.
    pub fn of_last(ended: &Ended, before: &Network, now: &Network) -> Fate {
        let address = ended.frame.address;
        let anew = |place| now.touch(place, address) != before.touch(place, address);
        Fate::Ended {
            damaged: ended.frame.damaged,
            replied: !ended.replies.is_empty(),
            touched_anew: (0..now.modules.len()).any(anew),
        }
    }

    fn damaged(&self) -> Option<bool> {
        match self {
            Fate::Ended { damaged, .. } => Some(*damaged),
            _ => None,
        }
    }

    fn replied(&self) -> Option<bool> {
        match self {
            Fate::Ended { replied, .. } => Some(*replied),
            _ => None,
        }
    }
}

#[derive(Debug, Default)]
pub struct Buffers {
    /// Buffers that were taken, by their length, and by how many frames ended in them.
    pub lengths: BTreeMap<usize, usize>,
    pub ended: [usize; BUFFER_FRAMES + 1],
    pub full_rooms: usize,
    /// What buffers had in them.
    pub held: Tally,
    /// How an open frame went on in a buffer.
    pub went_on: Tally,
    /// Frames that a buffer had begun and a byte call ended.
    pub ended_by_byte: usize,
    open: Option<Open>,
}

impl Buffers {
    /// A byte call that was taken, with the receiver's fill before it and after it.
    pub fn byte(&mut self, before: u8, after: u8) {
        if before == 0 && after > 0 {
            self.open = Some(Open { by_buffer: false, through: false, ticked: false });
        } else if before > 0 && after == 0 {
            let ended = self.open.take();
            self.ended_by_byte += usize::from(ended.map_or(false, |open| open.by_buffer));
        }
    }

    pub fn tick(&mut self) {
        if let Some(open) = &mut self.open {
            open.ticked = true;
        }
    }

    /// What was open is that of another record.
    pub fn another_record(&mut self) {
        self.open = None;
    }

    /// A buffer that was taken, with what became of each byte, how much was replied, and whether a frame is open then.
    pub fn taken(&mut self, fates: &[Fate], written: usize, open: bool) {
        let ends: Vec<usize> = (0..fates.len()).filter(|at| matches!(fates[*at], Fate::Ended { .. })).collect();
        *self.lengths.entry(fates.len()).or_default() += 1;
        self.ended[ends.len()] += 1;
        self.full_rooms += usize::from(written == BUFFER_ROOM_LEN);
        self.hold(fates, &ends);
        self.go_on(ends.len(), fates.is_empty());
        if !open {
            self.open = None;
        } else if self.open.is_none() || !ends.is_empty() {
            self.open = Some(Open { by_buffer: true, through: false, ticked: false });
        }
    }

    fn hold(&mut self, fates: &[Fate], ends: &[usize]) {
        let first = ends.first().copied().unwrap_or(0);
        let last = ends.last().copied().unwrap_or(0);
        let dropped = |fate: &Fate| matches!(fate, Fate::Dropped { .. });
        let damage: Vec<bool> = fates.iter().filter_map(Fate::damaged).collect();
        let replies: Vec<bool> = fates.iter().filter_map(Fate::replied).collect();
        let anew = |fate: &Fate| matches!(fate, Fate::Ended { touched_anew: true, .. });
        add(
            &mut self.held,
            &[
                ("bytes of no frame before a frame", !ends.is_empty() && fates[..first].iter().any(dropped)),
                ("bytes of no frame between two frames", fates[first..last].iter().any(dropped)),
                ("bytes of no frame alone", !fates.is_empty() && fates.iter().all(dropped)),
                ("a marked byte of no frame", fates.contains(&Fate::Dropped { marked: true })),
                ("a damaged frame, then an undamaged one", damage.windows(2).any(|pair| pair == [true, false])),
                ("an undamaged frame, then a damaged one", damage.windows(2).any(|pair| pair == [false, true])),
                ("two frames with replies", replies.windows(2).any(|pair| pair == [true, true])),
                (
                    "a frame without between two with replies",
                    replies.windows(3).any(|three| three == [true, false, true]),
                ),
                ("a frame that touches others than before the buffer", fates.iter().any(anew)),
            ],
        );
    }

    fn go_on(&mut self, ended: usize, empty: bool) {
        let open = match &mut self.open {
            Some(open) => open,
            None => return,
        };
        let (ends, goes_through) = (ended > 0, ended == 0 && !empty);
        add(
            &mut self.went_on,
            &[
                ("begun by a byte call, ended by a buffer", ends && !open.by_buffer),
                ("begun by a buffer, ended by another", ends && open.by_buffer),
                ("begun before a buffer, ended behind it by another", ends && open.through),
                ("begun before a tick, ended by a buffer", ends && open.ticked),
                ("begun before it, not ended", goes_through),
                ("begun before it, no bytes in it", empty),
            ],
        );
        open.through |= goes_through;
    }
}
