//! The line: the receiver and its frames.

use crate::branches::{reach, Branch};
use crate::slips::Slip;

pub const HEADER: u8 = 0xAA;

/// 8-bit wrapping sum, of frames and of replies.
pub fn sum(bytes: &[u8]) -> u8 {
    bytes.iter().fold(0, |total: u8, byte| total.wrapping_add(*byte))
}

#[derive(Clone, Debug, PartialEq, Eq)]
pub struct Frame {
    pub address: u8,
    pub code: u8,
    pub data: Vec<u8>,
    pub damaged: bool,
}

/// The one receiver that the modules of a network share. Idle, all of it is 0.
#[derive(Clone, Debug, Default, PartialEq, Eq)]
pub struct Receiver {
    pub data: [u8; 15],
    pub address: u8,
    pub command: u8,
    /// Bytes of the frame that are in, its header among them.
    pub fill: u8,
    pub marked: bool,
}

impl Receiver {
    /// Whether the next byte ends the frame.
    pub fn is_at_last(&self) -> bool {
        self.fill >= 3 && self.fill - 3 >= self.command >> 4
    }

    pub fn take(&mut self, marked: bool, byte: u8, slip: Slip) -> Option<Frame> {
        if self.fill == 0 {
            self.open(marked, byte, slip);
            return None;
        }
        if byte == HEADER {
            reach(Branch::HeaderInside);
            if slip == Slip::HeaderRestarts {
                *self = Receiver { fill: 1, ..Receiver::default() };
                return None;
            }
        }
        if marked && slip != Slip::MarkIgnored {
            reach(Branch::MarkInside);
            self.marked = true;
        }
        let count = self.command >> 4;
        match self.fill {
            1 => {
                reach(Branch::AddressByte);
                self.address = byte;
            }
            2 => {
                reach(Branch::CommandByte);
                self.command = byte;
            }
            fill if fill - 3 < count => {
                reach(Branch::DataByte);
                self.data[usize::from(fill - 3)] = byte;
            }
            _ => return Some(self.end(byte, slip)),
        }
        self.fill += 1;
        None
    }

    fn open(&mut self, marked: bool, byte: u8, slip: Slip) {
        if byte != HEADER {
            reach(Branch::IdleByteDropped);
        } else if marked && slip != Slip::MarkedHeaderOpens {
            reach(Branch::MarkedHeaderDropped);
        } else {
            reach(Branch::HeaderOpens);
            self.fill = 1;
        }
    }

    fn end(&mut self, checksum: u8, slip: Slip) -> Frame {
        let done = std::mem::take(self);
        let data = done.data[..usize::from(done.command >> 4)].to_vec();
        let mut right = done.command.wrapping_add(sum(&data));
        if slip != Slip::SumLeavesOutAddress {
            right = right.wrapping_add(done.address);
        }
        let wrong_sum = checksum != right && slip != Slip::SumIgnored;
        reach(match (done.marked, wrong_sum) {
            (false, false) => Branch::FrameUndamaged,
            (true, false) => Branch::DamagedByMark,
            (false, true) => Branch::DamagedBySum,
            (true, true) => Branch::DamagedByBoth,
        });
        Frame { address: done.address, code: done.command & 15, data, damaged: done.marked || wrong_sum }
    }
}
