//! What every module type has, and what makes a type.

use super::line::{sum, Frame};
use crate::branches::{either, reach, uncounted, Branch};
use crate::calls::Sample;
use crate::slips::Slip;

// Causes. Those that refuse are tested in the order 1, 4, 2, 5, 3: the first that applies is told.
pub const EXECUTED: u8 = 0;
pub const DAMAGED: u8 = 1;
pub const WRONG_COUNT: u8 = 2;
pub const NOT_NOW: u8 = 3;
/// An unknown code, or Set Baud sent individually.
pub const UNKNOWN: u8 = 4;
pub const OUT_OF_RANGE: u8 = 5;
pub const CAUSES: usize = 6;

#[derive(Clone, Debug, PartialEq, Eq)]
pub struct Station {
    pub individual: u8,
    pub group: u8,
    pub leader: bool,
    /// ADDR_OUT is low: the next place hears the line.
    pub low: bool,
    pub cause: u8,
    pub items: u8,
    pub baud: u8,
}

impl Station {
    pub fn power_up() -> Station {
        Station { individual: 0, group: 255, leader: false, low: false, cause: EXECUTED, items: 0, baud: 0 }
    }

    fn set_address(&mut self, individual: u8, group: u8, slip: Slip) {
        self.individual = individual;
        self.group = if slip == Slip::GroupAsSent { group } else { group | 0x80 };
        self.leader = (group < 0x80) != (slip == Slip::LeaderFrom128);
        reach(if self.leader { Branch::SetAddressLeader } else { Branch::SetAddressMember });
        self.low |= slip != Slip::SetAddressLeavesAddrOut;
    }

    pub fn touch(&self, address: u8, slip: Slip) -> Option<Touch> {
        if slip == Slip::GroupFirst && self.group == address {
            Some(Touch::ByGroup)
        } else if self.individual == address {
            either(self.group == address, Branch::TouchedByBoth, Branch::TouchedIndividually);
            Some(Touch::Individually)
        } else if self.group == address {
            reach(Branch::TouchedByGroup);
            Some(Touch::ByGroup)
        } else {
            reach(Branch::NotTouched);
            None
        }
    }
}

#[derive(Clone, Copy, Debug, PartialEq, Eq)]
pub enum Touch {
    Individually,
    ByGroup,
}

/// A frame that is not executed leaves its cause and nothing else, but for these slips.
fn keeps_a_part(code: u8, cause: u8, slip: Slip) -> bool {
    match slip {
        Slip::ShortLoadKeepsVelocity => code == 4 && cause == WRONG_COUNT,
        Slip::RefusedStartKeepsLoad => code == 4 && cause == NOT_NOW,
        Slip::GainStoredWhileTested => code == 6 && cause == OUT_OF_RANGE,
        _ => false,
    }
}

/// The cause of a code that a type does not know.
pub fn unknown_code(slip: Slip) -> u8 {
    if slip == Slip::UnknownCodeAsCount {
        WRONG_COUNT
    } else {
        UNKNOWN
    }
}

/// The cause of Set Baud sent individually: whatever its count, since the count is tested later.
fn baud_alone(count: usize, slip: Slip) -> u8 {
    either(count == 1, Branch::SetBaudAlone, Branch::UnknownBeforeBaudCount);
    match slip {
        Slip::BaudAloneAsCount => WRONG_COUNT,
        Slip::BaudCountBeforeUnknown if count != 1 => WRONG_COUNT,
        _ => UNKNOWN,
    }
}

/// Whether a type has all items of a Define Status or Read Status; `Err` has the cause.
fn choose_items(has: u8, code: u8, items: u8, slip: Slip) -> Result<(), u8> {
    let others = items & !has;
    if others == 0 {
        reach(if code == 2 { Branch::DefineStatus } else { Branch::ReadStatus });
        return Ok(());
    }
    either(code == 2, Branch::DefineStatusItems, Branch::ReadStatusItems);
    match slip {
        Slip::OtherItemsDefined if code == 2 => Ok(()),
        Slip::OtherItemsRead if code == 3 => Ok(()),
        Slip::OtherItemsAsCount => Err(WRONG_COUNT),
        _ => Err(OUT_OF_RANGE),
    }
}

/// A command of every type with another count than its own.
fn wrong_count_as(code: u8) -> Branch {
    match code {
        1 => Branch::SetAddressCount,
        2 => Branch::DefineStatusCount,
        3 => Branch::ReadStatusCount,
        10 => Branch::SetBaudCount,
        14 => Branch::NoOpCount,
        _ => Branch::HardResetCount,
    }
}

/// The cause of another count than a command's own; the items that it chooses may be out of range besides.
fn wrong_count(bad_items: bool, slip: Slip) -> u8 {
    if bad_items {
        reach(Branch::CountBeforeRangeItems);
    }
    if bad_items && slip == Slip::ItemsBeforeCount {
        OUT_OF_RANGE
    } else {
        WRONG_COUNT
    }
}

/// How a frame ends up with its cause, given the one that it would have undamaged.
fn cause_as(damaged: bool, cause: u8) -> Branch {
    let (undamaged, hidden) = match cause {
        EXECUTED => (Branch::Executed, Branch::DamagedThoughFit),
        UNKNOWN => (Branch::Unknown, Branch::DamagedBeforeUnknown),
        WRONG_COUNT => (Branch::WrongCount, Branch::DamagedBeforeCount),
        OUT_OF_RANGE => (Branch::OutOfRange, Branch::DamagedBeforeRange),
        _ => (Branch::NotNow, Branch::DamagedBeforeNotNow),
    };
    if damaged {
        hidden
    } else {
        undamaged
    }
}

/// A module type: what sets it apart from the others.
pub trait Device: Clone {
    const TYPE: u8;
    const VERSION: u8;
    /// Status items that it has, by their bits.
    const ITEMS: u8 = 0xFF;
    /// What the board measures for it.
    type Measured;

    fn power_up() -> Self;
    fn station(&self) -> &Station;
    fn station_mut(&mut self) -> &mut Station;
    /// Data bytes that a code takes, 0 for one that is not known. Frames are steered by it; the model itself goes by
    /// the shape of the data that each command takes.
    fn count(code: u8, data: &[u8]) -> usize;
    /// A code that is not common to all types; `Err` has the cause.
    fn command(&mut self, code: u8, data: &[u8], slip: Slip) -> Result<(), u8>;
    /// Back to power-up, but for what the board measures.
    fn hard_reset(&mut self, slip: Slip);
    fn item(&self, bit: usize, slip: Slip) -> Vec<u8>;
    /// Status bits of this type's own.
    fn status_bits(&self, slip: Slip) -> u8;
    /// What its ten bytes of a tick's list tell, or nothing where a field is out of range.
    fn measured(sample: &Sample, slip: Slip) -> Option<Self::Measured>;
    /// Shows it until the next tick, or acts on it if it is nothing to be shown.
    fn latch(&mut self, measured: Self::Measured);
    fn tick(&mut self, measured: Self::Measured, slip: Slip);
    /// What the board is to drive, in the eight bytes of the C call.
    fn outputs(&self, slip: Slip) -> [u8; 8];

    fn perform(&mut self, frame: &Frame, touch: Touch, slip: Slip) -> Result<(), u8> {
        let mut data = &frame.data[..];
        if slip == Slip::LongDataTaken {
            data = &data[..data.len().min(Self::count(frame.code, data))];
        }
        match (frame.code, data) {
            (1, [individual, group]) => self.station_mut().set_address(*individual, *group, slip),
            (code @ (2 | 3), [items]) => {
                choose_items(Self::ITEMS, code, *items, slip)?;
                if code == 2 || slip == Slip::ReadStatusKept {
                    self.station_mut().items = *items;
                }
            }
            (10, data) if touch == Touch::Individually && slip != Slip::BaudIndividually => {
                return Err(baud_alone(data.len(), slip));
            }
            (10, [rate]) => {
                reach(Branch::SetBaud);
                if slip != Slip::BaudNotStored {
                    self.station_mut().baud = *rate;
                }
            }
            (14, []) => reach(Branch::NoOp),
            (15, []) => {
                reach(Branch::HardReset);
                self.hard_reset(slip);
            }
            (code @ (1 | 2 | 3 | 10 | 14 | 15), data) => {
                reach(wrong_count_as(code));
                let items = data.first().copied().unwrap_or(0);
                let bad_items = (code == 2 || code == 3) && items & !Self::ITEMS != 0;
                return Err(wrong_count(bad_items, slip));
            }
            (code, data) => return self.command(code, data, slip),
        }
        Ok(())
    }

    /// The frame met; whatever its cause is, only an executed one leaves more than the cause behind.
    fn meet(&mut self, frame: &Frame, touch: Touch, slip: Slip) {
        let mut after = self.clone();
        let outcome = if frame.damaged {
            uncounted(|| after.perform(frame, touch, slip))
        } else {
            after.perform(frame, touch, slip)
        };
        let mut cause = match outcome {
            Ok(()) => EXECUTED,
            Err(cause) => cause,
        };
        reach(cause_as(frame.damaged, cause));
        if cause == EXECUTED && (!frame.damaged || slip == Slip::DamagedIsExecuted) {
            if slip == Slip::CauseStays && self.station().cause != EXECUTED && frame.code != 15 {
                cause = self.station().cause;
            }
            *self = after;
        } else if !frame.damaged && keeps_a_part(frame.code, cause, slip) {
            *self = after;
        }
        if frame.damaged {
            cause = DAMAGED;
        }
        self.station_mut().cause = cause;
    }

    fn reply(&self, frame: &Frame, slip: Slip) -> Vec<u8> {
        let station = self.station();
        let fault = station.cause != EXECUTED;
        // only an executed Read Status chooses items for its own reply
        let items = match (fault, frame.code, frame.data.first()) {
            (false, 3, Some(items)) => {
                reach(Branch::ItemsAskedFor);
                *items
            }
            (_, code, _) => {
                either(code == 3, Branch::ItemsAfterRefusedRead, Branch::ItemsDefined);
                station.items
            }
        };
        let mut reply = vec![self.status_bits(slip) | u8::from(fault) << 1];
        for bit in 0..8 {
            if items >> bit & 1 == 1 {
                if bit == 5 {
                    reach(Branch::TypeAndVersion);
                    let mut pair = [Self::TYPE, Self::VERSION];
                    if slip == Slip::VersionBeforeType {
                        pair.reverse();
                    }
                    reply.extend(pair);
                } else {
                    reply.extend(self.item(bit, slip));
                }
            }
        }
        let summed = usize::from(slip == Slip::ReplySumLeavesOutStatus);
        reply.push(sum(&reply[summed..]));
        reply
    }
}
