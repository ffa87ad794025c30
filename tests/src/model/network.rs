//! The chain of modules behind one receiver.

use super::io::Io;
use super::line::{Frame, Receiver};
use super::samples::{sample_at, Faults};
use super::servo::Servo;
use super::station::{Device, Station, Touch, EXECUTED};
use super::stepper::Stepper;
use crate::branches::{either, reach, Branch};
use crate::calls::{Sample, BAD_FIELD, BAD_LIST, BAD_PLACE};
use crate::slips::Slip;

/// A module of whatever type. Boxed: with plain variants rustc 1.95.0 (LLVM 22.1) leaves, at some levels of
/// optimisation, two bytes of an `Io` that `record::decode` gives back unset, though no unsafe code is involved.
#[derive(Clone, Debug, PartialEq, Eq)]
pub enum Module {
    Servo(Box<Servo>),
    Io(Box<Io>),
    Stepper(Box<Stepper>),
}

/// What every type does, done to the module at hand.
macro_rules! each {
    ($module:expr, $device:ident => $done:expr) => {
        match $module {
            Module::Servo($device) => $done,
            Module::Io($device) => $done,
            Module::Stepper($device) => $done,
        }
    };
}

/// What a sample tells a module of this type.
fn measured_by<D: Device>(_: &D, sample: &Sample, slip: Slip) -> Option<D::Measured> {
    D::measured(sample, slip)
}

impl Module {
    pub fn power_up(module_type: u8) -> Option<Module> {
        match module_type {
            Servo::TYPE => Some(Module::Servo(Box::new(Servo::power_up()))),
            Io::TYPE => Some(Module::Io(Box::new(Io::power_up()))),
            Stepper::TYPE => Some(Module::Stepper(Box::new(Stepper::power_up()))),
            _ => None,
        }
    }

    pub fn module_type(&self) -> u8 {
        match self {
            Module::Servo(_) => Servo::TYPE,
            Module::Io(_) => Io::TYPE,
            Module::Stepper(_) => Stepper::TYPE,
        }
    }

    pub fn station(&self) -> &Station {
        each!(self, device => device.station())
    }

    /// Data bytes that a code takes here.
    pub fn count(&self, code: u8, data: &[u8]) -> usize {
        match self {
            Module::Servo(_) => Servo::count(code, data),
            Module::Io(_) => Io::count(code, data),
            Module::Stepper(_) => Stepper::count(code, data),
        }
    }

    fn meet(&mut self, frame: &Frame, touch: Touch, slip: Slip) {
        each!(self, device => device.meet(frame, touch, slip))
    }

    pub fn reply(&self, frame: &Frame, slip: Slip) -> Vec<u8> {
        each!(self, device => device.reply(frame, slip))
    }

    /// Whether a sample's fields are in range, for a module of this type.
    pub fn in_range(&self, sample: &Sample, slip: Slip) -> bool {
        each!(self, device => measured_by(&**device, sample, slip).is_some())
    }

    /// A sample out of range is none.
    pub fn latch(&mut self, sample: &Sample, slip: Slip) {
        each!(self, device => {
            if let Some(measured) = measured_by(&**device, sample, slip) {
                device.latch(measured);
            }
        })
    }

    fn tick(&mut self, sample: &Sample, slip: Slip) {
        each!(self, device => {
            let measured = measured_by(&**device, sample, slip).expect("of a list that was taken");
            device.tick(measured, slip);
        })
    }

    pub fn outputs(&self, slip: Slip) -> [u8; 8] {
        each!(self, device => device.outputs(slip))
    }
}

#[derive(Clone, Debug, PartialEq, Eq)]
pub struct Network {
    pub receiver: Receiver,
    pub modules: Vec<Module>,
    pub slip: Slip,
}

/// What the byte that ends a frame brings: each reply with the place that sends it.
#[derive(Clone, Debug, PartialEq, Eq)]
pub struct Ended {
    pub frame: Frame,
    pub replies: Vec<(usize, Vec<u8>)>,
}

impl Network {
    pub fn power_up(modules: Vec<Module>, slip: Slip) -> Network {
        Network { receiver: Receiver::default(), modules, slip }
    }

    pub fn byte(&mut self, marked: bool, byte: u8) -> Option<Ended> {
        let frame = self.receiver.take(marked, byte, self.slip)?;
        let replies = self.hand_along(&frame, &self.clone());
        Some(Ended { frame, replies })
    }

    /// One tick with its list of samples, or the number by which it is refused: then it is none.
    pub fn tick(&mut self, list: &[u8]) -> Result<(), u32> {
        let faults = Faults::found(&self.modules, list, self.slip);
        faults.note(&self.modules, list);
        let outcome = faults.refusal(list, self.slip);
        match outcome {
            Ok(()) => self.tick_with(list),
            Err(number) => self.latch_though_refused(list, number),
        }
        outcome
    }

    fn tick_with(&mut self, list: &[u8]) {
        let slip = self.slip;
        for place in 0..self.modules.len() {
            if slip == Slip::TickNeedsEnabling && !self.enabled(place) {
                continue;
            }
            let from = if slip == Slip::SampleOfNeighbour { self.neighbour(place) } else { place };
            if let Some(sample) = sample_at(list, from) {
                self.modules[place].tick(&sample, slip);
            }
        }
    }

    /// Nothing, but for the slips by which a refused tick leaves something behind.
    fn latch_though_refused(&mut self, list: &[u8], number: u32) {
        let slip = self.slip;
        let latches = match slip {
            Slip::RefusedLengthLatches => number == BAD_LIST,
            Slip::RefusedTypeLatches => number == BAD_PLACE,
            Slip::RefusedFieldLatches => number == BAD_FIELD,
            _ => false,
        };
        for (place, module) in self.modules.iter_mut().enumerate().filter(|_| latches) {
            match sample_at(list, place) {
                Some(sample) if sample[0] == module.module_type() => module.latch(&sample, slip),
                _ => {}
            }
        }
    }

    /// The next place of the same type, round the chain.
    fn neighbour(&self, place: usize) -> usize {
        let chain = self.modules.len();
        let places = (1..=chain).map(|step| (place + step) % chain);
        let mut alike = places.filter(|other| self.modules[*other].module_type() == self.modules[place].module_type());
        alike.next().expect("the place itself is the last")
    }

    pub fn enabled(&self, place: usize) -> bool {
        let low = |module: &Module| module.station().low;
        match self.slip {
            Slip::AllEnabled => true,
            Slip::EnabledByWholeChain => self.modules[..place].iter().all(low),
            _ if place == 0 => {
                reach(Branch::FirstEnabled);
                true
            }
            _ => either(low(&self.modules[place - 1]), Branch::EnabledByPredecessor, Branch::NotEnabled),
        }
    }

    pub fn touch(&self, place: usize, address: u8) -> Option<Touch> {
        if self.enabled(place) {
            self.modules[place].station().touch(address, self.slip)
        } else {
            None
        }
    }

    /// A frame on its way along the chain: who is touched and who leads is judged by the network before it.
    pub fn hand_along(&mut self, frame: &Frame, before: &Network) -> Vec<(usize, Vec<u8>)> {
        let slip = self.slip;
        let mut replies = Vec::new();
        for place in 0..self.modules.len() {
            let judged = if slip == Slip::TwoBecomeOne { &*self } else { before };
            let touch = match judged.touch(place, frame.address) {
                Some(touch) => touch,
                None => continue,
            };
            self.modules[place].meet(frame, touch, slip);

            let module = &self.modules[place];
            let judged = if slip == Slip::LeaderJudgedAfter { module } else { &before.modules[place] };
            let speaks = speaks(touch, judged.station(), slip);
            if speaks && !silenced(frame, module.station(), slip) {
                let shown = if slip == Slip::ReplyBeforeExecution { &before.modules[place] } else { module };
                replies.push((place, shown.reply(frame, slip)));
            }
        }
        replies
    }
}

/// Whether a touched module is one that replies.
fn speaks(touch: Touch, station: &Station, slip: Slip) -> bool {
    match touch {
        Touch::Individually => {
            reach(Branch::RepliesForItself);
            true
        }
        Touch::ByGroup => {
            either(station.leader, Branch::LeaderReplies, Branch::MemberSilent) || slip == Slip::MembersReply
        }
    }
}

/// Whether the frame draws no reply of those who would reply.
fn silenced(frame: &Frame, after: &Station, slip: Slip) -> bool {
    let reset = frame.code == 15
        && either(after.cause == EXECUTED, Branch::ResetSilent, Branch::ResetReplies)
        && slip != Slip::ResetReplies;
    reset || (frame.damaged && slip == Slip::DamagedIsSilent)
}
