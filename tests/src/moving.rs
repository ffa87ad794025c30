//! A servo alone that makes moves, through the C calls or the model's. Its motor follows a tick behind, so that nothing
//! disturbs it, or is where it is said to be.

use crate::calls::*;
use crate::capi::Library;
use crate::record::{at, slot};

const MOVE_DONE: u8 = 1;
const CUT: u8 = 4;

pub struct Carriage<'a> {
    calls: &'a dyn Calls,
    net: Vec<u8>,
}

impl<'a> Carriage<'a> {
    /// At rest at a position, with power, room for an error and no error bit.
    pub fn at(position: u32) -> Carriage<'a> {
        Carriage::with_gains(&Library, position, &[0, 0, 0, 0, 0, 0, 0, 0, 255, 0, 0xFF, 0x3F, 1, 0, 1])
    }

    /// The same with the data of a Set Gain, by these calls.
    pub fn with_gains(calls: &'a dyn Calls, position: u32, gains: &[u8; 15]) -> Carriage<'a> {
        let mut net = vec![0; NET_LEN];
        assert_eq!(calls.setup(&mut net, &[0]), DONE);
        let mut carriage = Carriage { calls, net };
        carriage.ticks_at(position);
        carriage.sends(6, gains);
        carriage.sends(11, &[]);
        carriage
    }

    /// A tick, at which the motor is here.
    pub fn ticks_at(&mut self, raw: u32) {
        assert_eq!(self.calls.tick(&mut self.net, &servo_sample(raw, 1, 0, 0)), DONE);
    }

    /// Sends a frame; gives the status byte.
    fn sends(&mut self, code: u32, data: &[u8]) -> u8 {
        let (mut frame, mut len) = ([0; 19], 0);
        let (mut room, mut written) = ([0; ROOM_LEN], 0);
        assert_eq!(self.calls.write_frame(0, code, data, &mut frame, &mut len), DONE);
        for (sent, byte) in frame[..len].iter().enumerate() {
            let number = self.calls.byte(&mut self.net, 0, *byte, &mut room, &mut written);
            assert_eq!(number, if sent + 1 < len { DONE } else { UNDAMAGED });
        }
        assert_eq!(written, 2);
        room[0]
    }

    /// A load of a move that starts now.
    pub fn sets_out(&mut self, goal: u32, velocity: u32, acceleration: u32) {
        let numbers = [goal, velocity, acceleration].map(u32::to_le_bytes).concat();
        self.sends(4, &[&[0x97], &numbers[..]].concat());
    }

    /// A tick, at which the motor is where the setpoint was before it.
    pub fn moves_on(&mut self) {
        self.ticks_at((self.setpoint() >> 16) as u32);
    }

    /// What a poll tells.
    pub fn is_done(&mut self) -> bool {
        self.sends(14, &[]) & MOVE_DONE != 0
    }

    pub fn is_cut(&mut self) -> bool {
        self.sends(14, &[]) & CUT != 0
    }

    /// What its motor is driven with.
    pub fn output(&self) -> i64 {
        let mut outputs = [0; 8];
        assert_eq!(self.calls.outputs(&self.net, 0, &mut outputs), DONE);
        i64::from(outputs[0]) * if outputs[1] == 1 { -1 } else { 1 }
    }

    /// As it stands in the record.
    pub fn speed(&self) -> i64 {
        self.number(at::SPEED)
    }

    pub fn integral(&self) -> i64 {
        self.number(at::INTEGRAL)
    }

    pub fn setpoint(&self) -> i64 {
        self.field(at::SETPOINT, 6).iter().rev().fold(0, |sum, byte| sum << 8 | i64::from(*byte))
    }

    fn number(&self, at: usize) -> i64 {
        i32::from_le_bytes(self.field(at, 4).try_into().unwrap()).into()
    }

    fn field(&self, at: usize, len: usize) -> &[u8] {
        &self.net[slot(0) + at..][..len]
    }
}
