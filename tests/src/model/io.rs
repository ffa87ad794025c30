//! The I/O module, type 2 version 1.

use super::station::{unknown_code, Device, Station, WRONG_COUNT};
use crate::branches::{reach, Branch};
use crate::calls::Sample;
use crate::slips::Slip;

pub const BITS: u16 = 0x0FFF;

#[derive(Clone, Debug, Default, PartialEq, Eq)]
pub struct IoSample {
    pub inputs: u16,
    pub ad: [u8; 3],
    pub counter: u32,
}

#[derive(Clone, Debug, PartialEq, Eq)]
pub struct Io {
    pub station: Station,
    pub latched: IoSample,
    /// 1 directs a bit as input.
    pub direction: u16,
    pub register: u16,
    pub pwm: [u8; 2],
    pub synch_bits: u16,
    pub synch_pwm: [u8; 2],
    pub timer_mode: u8,
    pub captured_inputs: u16,
    pub captured_counter: u32,
}

/// Twelve bits from two data bytes; what stands above them is not looked at.
fn twelve(low: u8, high: u8) -> u16 {
    u16::from_le_bytes([low, high]) & BITS
}

/// `new` where the mask has ones, `old` elsewhere.
fn blend(mask: u16, new: u16, old: u16) -> u16 {
    (new & mask) | (old & !mask)
}

/// A command of the I/O module that was executed, or that had another count than its own: no value is out of range.
fn command_as(code: u8, executed: bool) -> Branch {
    let (done, wrong_count) = match code {
        0 => (Branch::SetDirection, Branch::SetDirectionCount),
        4 => (Branch::SetPwm, Branch::SetPwmCount),
        5 => (Branch::SynchOutput, Branch::SynchOutputCount),
        6 => (Branch::SetOutput, Branch::SetOutputCount),
        7 => (Branch::SetSynchOutput, Branch::SetSynchOutputCount),
        8 => (Branch::SetTimerMode, Branch::SetTimerModeCount),
        12 => (Branch::SynchInput, Branch::SynchInputCount),
        _ => (Branch::IoUnknown, Branch::IoUnknown),
    };
    if executed {
        done
    } else {
        wrong_count
    }
}

impl Io {
    fn read_value(&self, slip: Slip) -> u16 {
        if slip == Slip::RegisterReadOnInputs {
            return self.register;
        }
        blend(self.direction, self.latched.inputs, self.register)
    }

    fn outputs_mask(&self) -> u16 {
        !self.direction & BITS
    }

    fn own_command(&mut self, code: u8, data: &[u8], slip: Slip) -> Result<(), u8> {
        match (code, data) {
            (0, [low, high]) => self.set_direction(twelve(*low, *high), slip),
            (4, [one, two]) => {
                self.pwm = [*one, *two];
                if slip == Slip::PwmIntoBuffer {
                    self.synch_pwm = self.pwm;
                }
            }
            (5, []) => self.synch_output(slip),
            (6, [low, high]) => {
                let mask = if slip == Slip::OutputOnInputs { BITS } else { self.outputs_mask() };
                self.register = blend(mask, twelve(*low, *high), self.register);
            }
            (7, [low, high, one, two]) => {
                self.synch_bits = twelve(*low, *high);
                if slip == Slip::SynchOutputMaskedEarly {
                    self.synch_bits &= self.outputs_mask();
                }
                self.synch_pwm = [*one, *two];
            }
            (8, [_]) if slip == Slip::TimerModeNotStored => {}
            (8, [mode]) => self.timer_mode = *mode,
            (12, []) => self.synch_input(slip),
            (9 | 11 | 13, _) if slip == Slip::UnknownCodeExecuted => {}
            (9 | 11 | 13, _) => return Err(unknown_code(slip)),
            _ => return Err(WRONG_COUNT),
        }
        Ok(())
    }

    fn set_direction(&mut self, direction: u16, slip: Slip) {
        self.direction = direction;
        if slip == Slip::DirectionInverted {
            self.direction ^= BITS;
        }
        if slip == Slip::DirectionClearsRegister {
            self.register &= self.outputs_mask();
        }
    }

    fn synch_output(&mut self, slip: Slip) {
        let mask = if slip == Slip::SynchOutputOnInputs { BITS } else { self.outputs_mask() };
        self.register = blend(mask, self.synch_bits, self.register);
        if slip != Slip::SynchOutputWithoutPwm {
            self.pwm = self.synch_pwm;
        }
        if slip == Slip::SynchOutputOnce {
            self.synch_bits = 0;
            self.synch_pwm = [0; 2];
        }
    }

    fn synch_input(&mut self, slip: Slip) {
        self.captured_inputs = self.read_value(slip);
        if slip == Slip::CaptureOfSampleAlone {
            self.captured_inputs = self.latched.inputs;
        }
        self.captured_counter = self.latched.counter;
    }
}

impl Device for Io {
    const TYPE: u8 = 2;
    const VERSION: u8 = 1;
    type Measured = IoSample;

    fn power_up() -> Io {
        Io {
            station: Station::power_up(),
            latched: IoSample::default(),
            direction: BITS,
            register: 0,
            pwm: [0; 2],
            synch_bits: 0,
            synch_pwm: [0; 2],
            timer_mode: 0,
            captured_inputs: 0,
            captured_counter: 0,
        }
    }

    fn station(&self) -> &Station {
        &self.station
    }

    fn station_mut(&mut self) -> &mut Station {
        &mut self.station
    }

    fn count(code: u8, _: &[u8]) -> usize {
        [2, 2, 1, 1, 2, 0, 2, 4, 1, 0, 1, 0, 0, 0, 0, 0][usize::from(code)]
    }

    fn command(&mut self, code: u8, data: &[u8], slip: Slip) -> Result<(), u8> {
        let outcome = self.own_command(code, data, slip);
        reach(command_as(code, outcome.is_ok()));
        outcome
    }

    fn hard_reset(&mut self, slip: Slip) {
        reach(Branch::IoReset);
        let before = self.clone();
        *self = Io::power_up();
        if slip != Slip::ResetDropsLatchedSample {
            self.latched = before.latched;
        }
        if slip == Slip::ResetKeepsAddrOut {
            self.station.low = before.station.low;
        }
    }

    fn item(&self, bit: usize, slip: Slip) -> Vec<u8> {
        reach(match bit {
            0 => Branch::IoInputs,
            1..=3 => Branch::IoAd,
            4 => Branch::IoCounter,
            6 => Branch::IoCapturedInputs,
            _ => Branch::IoCapturedCounter,
        });
        match bit {
            0 => self.read_value(slip).to_le_bytes().to_vec(),
            1..=3 => vec![self.latched.ad[bit - 1]],
            4 if slip == Slip::CounterMostSignificantFirst => self.latched.counter.to_be_bytes().to_vec(),
            4 => self.latched.counter.to_le_bytes().to_vec(),
            6 => self.captured_inputs.to_le_bytes().to_vec(),
            7 => self.captured_counter.to_le_bytes().to_vec(),
            _ => unreachable!("type and version are every type's"),
        }
    }

    fn status_bits(&self, _: Slip) -> u8 {
        0
    }

    fn measured(sample: &Sample, slip: Slip) -> Option<IoSample> {
        let [_, low, high, ad1, ad2, ad3, counter @ ..] = *sample;
        let inputs = u16::from_le_bytes([low, high]);
        let ad = if slip == Slip::ThirdAdFirst { [ad3, ad2, ad1] } else { [ad1, ad2, ad3] };
        let good = inputs <= BITS || (inputs == BITS + 1 && slip == Slip::InputsOf4096Taken);
        good.then(|| IoSample { inputs, ad, counter: u32::from_le_bytes(counter) })
    }

    fn latch(&mut self, measured: IoSample) {
        self.latched = measured;
    }

    fn tick(&mut self, measured: IoSample, slip: Slip) {
        reach(Branch::IoTick);
        if slip != Slip::IoLatchesNothing {
            self.latch(measured);
        }
    }

    fn outputs(&self, _: Slip) -> [u8; 8] {
        let direction = self.direction.to_le_bytes();
        let register = self.register.to_le_bytes();
        [direction[0], direction[1], register[0], register[1], self.pwm[0], self.pwm[1], 0, 0]
    }
}
