//! The servo, type 0 version 10. Speeds and the setpoint are in 65,536ths of a count.

use super::homing::{Homing, LIMITS_MOST};
use super::station::{unknown_code, Device, Station, NOT_NOW, OUT_OF_RANGE, WRONG_COUNT};
use crate::branches::{all_hold, either, reach, uncounted, Branch};
use crate::calls::Sample;
use crate::slips::Slip;

/// Most that a velocity or an acceleration may be.
pub const SPEED_MOST: u32 = 83_886_080;
const SETPOINTS: i64 = 1 << 48;
const HALF_TURN: u32 = 1 << 31;

pub const LOW: u8 = 0;
pub const GOOD: u8 = 1;
pub const HIGH: u8 = 2;

#[derive(Clone, Debug, Default, PartialEq, Eq)]
pub struct ServoSample {
    pub raw: u32,
    pub power: u8,
    pub ad: u8,
    /// Limit 1 in bit 0, limit 2 in bit 1.
    pub inputs: u8,
}

#[derive(Clone, Debug, PartialEq, Eq)]
pub struct Gains {
    pub kp: u16,
    pub kd: u16,
    pub ki: u16,
    /// Integration limit.
    pub il: u16,
    /// Output limit.
    pub ol: u8,
    pub cl: u8,
    /// Error limit.
    pub el: u16,
    pub sm: u8,
}

#[derive(Clone, Copy, Debug, Default, PartialEq, Eq)]
pub enum Way {
    #[default]
    Pwm,
    Velocity,
    Trapezoid,
}

/// The waiting load. Numbers and their flags stand apart as in the record; where none waits all is 0.
#[derive(Clone, Debug, Default, PartialEq, Eq)]
pub struct Load {
    pub waits: bool,
    pub way: Way,
    pub position_carried: bool,
    pub position: u32,
    pub pwm_carried: bool,
    pub pwm: u8,
    pub reverse: bool,
}

/// What a load's data carry: a number is there where its bit is set and the data go that far.
struct Carried {
    control: u8,
    position: Option<u32>,
    velocity: Option<u32>,
    acceleration: Option<u32>,
    pwm: Option<u8>,
}

impl Carried {
    fn by(control: u8, rest: &[u8]) -> Carried {
        let bit = |bit: u8| control >> bit & 1 == 1;
        let mut numbers = rest.chunks_exact(4).map(|four| u32::from_le_bytes(four.try_into().expect("four bytes")));
        let mut number = |carried: bool| if carried { numbers.next() } else { None };
        Carried {
            control,
            position: number(bit(0)),
            velocity: number(bit(1)),
            acceleration: number(bit(2)),
            pwm: if bit(3) { rest.get(Servo::load_count(control) - 2).copied() } else { None },
        }
    }

    fn bit(&self, bit: u8) -> bool {
        self.control >> bit & 1 == 1
    }

    fn ranges(&self, slip: Slip) -> [(bool, Branch); 3] {
        let (velocity, acceleration) = (self.velocity.unwrap_or(0), self.acceleration.unwrap_or(1));
        [
            (velocity <= SPEED_MOST || slip == Slip::VelocityOfAnySize, Branch::LoadVelocityLarge),
            (acceleration != 0 || slip == Slip::AccelerationNone, Branch::LoadAccelerationNone),
            (acceleration <= SPEED_MOST, Branch::LoadAccelerationLarge),
        ]
    }
}

#[derive(Clone, Copy, Debug, PartialEq, Eq)]
pub enum Mode {
    Off,
    Pwm,
    Holding,
    Velocity,
    Trapezoid,
}

#[derive(Clone, Debug, PartialEq, Eq)]
pub struct Servo {
    pub station: Station,
    pub latched: ServoSample,
    pub offset: u32,
    pub last_position: u32,
    pub gains: Gains,
    /// Of the executed loads since power-up, and whether there was one.
    pub velocity: u32,
    pub acceleration: u32,
    pub velocity_loaded: bool,
    pub acceleration_loaded: bool,
    pub load: Load,
    /// Below 2^48: the whole part modulo 2^32 above sixteen bits of fraction.
    pub setpoint: i64,
    pub speed: i64,
    pub goal: u32,
    pub goal_speed: i64,
    /// What the running profile started with.
    pub running_acceleration: u32,
    pub top: u32,
    pub integral: i64,
    pub previous_error: i64,
    pub mode: Mode,
    pub pwm: i64,
    pub output: i64,
    pub error: bool,
    pub amplifier: bool,
    /// Whether the last filter tick was cut: there was more to put out than OL.
    pub cut: bool,
    /// Where homing last found its switch, relative as positions are.
    pub home: u32,
    /// While it is in progress.
    pub homing: Option<Homing>,
}

fn two(bytes: &[u8]) -> u16 {
    u16::from_le_bytes([bytes[0], bytes[1]])
}

fn signed(size: i64, negative: bool) -> i64 {
    if negative {
        -size
    } else {
        size
    }
}

pub(super) fn one_fails(conditions: &[(bool, Branch)]) -> bool {
    conditions.iter().any(|(holds, _)| !holds)
}

/// The cause of a Stop whose bits are out of range; it may be not now besides.
fn stop_out_of_range(control: u8, not_now: bool, slip: Slip) -> u8 {
    if not_now {
        reach(Branch::RangeBeforeNotNowStop);
    }
    let upper_bits = control >> 5 != 0;
    match slip {
        Slip::StopKindsAsCount if !upper_bits => WRONG_COUNT,
        Slip::StopUpperBitsAsCount if upper_bits => WRONG_COUNT,
        Slip::StopNotNowBeforeRange if not_now => NOT_NOW,
        _ => OUT_OF_RANGE,
    }
}

/// u in whole numbers of the output, toward zero.
fn divided(u: i64, slip: Slip) -> i64 {
    if slip == Slip::ShiftForDivide {
        u >> 8
    } else {
        u / 256
    }
}

/// The size held to a limit, the sign kept.
fn held(number: i64, limit: i64) -> i64 {
    number.clamp(-limit, limit)
}

fn whole(setpoint: i64) -> u32 {
    (setpoint >> 16) as u32
}

/// 65,536ths from a setpoint to a goal, the shorter way round.
pub fn distance(goal: u32, setpoint: i64) -> i64 {
    i64::from(goal.wrapping_sub(whole(setpoint)) as i32) * 65_536 - (setpoint & 0xFFFF)
}

/// Whether a goal is as far from a setpoint the one way round as the other.
pub fn is_half_turn(goal: u32, setpoint: i64) -> bool {
    goal.wrapping_sub(whole(setpoint)) == HALF_TURN
}

/// w + (w - a) + (w - 2a) + ..., the positive terms, counted and summed at once.
pub fn stopping_sum(w: i64, a: i64, slip: Slip) -> i64 {
    if w <= 0 {
        return 0;
    }
    let terms = i128::from(if slip == Slip::StoppingTermsRoundedDown { w / a } else { (w + a - 1) / a });
    let halves = if slip == Slip::StoppingSumWithoutHalf { 1 } else { 2 };
    let sum = terms * i128::from(w) - i128::from(a) * terms * (terms - 1) / halves;
    let sum = i64::try_from(sum).expect("no speed needs that much");
    if slip == Slip::StoppingSumIn32Bits {
        sum & 0xFFFF_FFFF
    } else {
        sum
    }
}

/// The greatest speed within a of v, from 0 to the top, that can still stop within d. The sum only grows with the
/// speed, so the range is halved. Slowing down by a is always within d for a record that passes.
pub fn greatest_speed(v: i64, a: i64, top: i64, d: i64, slip: Slip) -> i64 {
    let (mut can, mut beyond) = ((v - a).max(0), (v + a).min(top) + 1);
    let mut halvings = if slip == Slip::TwentySixHalvings { 26 } else { 27 };
    while can + 1 < beyond && halvings > 0 {
        let between = (can + beyond) / 2;
        if stopping_sum(between, a, slip) <= d {
            can = between;
        } else {
            beyond = between;
        }
        halvings -= 1;
    }
    can
}

impl Servo {
    pub fn position(&self) -> u32 {
        self.latched.raw.wrapping_sub(self.offset)
    }

    /// PWM counts as servo off.
    pub fn servo_off(&self) -> bool {
        matches!(self.mode, Mode::Off | Mode::Pwm)
    }

    pub fn distance(&self) -> i64 {
        distance(self.goal, self.setpoint)
    }

    /// What every start and every hold needs.
    fn ready(&self) -> bool {
        self.latched.power == GOOD && !self.error
    }

    fn go_off(&mut self, slip: Slip) {
        self.mode = Mode::Off;
        self.speed = 0;
        self.pwm = 0;
        if slip != Slip::OffKeepsOutput {
            self.output = 0;
        }
        self.integral = 0;
        self.previous_error = 0;
        self.cut &= slip == Slip::OffKeepsCut;
        self.error |= slip == Slip::OffSetsErrorBit;
    }

    /// A tick at power 0: servo and PWM go off. A waiting load stays, and the amplifier bit too, so that the enable line
    /// comes back with power.
    fn lose_power(&mut self, slip: Slip) {
        if slip == Slip::LowPowerLeavesServoOn {
            self.output = 0;
            return;
        }
        self.go_off(slip);
        self.amplifier &= slip != Slip::LowPowerClearsAmplifier;
        if slip == Slip::LowPowerDropsLoad {
            self.load = Load::default();
        }
        self.end_homing_by(Slip::LowPowerEndsHoming, slip);
    }

    fn hold(&mut self, at: u32, slip: Slip) -> Result<(), u8> {
        let any_power = slip == Slip::HoldNeedsNoPower;
        let can = all_hold(&[
            (self.latched.power != LOW || any_power, Branch::HoldPowerLow),
            (self.latched.power != HIGH || any_power, Branch::HoldPowerHigh),
            (!self.error || slip == Slip::HoldIgnoresErrorBit, Branch::HoldErrorBit),
        ]);
        if !can {
            return Err(NOT_NOW);
        }
        reach(Branch::Holds);
        self.mode = Mode::Holding;
        self.setpoint = i64::from(at) << 16;
        self.speed = 0;
        self.pwm = 0;
        if slip != Slip::HoldKeepsMemory {
            self.integral = 0;
            self.previous_error = 0;
        }
        self.cut &= slip != Slip::HoldClearsCut;
        Ok(())
    }

    fn reset_position(&mut self, slip: Slip) -> Result<(), u8> {
        if self.speed != 0 && slip != Slip::ResetPositionMoving {
            reach(Branch::ResetPositionNotNow);
            return Err(NOT_NOW);
        }
        reach(Branch::ResetPosition);
        let by = self.position();
        self.offset = self.offset.wrapping_add(by);
        if slip != Slip::ResetPositionShowsChange {
            self.last_position = self.last_position.wrapping_sub(by);
        }
        self.setpoint = (self.setpoint - (i64::from(by) << 16)).rem_euclid(SETPOINTS);
        if slip == Slip::ResetPositionZeroesSetpoint {
            self.setpoint = 0;
        }
        if slip != Slip::ResetPositionLeavesGoal {
            self.goal = self.goal.wrapping_sub(by);
        }
        if slip != Slip::ResetPositionKeepsLoad {
            self.load = Load::default();
        }
        self.cut &= slip != Slip::ResetPositionClearsCut;
        self.shift_home(by, slip);
        Ok(())
    }

    /// Data bytes that a load has, its control byte among them.
    pub fn load_count(control: u8) -> usize {
        1 + 4 * (control & 7).count_ones() as usize + usize::from(control >> 3 & 1)
    }

    fn load_trajectory(&mut self, data: &[u8], slip: Slip) -> Result<(), u8> {
        let (control, rest) = data.split_first().ok_or_else(|| {
            reach(Branch::LoadEmpty);
            WRONG_COUNT
        })?;
        let carried = Carried::by(*control, rest);
        let ranges = carried.ranges(slip);
        let bad = one_fails(&ranges);
        let (asked, sent) = (Servo::load_count(*control), data.len());
        let long_taken = sent > asked && slip == Slip::LoadCountIsLeast;
        if sent != asked && !long_taken && !(bad && slip == Slip::LoadRangeBeforeCount) {
            let short = either(sent < asked, Branch::LoadShort, Branch::LoadLong);
            if bad {
                either(short, Branch::CountBeforeRangeShortLoad, Branch::CountBeforeRangeLongLoad);
            }
            if carried.bit(7) && !self.ready() {
                reach(Branch::CountBeforeNotNowLoad);
            }
            if slip == Slip::ShortLoadKeepsVelocity {
                self.velocity = carried.velocity.filter(|velocity| *velocity <= SPEED_MOST).unwrap_or(self.velocity);
            }
            return Err(WRONG_COUNT);
        }
        if !all_hold(&ranges) {
            return Err(self.load_out_of_range(&carried, slip));
        }
        self.take(&carried, slip);
        if either(carried.bit(7), Branch::LoadStartsNow, Branch::LoadWaits) {
            return self.start(true, slip);
        }
        Ok(())
    }

    /// The cause of a load with a number out of range; its start may be not now besides.
    fn load_out_of_range(&self, carried: &Carried, slip: Slip) -> u8 {
        let mut loaded = self.clone();
        let start = uncounted(|| {
            loaded.take(carried, slip);
            loaded.start(true, slip)
        });
        let not_now = carried.bit(7) && start.is_err();
        if not_now {
            reach(Branch::RangeBeforeNotNowLoad);
        }
        match slip {
            Slip::LoadRangeAsCount => WRONG_COUNT,
            Slip::LoadNotNowBeforeRange if not_now => NOT_NOW,
            _ => OUT_OF_RANGE,
        }
    }

    fn take(&mut self, carried: &Carried, slip: Slip) {
        self.take_load(carried, slip);
        self.take_rates(carried);
    }

    /// An executed load replaces the waiting one.
    fn take_load(&mut self, carried: &Carried, slip: Slip) {
        let Carried { position, pwm, .. } = carried;
        let bit = |bit: u8| carried.bit(bit);
        let (way, branch) = match (bit(4), bit(5)) {
            (false, _) => (Way::Pwm, Branch::LoadOfPwm),
            (true, true) => (Way::Velocity, Branch::LoadOfVelocity),
            (true, false) => (Way::Trapezoid, Branch::LoadOfTrapezoid),
        };
        reach(branch);
        let before = self.load.clone();
        either(before.waits, Branch::LoadReplaces, Branch::LoadFirst);
        self.load = Load {
            waits: true,
            way,
            position_carried: either(position.is_some(), Branch::LoadHasPosition, Branch::LoadLacksPosition),
            position: position.unwrap_or(0),
            pwm_carried: either(pwm.is_some(), Branch::LoadHasPwm, Branch::LoadLacksPwm),
            pwm: pwm.unwrap_or(0),
            reverse: bit(6),
        };
        if slip == Slip::LoadKeepsOldPosition && !self.load.position_carried {
            self.load.position_carried = before.position_carried;
            self.load.position = before.position;
        }
        if slip == Slip::ReverseStays {
            self.load.reverse |= before.reverse;
        }
        if slip == Slip::TrapezoidRelative && way == Way::Trapezoid && bit(6) {
            self.load.position = self.load.position.wrapping_add(whole(self.setpoint));
        }
    }

    /// Velocity and acceleration stay for later loads, each where it was carried.
    fn take_rates(&mut self, carried: &Carried) {
        either(carried.velocity.is_some(), Branch::LoadHasVelocity, Branch::LoadLacksVelocity);
        if let Some(velocity) = carried.velocity {
            self.velocity = velocity;
            self.velocity_loaded = true;
        }
        either(carried.acceleration.is_some(), Branch::LoadHasAcceleration, Branch::LoadLacksAcceleration);
        if let Some(acceleration) = carried.acceleration {
            self.acceleration = acceleration;
            self.acceleration_loaded = true;
        }
    }

    /// Whether the waiting load can be started from a setpoint; `now` if its own bit 7 asks for it.
    fn can_start(&self, from: i64, now: bool, slip: Slip) -> bool {
        let branch = |start: Branch, start_now: Branch| if now { start_now } else { start };
        let any = [
            (self.load.waits, Branch::StartNothingWaits),
            (self.latched.power != LOW, branch(Branch::StartPowerLow, Branch::NowPowerLow)),
            (
                self.latched.power != HIGH || slip == Slip::StartAtHighPower,
                branch(Branch::StartPowerHigh, Branch::NowPowerHigh),
            ),
            (!self.error || slip == Slip::StartIgnoresErrorBit, branch(Branch::StartErrorBit, Branch::NowErrorBit)),
        ];
        let own = match self.load.way {
            // where none waits, what the load would lack is no further reason
            _ if !self.load.waits => Vec::new(),
            Way::Pwm => {
                let carried = self.load.pwm_carried || slip == Slip::StartWithoutPwm;
                vec![(carried, branch(Branch::StartNoPwm, Branch::NowNoPwm))]
            }
            Way::Velocity => self.velocity_needs(branch, slip),
            Way::Trapezoid => self.trapezoid_needs(from, branch, slip),
        };
        all_hold(&[&any[..], &own].concat())
    }

    /// What a start of velocity mode needs besides.
    fn velocity_needs(&self, branch: impl Fn(Branch, Branch) -> Branch, slip: Slip) -> Vec<(bool, Branch)> {
        let rest = self.speed == 0 || slip != Slip::VelocityNeedsRest;
        vec![
            (self.velocity_loaded && rest, branch(Branch::StartVelocityNoVelocity, Branch::NowVelocityNoVelocity)),
            (
                self.acceleration_loaded || slip == Slip::StartWithoutAcceleration,
                branch(Branch::StartVelocityNoAcceleration, Branch::NowVelocityNoAcceleration),
            ),
        ]
    }

    /// What a start of a trapezoid needs besides.
    fn trapezoid_needs(&self, from: i64, branch: impl Fn(Branch, Branch) -> Branch, slip: Slip) -> Vec<(bool, Branch)> {
        let load = &self.load;
        let judged = if slip == Slip::HalfTurnFromOldSetpoint { self.setpoint } else { from };
        let half_turn = load.position_carried && is_half_turn(load.position, judged);
        let half_turn_as = if self.servo_off() {
            branch(Branch::StartHalfTurnFromOff, Branch::NowHalfTurnFromOff)
        } else {
            branch(Branch::StartHalfTurn, Branch::NowHalfTurn)
        };
        let goes = self.velocity > 0 || !self.velocity_loaded || slip == Slip::TrapezoidWithoutSpeed;
        let ramp = self.acceleration_loaded || slip == Slip::StartWithoutAcceleration;
        let rests = self.speed == 0 || slip == Slip::TrapezoidWhileMoving;
        vec![
            (self.velocity_loaded, branch(Branch::StartTrapezoidNoVelocity, Branch::NowTrapezoidNoVelocity)),
            (ramp, branch(Branch::StartTrapezoidNoAcceleration, Branch::NowTrapezoidNoAcceleration)),
            (load.position_carried, branch(Branch::StartNoPosition, Branch::NowNoPosition)),
            (goes, branch(Branch::StartVelocityZero, Branch::NowVelocityZero)),
            (rests, branch(Branch::StartMoving, Branch::NowMoving)),
            (!half_turn || slip == Slip::HalfTurnTaken, half_turn_as),
        ]
    }

    /// Starts the waiting load, or tells that it is not now.
    fn start(&mut self, now: bool, slip: Slip) -> Result<(), u8> {
        let here = i64::from(self.position()) << 16;
        let from = if self.servo_off() && slip != Slip::StartFromOldSetpoint { here } else { self.setpoint };
        if !self.can_start(from, now, slip) {
            return Err(NOT_NOW);
        }
        let load = self.load.clone();
        match load.way {
            Way::Pwm => self.start_pwm(&load, slip),
            Way::Velocity => {
                either(load.reverse, Branch::StartsVelocityReversed, Branch::StartsVelocity);
                self.start_profile(Mode::Velocity, from, slip);
                self.goal_speed = signed(i64::from(self.velocity), load.reverse);
            }
            Way::Trapezoid => {
                either(load.reverse, Branch::StartsTrapezoidReversed, Branch::StartsTrapezoid);
                self.start_profile(Mode::Trapezoid, from, slip);
                self.goal = load.position;
                self.top = self.velocity;
            }
        }
        if slip != Slip::StartTwice {
            self.load = Load::default();
        }
        if slip == Slip::StartForgetsNumbers {
            self.velocity_loaded = false;
        }
        self.note_homing(Branch::StartWhileHoming);
        self.end_homing_by(Slip::StartEndsHoming, slip);
        Ok(())
    }

    fn start_pwm(&mut self, load: &Load, slip: Slip) {
        either(load.reverse, Branch::StartsPwmReversed, Branch::StartsPwm);
        let before = self.clone();
        self.go_off(Slip::None);
        self.mode = Mode::Pwm;
        self.pwm = signed(i64::from(load.pwm), load.reverse);
        if slip == Slip::PwmStartKeepsOutput {
            self.output = before.output;
        }
        if slip == Slip::PwmStartKeepsMemory {
            self.previous_error = before.previous_error;
        }
        if slip == Slip::PwmStartKeepsCut {
            self.cut = before.cut;
        }
    }

    /// What every profile begins with.
    fn start_profile(&mut self, mode: Mode, from: i64, slip: Slip) {
        either(self.servo_off(), Branch::FromServoOff, Branch::FromServoOn);
        self.mode = mode;
        self.setpoint = from;
        self.running_acceleration = self.acceleration;
        self.pwm = 0;
        self.cut &= slip != Slip::ProfileClearsCut;
    }

    fn set_gain(&mut self, data: &[u8], slip: Slip) -> Result<(), u8> {
        // bytes that are missing are none that are bad: SR 1, all else 0
        let mut bytes = [0, 0, 0, 0, 0, 0, 0, 0, 0, 0, 0, 0, 1, 0, 0];
        bytes[..data.len()].copy_from_slice(data);
        let [.., ol, cl, _, _, sr, db, sm] = bytes;
        let gains = Gains {
            kp: two(&bytes),
            kd: two(&bytes[2..]),
            ki: two(&bytes[4..]),
            il: two(&bytes[6..]),
            ol,
            cl,
            el: two(&bytes[10..]),
            sm,
        };
        let ranges = [
            (gains.kp <= 32_767, Branch::GainKp),
            (gains.kd <= 32_767, Branch::GainKd),
            (gains.ki <= 32_767, Branch::GainKi),
            (gains.il <= 32_767, Branch::GainIl),
            (gains.el <= if slip == Slip::ErrorLimitTo32767 { 32_767 } else { 16_383 }, Branch::GainEl),
            (sr == 1 || slip == Slip::ServoRateOfAnySize, Branch::GainSr),
            (db == 0, Branch::GainDb),
        ];
        let bad = one_fails(&ranges);
        if data.len() != bytes.len() && !(bad && slip == Slip::GainRangeBeforeCount) {
            reach(Branch::SetGainCount);
            if bad {
                reach(Branch::CountBeforeRangeGain);
            }
            return Err(WRONG_COUNT);
        }
        if slip == Slip::GainStoredWhileTested && gains.kp <= 32_767 {
            self.gains.kp = gains.kp;
        }
        if !all_hold(&ranges) {
            return Err(if slip == Slip::GainRangeAsCount { WRONG_COUNT } else { OUT_OF_RANGE });
        }
        reach(Branch::GainsStored);
        self.gains = gains;
        self.cut &= slip != Slip::GainClearsCut;
        Ok(())
    }

    fn stop(&mut self, data: &[u8], slip: Slip) -> Result<(), u8> {
        let (control, rest) = data.split_first().ok_or_else(|| {
            reach(Branch::StopEmpty);
            WRONG_COUNT
        })?;
        let kinds = control >> 1 & 15;
        let bit = |bit: u8| control >> bit & 1 == 1;
        let ranges = [
            (kinds.count_ones() <= 1 || slip == Slip::StopOfTwoKinds, Branch::StopSeveral),
            (control >> 5 == 0, Branch::StopUpperBits),
        ];
        let bad = one_fails(&ranges);
        let not_now = (bit(2) || bit(4)) && !self.ready();
        // bit 4 alone asks for a position, be the other bits good or bad
        let wrong_count = rest.len() != if bit(4) { 4 } else { 0 };
        if wrong_count && !(bad && slip == Slip::StopRangeBeforeCount) {
            either(bit(4), Branch::StopHereCount, Branch::StopCount);
            if bad {
                either(bit(4), Branch::CountBeforeRangeStopHere, Branch::CountBeforeRangeStop);
            }
            if not_now {
                reach(Branch::CountBeforeNotNowStop);
            }
            return Err(WRONG_COUNT);
        }
        if !all_hold(&ranges) {
            return Err(stop_out_of_range(*control, not_now, slip));
        }
        self.stop_motion(kinds, rest, slip)?;
        if (kinds != 0 && slip != Slip::StopKeepsLoad) || slip == Slip::AmplifierDropsLoad {
            self.load = Load::default();
        }
        self.set_amplifier(control & 1 == 1, slip);
        self.note_homing(Branch::StopWhileHoming);
        self.end_homing_by(Slip::StopEndsHoming, slip);
        Ok(())
    }

    /// Stop sets or clears the amplifier bit, whatever power is.
    fn set_amplifier(&mut self, set: bool, slip: Slip) {
        let before = self.amplifier;
        self.amplifier = match slip {
            Slip::StopNeverDisables => set || before,
            Slip::AmplifierNeedsPower => set && self.latched.power == GOOD,
            _ => set,
        };
        either(self.amplifier, Branch::StopSetsAmplifier, Branch::StopClearsAmplifier);
        if self.latched.power == LOW && self.amplifier != before {
            either(self.amplifier, Branch::StopSetsAmplifierAtLow, Branch::StopClearsAmplifierAtLow);
        }
    }

    pub(super) fn stop_motion(&mut self, kinds: u8, rest: &[u8], slip: Slip) -> Result<(), u8> {
        if self.load.waits {
            either(kinds == 0, Branch::StopKeepsLoad, Branch::StopDropsLoad);
        }
        match kinds {
            0 => reach(Branch::StopAmplifier),
            kind if kind & 1 != 0 => {
                reach(Branch::StopOff);
                self.go_off(slip);
            }
            kind if kind & 2 != 0 => {
                reach(Branch::StopAbrupt);
                let at = if slip == Slip::AbruptHoldsSetpoint { whole(self.setpoint) } else { self.position() };
                self.hold(at, slip)?;
            }
            kind if kind & 4 != 0 => self.stop_smoothly(slip),
            _ => {
                reach(Branch::StopHere);
                self.hold(u32::from_le_bytes(rest.try_into().expect("four bytes")), slip)?;
            }
        }
        Ok(())
    }

    fn stop_smoothly(&mut self, slip: Slip) {
        reach(match self.mode {
            Mode::Off => Branch::SmoothOff,
            Mode::Pwm => Branch::SmoothPwm,
            Mode::Holding => Branch::SmoothHolding,
            Mode::Velocity => Branch::SmoothVelocity,
            Mode::Trapezoid => Branch::SmoothTrapezoid,
        });
        match self.mode {
            Mode::Off => {}
            Mode::Pwm if slip == Slip::SmoothLeavesPwm => {}
            Mode::Pwm => self.go_off(slip),
            Mode::Holding | Mode::Velocity | Mode::Trapezoid => {
                self.mode = Mode::Velocity;
                self.goal_speed = 0;
                if slip == Slip::SmoothWithLaterAcceleration {
                    self.running_acceleration = self.acceleration;
                }
                self.cut &= slip != Slip::SmoothClearsCut;
            }
        }
    }

    /// The cause of a command that has no data, but came with some; without them it may be not now.
    fn with_data(&self, alone: impl Fn(&mut Servo) -> Result<(), u8>, hidden: Branch, slip: Slip) -> u8 {
        let not_now = uncounted(|| alone(&mut self.clone())).is_err();
        if not_now {
            reach(hidden);
        }
        if not_now && slip == Slip::NotNowBeforeCount {
            NOT_NOW
        } else {
            WRONG_COUNT
        }
    }

    /// A PWM value is held likewise, but that is no filter tick: the cut bit stays clear.
    fn put_out_pwm(&mut self, slip: Slip) {
        let limit = if slip == Slip::PwmUnlimited { 255 } else { i64::from(self.gains.ol) };
        if self.pwm.abs() > limit {
            reach(Branch::TickPwmHeld);
            self.cut |= slip == Slip::PwmHeldIsCut;
        }
        self.output = held(self.pwm, limit);
    }

    /// One step of the profile: the new speed, and the setpoint moved by it.
    fn profile(&mut self, slip: Slip) {
        let old_speed = self.speed;
        match self.mode {
            Mode::Velocity => {
                let a = i64::from(self.running_acceleration);
                let change = self.goal_speed - self.speed;
                either(change.abs() > a, Branch::SpeedByAcceleration, Branch::SpeedToGoal);
                self.speed += if slip == Slip::VelocityPassesGoal { change.signum() * a } else { held(change, a) };
            }
            Mode::Trapezoid => self.speed = self.trapezoid_speed(slip),
            Mode::Off | Mode::Pwm | Mode::Holding => {}
        }
        let step = if slip == Slip::OldSpeedMoves { old_speed } else { self.speed };
        self.setpoint = (self.setpoint + step).rem_euclid(SETPOINTS);
    }

    fn trapezoid_speed(&self, slip: Slip) -> i64 {
        let (d, v, a) = (self.distance(), self.speed.abs(), i64::from(self.running_acceleration));
        let top = i64::from(match slip {
            Slip::LaterVelocityUsed => self.velocity,
            Slip::TrapezoidWithoutTop => SPEED_MOST,
            _ => self.top,
        });
        let within = if slip == Slip::TrapezoidStopsLate { d.abs() + a } else { d.abs() };
        let w = greatest_speed(v, a, top, within, slip);
        reach(if w == v + a {
            Branch::TrapezoidFaster
        } else if w == top {
            Branch::TrapezoidAtTop
        } else if w == (v - a).max(0) {
            Branch::TrapezoidSlower
        } else {
            Branch::TrapezoidBetween
        });
        signed(w, either(d < 0, Branch::TrapezoidMirrored, Branch::TrapezoidForward))
    }

    fn filter(&mut self, setpoint: i64, slip: Slip) {
        let e = i64::from(whole(setpoint).wrapping_sub(self.position()) as i32);
        let gains = &self.gains;
        if e.abs() > i64::from(gains.el) || (e.abs() == i64::from(gains.el) && slip == Slip::TripAtLimit) {
            either(e > 0, Branch::TripsAbove, Branch::TripsBelow);
            self.note_homing(Branch::TripWhileHoming);
            self.end_homing_by(Slip::TripEndsHoming, slip);
            self.error = true;
            if slip == Slip::TripStaysOn {
                return;
            }
            self.go_off(slip);
            if slip == Slip::TripKeepsError {
                self.previous_error = held(e, 16_383);
            }
            return;
        }
        reach(Branch::NoTrip);
        self.follow(e, slip);
    }

    /// The filter for an error that does not trip. Where there is more to put out than OL the tick is cut: its output
    /// stays as it was worked out, but its integral goes back to what it was, which may lie beyond a lowered IL.
    fn follow(&mut self, e: i64, slip: Slip) {
        let former = self.integral;
        let limit = i64::from(if slip == Slip::IntegralUnlimited { 32_767 } else { self.gains.il });
        either((former + e).abs() > limit, Branch::IntegralHeld, Branch::IntegralFree);
        self.integral = held(former + e, limit);
        let u = self.summed(e, slip);
        let wanted = divided(u, slip);
        self.put_out(wanted, slip);
        let cut = self.is_cut(u, wanted, slip);
        self.note_cut(former, e, u, wanted);
        if cut && !self.winds_up(e, wanted, slip) {
            self.integral = if slip == Slip::CutHoldsFormer { held(former, limit) } else { former };
        }
        if cut && slip == Slip::CutOutputAnew {
            self.put_out(divided(self.summed(e, slip), slip), slip);
        }
        if !cut || slip != Slip::CutKeepsPrevious {
            self.previous_error = e;
        }
        self.cut = match slip {
            Slip::CutStays => cut || self.cut,
            Slip::HighPowerHidesCut => cut && self.latched.power != HIGH,
            _ => cut,
        };
    }

    fn output_limit(&self, slip: Slip) -> i64 {
        if slip == Slip::OutputTo255 {
            255
        } else {
            self.gains.ol.into()
        }
    }

    fn put_out(&mut self, wanted: i64, slip: Slip) {
        let limit = self.output_limit(slip);
        either(wanted.abs() > limit, Branch::OutputHeld, Branch::OutputFree);
        self.output = held(wanted, limit);
    }

    /// Whether OL cuts something off: what the division loses is nothing of that.
    fn is_cut(&self, u: i64, wanted: i64, slip: Slip) -> bool {
        let limit = self.output_limit(slip);
        match slip {
            Slip::CutAtLimit => wanted.abs() >= limit,
            Slip::CutByFraction => u.abs() > 256 * limit,
            Slip::CutAboveOnly => wanted > limit,
            _ => wanted.abs() > limit,
        }
    }

    /// Whether a slip lets a cut tick keep its new integral.
    fn winds_up(&self, e: i64, wanted: i64, slip: Slip) -> bool {
        match slip {
            Slip::CutWindsUp => true,
            Slip::CutBackBySide => e.signum() != wanted.signum(),
            Slip::HighPowerWindsUp => self.latched.power == HIGH,
            _ => false,
        }
    }

    /// Counts what a tick comes to by what there is to put out, the cut bit still that of the tick before.
    fn note_cut(&self, former: i64, e: i64, u: i64, wanted: i64) {
        let (il, ol) = (i64::from(self.gains.il), i64::from(self.gains.ol));
        let past_il = former.abs() > il;
        let size = wanted.abs();
        let (cut, uncut) = (size > ol, size <= ol);
        let places = [
            (cut && wanted > 0, Branch::CutAbove),
            (cut && wanted < 0, Branch::CutBelow),
            (cut && ol == 0, Branch::CutToNothing),
            (cut && e.signum() * wanted.signum() < 0, Branch::CutAgainstError),
            (cut && past_il, Branch::CutPastIl),
            (cut && self.cut, Branch::CutAgain),
            (cut && self.latched.power == HIGH, Branch::CutAtHighPower),
            (uncut && size == ol && ol > 0, Branch::UncutAtLimit),
            (uncut && u.abs() > 256 * ol, Branch::UncutFraction),
            (uncut && ol == 0, Branch::UncutNothing),
            (uncut && past_il, Branch::UncutPastIl),
            (uncut && self.cut, Branch::UncutAfterCut),
        ];
        places.iter().filter(|(comes, _)| *comes).for_each(|(_, branch)| reach(*branch));
    }

    /// u for an error, once the integral has it.
    fn summed(&self, e: i64, slip: Slip) -> i64 {
        let gains = &self.gains;
        let change = e - self.previous_error;
        let damping = i64::from(gains.kd) * if slip == Slip::DerivativeSubtracted { -change } else { change };
        let sum = i64::from(gains.ki) * self.integral;
        let sum = if slip == Slip::IntegralDivided { sum / 256 } else { sum };
        let u = i64::from(gains.kp) * e + damping + sum;
        if i32::try_from(u).is_err() {
            reach(Branch::UBeyond32Bits);
        }
        if u < 0 && u % 256 != 0 {
            reach(Branch::UTowardZero);
        }
        if slip == Slip::SumIn32Bits {
            i64::from(u as i32)
        } else {
            u
        }
    }

    /// A tick upon the sample that is latched, after the one before it: power, homing, profile, filter.
    fn run(&mut self, before: &ServoSample, slip: Slip) {
        let low = self.latched.power == LOW || (self.latched.power == HIGH && slip == Slip::HighPowerGoesOff);
        let stop = self.find_home(before, slip);
        let stops_when = |when: Slip| stop.filter(|_| slip == when);
        if let Some(stop) = stops_when(Slip::HomeStopBeforePower) {
            self.stop_at_home(stop, before, slip);
        }
        if low {
            reach(Branch::TickPowerLow);
            self.note_homing(Branch::LowWhileHoming);
            self.lose_power(slip);
        }
        let otherwhen = match slip {
            Slip::HomeStopBeforePower | Slip::HomeStopAfterFilter => true,
            Slip::HomeStopAfterProfile => !self.servo_off(),
            _ => false,
        };
        if let Some(stop) = stop.filter(|_| !otherwhen) {
            self.stop_at_home(stop, before, slip);
        }
        if low {
            return;
        }
        reach(match self.mode {
            Mode::Off => Branch::TickOff,
            Mode::Pwm => Branch::TickPwm,
            Mode::Holding => Branch::TickHolding,
            Mode::Velocity => Branch::TickVelocity,
            Mode::Trapezoid => Branch::TickTrapezoid,
        });
        match self.mode {
            Mode::Off => {}
            Mode::Pwm => self.put_out_pwm(slip),
            Mode::Holding | Mode::Velocity | Mode::Trapezoid => {
                let unmoved = self.setpoint;
                self.profile(slip);
                if let Some(stop) = stops_when(Slip::HomeStopAfterProfile) {
                    self.stop_at_home(stop, before, slip);
                }
                if self.latched.power == GOOD || slip != Slip::HighPowerSkipsFilter {
                    self.filter(if slip == Slip::FilterBeforeProfile { unmoved } else { self.setpoint }, slip);
                }
            }
        }
        if let Some(stop) = stops_when(Slip::HomeStopAfterFilter) {
            self.stop_at_home(stop, before, slip);
        }
        if self.latched.power == HIGH && slip != Slip::HighPowerDrives {
            reach(Branch::TickPowerHigh);
            self.output = 0;
            self.amplifier &= slip != Slip::HighPowerClearsAmplifier;
        }
    }

    fn move_done(&self, slip: Slip) -> bool {
        match self.mode {
            Mode::Off => {
                reach(Branch::DoneOff);
                slip != Slip::MoveNotDoneOff
            }
            Mode::Pwm => {
                reach(Branch::DonePwm);
                true
            }
            Mode::Holding => {
                reach(Branch::DoneHolding);
                true
            }
            Mode::Velocity => either(self.speed == self.goal_speed, Branch::DoneVelocity, Branch::NotDoneVelocity),
            Mode::Trapezoid if self.distance() != 0 => {
                reach(Branch::NotDoneDistance);
                false
            }
            Mode::Trapezoid => {
                either(self.speed == 0, Branch::DoneTrapezoid, Branch::NotDoneSpeed) || slip == Slip::MoveDoneAtSpeed
            }
        }
    }
}

impl Device for Servo {
    const TYPE: u8 = 0;
    const VERSION: u8 = 10;
    type Measured = ServoSample;

    fn power_up() -> Servo {
        Servo {
            station: Station::power_up(),
            latched: ServoSample::default(),
            offset: 0,
            last_position: 0,
            gains: Gains { kp: 0, kd: 0, ki: 0, il: 0, ol: 0, cl: 0, el: 0, sm: 1 },
            velocity: 0,
            acceleration: 0,
            velocity_loaded: false,
            acceleration_loaded: false,
            load: Load::default(),
            setpoint: 0,
            speed: 0,
            goal: 0,
            goal_speed: 0,
            running_acceleration: 0,
            top: 0,
            integral: 0,
            previous_error: 0,
            mode: Mode::Off,
            pwm: 0,
            output: 0,
            error: true,
            amplifier: false,
            cut: false,
            home: 0,
            homing: None,
        }
    }

    fn station(&self) -> &Station {
        &self.station
    }

    fn station_mut(&mut self) -> &mut Station {
        &mut self.station
    }

    fn count(code: u8, data: &[u8]) -> usize {
        let control = data.first().copied().unwrap_or(0);
        match code {
            1 => 2,
            2 | 3 | 9 | 10 => 1,
            4 => Servo::load_count(control),
            6 => 15,
            7 if control >> 4 & 1 == 1 => 5,
            7 => 1,
            _ => 0,
        }
    }

    fn command(&mut self, code: u8, data: &[u8], slip: Slip) -> Result<(), u8> {
        match (code, data.len()) {
            (0, 0) => self.reset_position(slip),
            (4, _) => self.load_trajectory(data, slip),
            (5, 0) => self.start(false, slip),
            (6, _) => self.set_gain(data, slip),
            (7, _) => self.stop(data, slip),
            (9, _) => self.set_homing(data, slip),
            (11, 0) => {
                reach(Branch::ClearBits);
                self.end_homing_by(Slip::ClearBitsEndsHoming, slip);
                if slip != Slip::ClearBitsNeedsServo || !self.servo_off() {
                    self.error = false;
                }
                self.cut &= slip != Slip::ClearBitsClearsCut;
                Ok(())
            }
            (0, _) => {
                reach(Branch::ResetPositionCount);
                Err(self.with_data(|alone| alone.reset_position(slip), Branch::CountBeforeNotNowReset, slip))
            }
            (5, _) => {
                reach(Branch::StartCount);
                Err(self.with_data(|alone| alone.start(false, slip), Branch::CountBeforeNotNowStart, slip))
            }
            (11, _) => {
                reach(Branch::ClearBitsCount);
                Err(WRONG_COUNT)
            }
            _ if slip == Slip::UnknownCodeExecuted => Ok(()),
            _ => {
                reach(Branch::ServoUnknown);
                Err(unknown_code(slip))
            }
        }
    }

    fn hard_reset(&mut self, slip: Slip) {
        reach(Branch::ServoReset);
        self.note_homing(Branch::ResetWhileHoming);
        let before = self.clone();
        *self = Servo::power_up();
        if slip != Slip::ResetDropsLatchedSample {
            self.latched = before.latched;
        }
        self.offset = if slip == Slip::ResetKeepsPosition { before.offset } else { self.latched.raw };
        if slip == Slip::ResetKeepsAddrOut {
            self.station.low = before.station.low;
        }
        self.error = slip != Slip::ResetClearsErrorBit;
        self.amplifier = before.amplifier && slip == Slip::ResetKeepsAmplifier;
        self.cut = before.cut && slip == Slip::ResetKeepsCut;
        if slip == Slip::ResetKeepsHoming {
            self.homing = before.homing;
        }
        if slip == Slip::ResetKeepsHome {
            self.home = before.home;
        }
        if slip == Slip::ResetDropsLimits {
            self.latched.inputs = 0;
        }
    }

    fn item(&self, bit: usize, slip: Slip) -> Vec<u8> {
        reach(match bit {
            0 => Branch::ServoPosition,
            1 => Branch::ServoAd,
            2 => Branch::ServoChange,
            4 => Branch::ServoHome,
            6 => Branch::ServoError,
            _ => Branch::ServoZero,
        });
        match bit {
            0 if slip == Slip::PositionIsRaw => self.latched.raw.to_le_bytes().to_vec(),
            0 => self.position().to_le_bytes().to_vec(),
            1 => vec![self.latched.ad],
            2 => (self.position().wrapping_sub(self.last_position) as u16).to_le_bytes().to_vec(),
            3 | 7 => vec![0],
            4 if slip == Slip::HomeNotShown => vec![0; 4],
            4 => self.home.to_le_bytes().to_vec(),
            6 => (self.previous_error as u16).to_le_bytes().to_vec(),
            _ => unreachable!("type and version are every type's"),
        }
    }

    fn status_bits(&self, slip: Slip) -> u8 {
        let good = self.latched.power == GOOD || (self.latched.power == HIGH && slip == Slip::HighPowerIsGood);
        either(good, Branch::PowerGood, Branch::PowerNotGood);
        either(self.error, Branch::ErrorBitSet, Branch::ErrorBitClear);
        let cut = either(self.cut, Branch::CutBitSet, Branch::CutBitClear) && slip != Slip::CutNotShown;
        let bits =
            u8::from(self.move_done(slip)) | u8::from(cut) << 2 | u8::from(good) << 3 | u8::from(self.error) << 4;
        bits | self.homing_bits(slip)
    }

    fn measured(sample: &Sample, slip: Slip) -> Option<ServoSample> {
        let [_, first, second, raw0, raw1, raw2, raw3, mut inputs, rest @ ..] = *sample;
        let (power, ad) = if slip == Slip::AdBeforePower { (second, first) } else { (first, second) };
        if slip == Slip::LimitsMasked {
            inputs &= LIMITS_MOST;
        }
        let mut raw = [raw0, raw1, raw2, raw3];
        if slip == Slip::RawMostSignificantFirst {
            raw.reverse();
        }
        let good = power <= HIGH || (power == HIGH + 1 && slip == Slip::PowerOf3Taken);
        let limits = inputs <= LIMITS_MOST || (inputs == LIMITS_MOST + 1 && slip == Slip::LimitsOf4Taken);
        let taken = good && limits && (rest == [0; 2] || slip != Slip::UnusedBytesTested);
        taken.then(|| ServoSample { raw: u32::from_le_bytes(raw), power, ad, inputs })
    }

    fn latch(&mut self, measured: ServoSample) {
        self.latched = measured;
    }

    fn tick(&mut self, measured: ServoSample, slip: Slip) {
        self.last_position = self.position();
        let before = self.latched.clone();
        if slip == Slip::ServoRunsOnOldSample {
            self.run(&before, slip);
            self.latch(measured);
            return;
        }
        match (self.amplifier, self.latched.power, measured.power) {
            (true, _, LOW) => reach(Branch::TickPowerLowAmplifier),
            (true, LOW, GOOD) => reach(Branch::EnableBackFromLow),
            (true, HIGH, GOOD) => reach(Branch::EnableBackFromHigh),
            _ => {}
        }
        self.latch(measured);
        self.run(&before, slip);
    }

    fn outputs(&self, slip: Slip) -> [u8; 8] {
        let good = self.latched.power == GOOD || slip == Slip::EnabledAtAnyPower;
        reach(match (self.amplifier, good) {
            (false, _) => Branch::EnableLow,
            (true, false) => Branch::EnableLowByPower,
            (true, true) => Branch::EnableHigh,
        });
        let size = u8::try_from(self.output.abs()).expect("at most 255");
        [size, u8::from(self.output < 0), u8::from(self.amplifier && good), 0, 0, 0, 0, 0]
    }
}
