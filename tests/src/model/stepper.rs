//! The step-motor module, type 3 version 1: velocity mode alone. Speeds are in steps a tick.

use super::station::{unknown_code, Device, Station, NOT_NOW, OUT_OF_RANGE, WRONG_COUNT};
use crate::branches::{all_hold, either, reach, uncounted, Branch};
use crate::calls::Sample;
use crate::slips::Slip;
use std::cmp::Ordering;

/// Most that a speed may be, the minimum among them.
pub const STEPS_MOST: u8 = 250;

/// The waiting load; speed and T are 0 where it carried none. Where none waits all is 0.
#[derive(Clone, Debug, Default, PartialEq, Eq)]
pub struct StepLoad {
    pub waits: bool,
    pub backward: bool,
    pub speed: u8,
    pub time: u8,
}

/// A motion under way. Speed and goal have the sign of its direction, and neither is 0.
#[derive(Clone, Debug, PartialEq, Eq)]
pub struct Motion {
    pub speed: i32,
    pub goal: i32,
    /// T of the load that was started, and how many of so many ticks have passed.
    pub time: u8,
    pub passed: u8,
    /// By a smooth stop: it ends from the minimum.
    pub stopping: bool,
}

#[derive(Clone, Debug, PartialEq, Eq)]
pub struct Stepper {
    pub station: Station,
    pub amplifier: bool,
    /// 0 until Set Parameters.
    pub minimum: u8,
    /// Of the last executed load that carried one; nothing comes of them.
    pub stored_position: u32,
    pub stored_timer: u32,
    pub load: StepLoad,
    /// Nothing at rest.
    pub motion: Option<Motion>,
    pub position: u32,
}

/// What a load's data carry: a number is there where its bit is set and the data go that far.
struct Carried {
    control: u8,
    position: Option<u32>,
    speed: Option<u8>,
    time: Option<u8>,
    timer: Option<u32>,
}

impl Carried {
    fn by(control: u8, mut rest: &[u8]) -> Carried {
        let mut number = |bit: u8, size: usize| {
            if control >> bit & 1 == 0 {
                return None;
            }
            let (bytes, after) = if size <= rest.len() { rest.split_at(size) } else { (&rest[..0], &rest[..0]) };
            rest = after;
            let number = bytes.iter().rev().fold(0, |number, byte| number << 8 | u32::from(*byte));
            (bytes.len() == size).then_some(number)
        };
        Carried {
            control,
            position: number(0, 4),
            speed: number(1, 1).map(|speed| speed as u8),
            time: number(2, 1).map(|time| time as u8),
            timer: number(3, 3),
        }
    }

    fn bit(&self, bit: u8) -> bool {
        self.control >> bit & 1 == 1
    }

    fn ranges(&self, slip: Slip) -> [(bool, Branch); 4] {
        let (speed, time) = (self.speed.unwrap_or(1), self.time.unwrap_or(1));
        let most = if slip == Slip::StepSpeedTo255 { 255 } else { STEPS_MOST };
        [
            (self.control & 0x60 == 0 || slip == Slip::StepLoadBitsTaken, Branch::StepLoadBits),
            (speed != 0 || slip == Slip::StepSpeedNone, Branch::StepLoadSpeedNone),
            (speed <= most, Branch::StepLoadSpeedLarge),
            (time != 0 || slip == Slip::StepTimeNone, Branch::StepLoadTimeNone),
        ]
    }
}

fn one_fails(conditions: &[(bool, Branch)]) -> bool {
    conditions.iter().any(|(holds, _)| !holds)
}

/// Whether a minimum is one that Set Parameters takes.
fn minimum_ranges(minimum: u8, slip: Slip) -> [(bool, Branch); 2] {
    let most = if slip == Slip::StepMinimumTo255 { 255 } else { STEPS_MOST };
    [
        (minimum != 0 || slip == Slip::StepMinimumNone, Branch::ParametersNone),
        (minimum <= most, Branch::ParametersLarge),
    ]
}

impl Stepper {
    /// With its sign, 0 at rest.
    pub fn speed(&self) -> i32 {
        self.motion.as_ref().map_or(0, |motion| motion.speed)
    }

    /// Data bytes that a load has, its control byte among them.
    pub fn load_count(control: u8) -> usize {
        let sizes = [4, 1, 1, 3];
        1 + (0..4).filter(|bit| control >> bit & 1 == 1).map(|bit| sizes[bit]).sum::<usize>()
    }

    fn set_parameters(&mut self, data: &[u8], slip: Slip) -> Result<(), u8> {
        // a minimum that is missing is none that is bad
        let ranges = minimum_ranges(data.get(1).copied().unwrap_or(1), slip);
        let bad = one_fails(&ranges);
        if data.len() != 5 && !(bad && slip == Slip::ParametersRangeBeforeCount) {
            reach(Branch::ParametersCount);
            if bad {
                reach(Branch::CountBeforeRangeParameters);
            }
            return Err(WRONG_COUNT);
        }
        let mode_holds = data[0] >> 5 == 0 || slip != Slip::ParametersModeTested;
        if !all_hold(&ranges) || !mode_holds {
            return Err(if slip == Slip::ParametersRangeAsCount { WRONG_COUNT } else { OUT_OF_RANGE });
        }
        self.take_minimum(data[1], slip)
    }

    /// While moving the minimum stays.
    fn take_minimum(&mut self, minimum: u8, slip: Slip) -> Result<(), u8> {
        let moving = self.motion.is_some();
        if !moving {
            reach(Branch::ParametersAtRest);
        } else {
            either(minimum == self.minimum, Branch::ParametersMovingSame, Branch::ParametersMovingOther);
        }
        if moving && slip == Slip::ParametersNotNowMoving {
            return Err(NOT_NOW);
        }
        if !moving || slip == Slip::MinimumChangesMoving {
            self.minimum = minimum;
        }
        Ok(())
    }

    fn load_trajectory(&mut self, data: &[u8], slip: Slip) -> Result<(), u8> {
        let (control, rest) = data.split_first().ok_or_else(|| {
            reach(Branch::StepLoadEmpty);
            WRONG_COUNT
        })?;
        let carried = Carried::by(*control, rest);
        let ranges = carried.ranges(slip);
        let bad = one_fails(&ranges);
        let asked = Stepper::load_count(*control);
        if data.len() != asked && !(bad && slip == Slip::StepLoadRangeBeforeCount) {
            let short = either(data.len() < asked, Branch::StepLoadShort, Branch::StepLoadLong);
            if bad {
                either(short, Branch::CountBeforeRangeShortStepLoad, Branch::CountBeforeRangeLongStepLoad);
            }
            if carried.bit(7) && self.start_fails(&carried, slip) {
                reach(Branch::CountBeforeNotNowStepLoad);
            }
            return Err(WRONG_COUNT);
        }
        if !all_hold(&ranges) {
            return Err(self.load_out_of_range(&carried, slip));
        }
        self.take(&carried, slip);
        if either(carried.bit(7), Branch::StepLoadStartsNow, Branch::StepLoadWaits) {
            return self.start(true, slip);
        }
        Ok(())
    }

    /// Whether such a load could not be started now.
    fn start_fails(&self, carried: &Carried, slip: Slip) -> bool {
        let mut loaded = self.clone();
        uncounted(|| {
            loaded.take(carried, slip);
            loaded.start(true, slip).is_err()
        })
    }

    /// The cause of a load with a number or a bit out of range; its start may be not now besides.
    fn load_out_of_range(&self, carried: &Carried, slip: Slip) -> u8 {
        let not_now = carried.bit(7) && self.start_fails(carried, slip);
        if not_now {
            reach(Branch::RangeBeforeNotNowStepLoad);
        }
        match slip {
            Slip::StepLoadRangeAsCount => WRONG_COUNT,
            Slip::StepLoadNotNowBeforeRange if not_now => NOT_NOW,
            _ => OUT_OF_RANGE,
        }
    }

    /// An executed load replaces the waiting one whole; a position and a timer count that it carries are stored.
    fn take(&mut self, carried: &Carried, slip: Slip) {
        let before = self.load.clone();
        let backward = either(carried.bit(4), Branch::StepLoadBackward, Branch::StepLoadForward);
        let has_speed = either(carried.speed.is_some(), Branch::StepLoadHasSpeed, Branch::StepLoadLacksSpeed);
        let has_time = either(carried.time.is_some(), Branch::StepLoadHasTime, Branch::StepLoadLacksTime);
        either(before.waits, Branch::StepLoadReplaces, Branch::StepLoadFirst);
        if before.speed != 0 && before.time != 0 && !(has_speed && has_time) {
            reach(Branch::StepLoadReplacesComplete);
        }
        let (speed, time) = (carried.speed.unwrap_or(0), carried.time.unwrap_or(0));
        self.load = StepLoad { waits: true, backward, speed, time };
        self.keep_older(&before, slip);
        self.store(carried, slip);
    }

    /// By a slip only: what a load lacks is that of the one before, or what runs.
    fn keep_older(&mut self, before: &StepLoad, slip: Slip) {
        let (speed, time) =
            self.motion.as_ref().map_or((0, 0), |motion| (motion.goal.unsigned_abs() as u8, motion.time));
        if slip == Slip::StepOlderSpeedUsed && self.load.speed == 0 {
            self.load.speed = before.speed.max(speed);
        }
        if slip == Slip::StepOlderTimeUsed && self.load.time == 0 {
            self.load.time = before.time.max(time);
        }
        self.load.backward |= slip == Slip::StepReverseStays && before.backward;
    }

    fn store(&mut self, carried: &Carried, slip: Slip) {
        either(carried.position.is_some(), Branch::StepLoadHasPosition, Branch::StepLoadLacksPosition);
        either(carried.timer.is_some(), Branch::StepLoadHasTimer, Branch::StepLoadLacksTimer);
        let position = if slip == Slip::StepPositionNotStored { None } else { carried.position };
        let timer = match slip {
            Slip::StepTimerNotStored => None,
            Slip::StepTimerOfTwoBytes => carried.timer.map(|timer| timer & 0xFFFF),
            _ => carried.timer,
        };
        let absent = |stored| if slip == Slip::StepStoredForgotten { 0 } else { stored };
        self.stored_position = position.unwrap_or_else(|| absent(self.stored_position));
        self.stored_timer = timer.unwrap_or_else(|| absent(self.stored_timer));
    }

    /// Whether the waiting load can be started; `now` if its own bit 7 asks for it.
    fn can_start(&self, now: bool, slip: Slip) -> bool {
        let branch = |start: Branch, start_now: Branch| if now { start_now } else { start };
        let waits = self.load.waits || slip == Slip::StepStartsUnasked;
        let known = self.minimum != 0 || slip == Slip::StepStartsBeforeParameters;
        let any = [
            (waits, Branch::StepStartNothingWaits),
            (known, branch(Branch::StepStartNoParameters, Branch::StepNowNoParameters)),
        ];
        // where none waits, what the load would lack is no further reason
        let own = if waits { self.load_needs(branch, slip) } else { Vec::new() };
        all_hold(&[&any[..], &own].concat())
    }

    /// What a start needs of the load, and of the motion that is under way.
    fn load_needs(&self, branch: impl Fn(Branch, Branch) -> Branch, slip: Slip) -> Vec<(bool, Branch)> {
        let load = &self.load;
        let other_way = self.motion.as_ref().map_or(false, |motion| (motion.speed < 0) != load.backward);
        let one_is_enough = slip == Slip::StepStartsWithEither && (load.speed != 0 || load.time != 0);
        let same_way = match slip {
            Slip::StepStartsOtherWay => true,
            Slip::StepStartNeedsRest => self.motion.is_none(),
            Slip::StepStartNeedsAmplifier => !other_way && self.amplifier,
            _ => !other_way,
        };
        vec![
            (load.speed != 0 || one_is_enough, branch(Branch::StepStartNoSpeed, Branch::StepNowNoSpeed)),
            (load.time != 0 || one_is_enough, branch(Branch::StepStartNoTime, Branch::StepNowNoTime)),
            (same_way, branch(Branch::StepStartOtherWay, Branch::StepNowOtherWay)),
        ]
    }

    /// Starts the waiting load, or tells that it is not now.
    fn start(&mut self, now: bool, slip: Slip) -> Result<(), u8> {
        if !self.can_start(now, slip) {
            return Err(NOT_NOW);
        }
        let load = self.load.clone();
        // 1 where a slip starts without the number
        let least = i32::from(self.minimum.max(1));
        let asked = i32::from(load.speed.max(1));
        let goal = if slip == Slip::StepGoalBelowMinimum { asked } else { asked.max(least) };
        if asked < least {
            reach(Branch::StepsGoalBelowMinimum);
        }
        let speed = match &self.motion {
            None => self.speed_from_rest(load.backward, goal, slip),
            Some(motion) => Stepper::speed_on(motion, goal, least, slip),
        };
        let sign = if load.backward { -1 } else { 1 };
        let passed = match &self.motion {
            Some(motion) if slip == Slip::StepStartKeepsPassed => motion.passed.min(load.time.saturating_sub(1)),
            _ => 0,
        };
        let stopping = slip == Slip::StepStartKeepsStopping && self.motion.as_ref().map_or(false, |m| m.stopping);
        let time = load.time.max(1);
        self.motion = Some(Motion { speed: sign * speed, goal: sign * goal, time, passed, stopping });
        if slip != Slip::StepStartsTwice {
            self.load = StepLoad::default();
        }
        Ok(())
    }

    /// From rest at the minimum, at once.
    fn speed_from_rest(&self, backward: bool, goal: i32, slip: Slip) -> i32 {
        either(backward, Branch::StepsFromRestBackward, Branch::StepsFromRest);
        match slip {
            Slip::StepStartsAtGoal => goal,
            Slip::StepStartsAtOne => 1,
            _ => i32::from(self.minimum.max(1)),
        }
    }

    /// A start while moving goes on from the speed that there is.
    fn speed_on(motion: &Motion, goal: i32, least: i32, slip: Slip) -> i32 {
        let speed = motion.speed.abs();
        reach(match speed.cmp(&goal) {
            Ordering::Less => Branch::StepsOnFaster,
            Ordering::Equal => Branch::StepsOnSame,
            Ordering::Greater => Branch::StepsOnSlower,
        });
        if motion.stopping {
            reach(Branch::StepsOnWhileStopping);
        }
        if slip == Slip::StepStartsAnew {
            least
        } else {
            speed
        }
    }

    fn stop(&mut self, data: &[u8], slip: Slip) -> Result<(), u8> {
        let control = data.first().copied().unwrap_or(0);
        let both = control & 0x0C == 0x0C;
        let others = control & 0xF2 != 0;
        let ranges = [
            (!both || slip == Slip::StepStopsBothWays, Branch::StepStopBoth),
            (!others || slip == Slip::StepStopBitsTaken, Branch::StepStopBits),
        ];
        let bad = one_fails(&ranges);
        if data.len() != 1 && !(bad && slip == Slip::StepStopRangeBeforeCount) {
            either(data.is_empty(), Branch::StepStopEmpty, Branch::StepStopCount);
            if bad {
                reach(Branch::CountBeforeRangeStepStop);
            }
            return Err(WRONG_COUNT);
        }
        if !all_hold(&ranges) {
            return Err(if slip == Slip::StepStopRangeAsCount { WRONG_COUNT } else { OUT_OF_RANGE });
        }
        self.stop_motion(control, slip);
        self.set_amplifier(control & 1 == 1, slip);
        Ok(())
    }

    fn set_amplifier(&mut self, set: bool, slip: Slip) {
        either(set, Branch::StepStopSetsAmplifier, Branch::StepStopClearsAmplifier);
        self.amplifier = set || (self.amplifier && slip == Slip::StepStopNeverDisables);
    }

    fn stop_motion(&mut self, control: u8, slip: Slip) {
        let (abrupt, smooth) = (control & 4 != 0, control & 8 != 0);
        if self.load.waits {
            either(abrupt || smooth, Branch::StepStopDropsLoad, Branch::StepStopKeepsLoad);
        }
        let drops = match slip {
            Slip::StepAmplifierDropsLoad => true,
            Slip::StepAbruptKeepsLoad => smooth,
            Slip::StepSmoothKeepsLoad => abrupt,
            _ => abrupt || smooth,
        };
        let dropped = if drops { std::mem::take(&mut self.load) } else { StepLoad::default() };
        if abrupt {
            either(self.motion.is_some(), Branch::StepAbruptMoving, Branch::StepAbruptAtRest);
            self.motion = None;
        } else if smooth {
            self.stop_smoothly(&dropped, slip);
        } else {
            reach(Branch::StepStopAmplifier);
        }
        if slip == Slip::StepAmplifierOffEnds && control & 1 == 0 {
            self.motion = None;
        }
    }

    /// To the minimum, and from there to rest; T stays, and is counted from here on.
    fn stop_smoothly(&mut self, dropped: &StepLoad, slip: Slip) {
        let least = i32::from(self.minimum);
        let motion = match &mut self.motion {
            Some(motion) => motion,
            None => return reach(Branch::StepSmoothAtRest),
        };
        reach(match (motion.stopping, motion.speed.abs() == least) {
            (true, _) => Branch::StepSmoothAgain,
            (false, true) => Branch::StepSmoothAtMinimum,
            (false, false) => Branch::StepSmoothFaster,
        });
        let first = !motion.stopping;
        motion.stopping = true;
        motion.goal = motion.speed.signum() * least;
        match slip {
            Slip::StepSmoothKeepsPassed => {}
            Slip::StepSmoothCountsOnce if !first => {}
            _ => motion.passed = 0,
        }
        if slip == Slip::StepSmoothWithWaitingTime && dropped.time != 0 {
            motion.time = dropped.time;
        }
        let at_once = slip == Slip::StepSmoothAtOnce
            || (slip == Slip::StepSmoothAtOnceFromMinimum && motion.speed.abs() == least);
        if at_once {
            self.motion = None;
        }
    }

    /// A tick at stop input 1: the motion is over before the tick does anything, the load waits on.
    fn meet_input(&mut self, slip: Slip) {
        either(self.motion.is_some(), Branch::InputEndsMotion, Branch::InputAtRest);
        if self.load.waits {
            reach(Branch::InputKeepsLoad);
        }
        if slip == Slip::InputDropsLoad {
            self.load = StepLoad::default();
        }
        self.amplifier &= slip != Slip::InputClearsAmplifier;
        if slip == Slip::InputMovesOnce {
            self.position = self.position.wrapping_add(self.speed() as u32);
        }
        if slip == Slip::InputStopsSmoothly {
            return self.stop_smoothly(&StepLoad::default(), slip);
        }
        self.latch(true);
    }

    /// The position moves by the speed that the tick leaves.
    fn step(&mut self, slip: Slip) {
        let mut motion = match self.motion.take() {
            Some(motion) => motion,
            None => return reach(Branch::StepsNone),
        };
        let before = motion.speed;
        let ticks = motion.time.saturating_add(u8::from(slip == Slip::StepEveryTickAfter));
        motion.passed += 1;
        if motion.passed < ticks {
            reach(Branch::StepsWait);
        } else {
            motion.passed = 0;
            if !self.change_speed(&mut motion, slip) {
                return;
            }
        }
        self.move_by(self.steps_of_tick(before, &motion, slip), slip);
        self.motion = Some(motion);
    }

    /// By how much the position moves: by the new speed, but for a slip.
    fn steps_of_tick(&self, before: i32, motion: &Motion, slip: Slip) -> i32 {
        let from_minimum = motion.time == 1 && before.abs() == i32::from(self.minimum);
        match slip {
            Slip::StepOldSpeedMoves => before,
            Slip::StepFirstTickAtMinimum if from_minimum => before,
            _ => motion.speed,
        }
    }

    fn move_by(&mut self, by: i32, slip: Slip) {
        either(by < 0, Branch::StepsBackward, Branch::StepsForward);
        self.position = match slip {
            Slip::StepPositionForward => self.position.wrapping_add(by.unsigned_abs()),
            Slip::StepPositionHeld => (self.position as i32).saturating_add(by) as u32,
            _ => self.position.wrapping_add(by as u32),
        };
    }

    /// One unit nearer the goal; false where a smooth stop ends the motion instead.
    fn change_speed(&self, motion: &mut Motion, slip: Slip) -> bool {
        let (size, least) = (motion.speed.abs(), i32::from(self.minimum));
        if motion.stopping && size == least && slip != Slip::StepSmoothEndsAtMinimum {
            reach(Branch::StepsEnd);
            return false;
        }
        let goal = if slip == Slip::StepWaitingLoadActs && self.load.speed != 0 {
            motion.speed.signum() * i32::from(self.load.speed.max(self.minimum))
        } else {
            motion.goal
        };
        reach(match size.cmp(&goal.abs()) {
            Ordering::Less => Branch::StepsFaster,
            Ordering::Equal => Branch::StepsAtGoal,
            Ordering::Greater => Branch::StepsSlower,
        });
        let unit = (goal - motion.speed).signum();
        motion.speed = if slip == Slip::StepSpeedLeaps { goal } else { motion.speed + unit };
        !(slip == Slip::StepSmoothEndsEarly && motion.stopping && motion.speed.abs() == least)
    }

    /// The cause of a Start that came with data; without them it may be not now.
    fn start_with_data(&self, slip: Slip) -> u8 {
        let not_now = uncounted(|| self.clone().start(false, slip)).is_err();
        if not_now {
            reach(Branch::CountBeforeNotNowStepStart);
        }
        if not_now && slip == Slip::NotNowBeforeCount {
            NOT_NOW
        } else {
            WRONG_COUNT
        }
    }
}

impl Device for Stepper {
    const TYPE: u8 = 3;
    const VERSION: u8 = 1;
    const ITEMS: u8 = 0x21;
    /// Whether its stop input is 1.
    type Measured = bool;

    fn power_up() -> Stepper {
        Stepper {
            station: Station::power_up(),
            amplifier: false,
            minimum: 0,
            stored_position: 0,
            stored_timer: 0,
            load: StepLoad::default(),
            motion: None,
            position: 0,
        }
    }

    fn station(&self) -> &Station {
        &self.station
    }

    fn station_mut(&mut self) -> &mut Station {
        &mut self.station
    }

    fn count(code: u8, data: &[u8]) -> usize {
        match code {
            1 => 2,
            2 | 3 | 7 | 10 => 1,
            4 => Stepper::load_count(data.first().copied().unwrap_or(0)),
            6 => 5,
            _ => 0,
        }
    }

    fn command(&mut self, code: u8, data: &[u8], slip: Slip) -> Result<(), u8> {
        match (code, data.len()) {
            (4, _) => self.load_trajectory(data, slip),
            (5, 0) => self.start(false, slip),
            (5, _) => {
                reach(Branch::StepStartCount);
                Err(self.start_with_data(slip))
            }
            (6, _) => self.set_parameters(data, slip),
            (7, _) => self.stop(data, slip),
            (0, 0) if slip == Slip::StepPositionReset => {
                self.position = 0;
                Ok(())
            }
            _ if slip == Slip::UnknownCodeExecuted => Ok(()),
            _ => {
                reach(Branch::StepperUnknown);
                Err(unknown_code(slip))
            }
        }
    }

    fn hard_reset(&mut self, slip: Slip) {
        reach(Branch::StepperReset);
        let before = self.clone();
        *self = Stepper::power_up();
        match slip {
            Slip::ResetKeepsAddrOut => self.station.low = before.station.low,
            Slip::ResetKeepsAmplifier => self.amplifier = before.amplifier,
            Slip::StepResetKeepsMinimum => self.minimum = before.minimum,
            Slip::StepResetKeepsPosition => self.position = before.position,
            Slip::StepResetKeepsLoad => self.load = before.load,
            _ => {}
        }
    }

    fn item(&self, bit: usize, _: Slip) -> Vec<u8> {
        if bit == 0 {
            reach(Branch::StepperPosition);
            return self.position.to_le_bytes().to_vec();
        }
        // there only by a slip
        Vec::new()
    }

    fn status_bits(&self, slip: Slip) -> u8 {
        let moving = either(self.motion.is_some(), Branch::StepperMoving, Branch::StepperAtRest);
        let at_speed = self.motion.as_ref().map_or(false, |motion| motion.speed == motion.goal);
        match slip {
            Slip::StepMoveDoneShown => u8::from(!moving),
            Slip::StepAmplifierShown => u8::from(moving) | u8::from(self.amplifier) << 2,
            Slip::StepAtSpeedShown => u8::from(moving) | u8::from(at_speed) << 4,
            _ => u8::from(moving),
        }
    }

    fn measured(sample: &Sample, slip: Slip) -> Option<bool> {
        let [_, stop, rest @ ..] = *sample;
        let good = stop <= 1 || (stop == 2 && slip == Slip::InputOf2Taken);
        let taken = good && (rest == [0; 8] || slip != Slip::StepUnusedBytesTested);
        taken.then(|| (stop != 0) != (slip == Slip::InputStopsAt0))
    }

    fn latch(&mut self, stop: bool) {
        if stop {
            self.motion = None;
        }
    }

    fn tick(&mut self, stop: bool, slip: Slip) {
        if stop {
            self.meet_input(slip);
        }
        self.step(slip);
    }

    fn outputs(&self, slip: Slip) -> [u8; 8] {
        either(self.amplifier, Branch::StepperAmplifierOn, Branch::StepperAmplifierOff);
        let driven = match (&self.motion, slip) {
            (Some(motion), Slip::StepGoalDriven) => motion.goal,
            _ => self.speed(),
        };
        let backward = driven < 0 && slip != Slip::StepDirectionNotDriven;
        let size = u8::try_from(driven.unsigned_abs()).expect("at most 250");
        [size, u8::from(backward), u8::from(self.amplifier), 0, 0, 0, 0, 0]
    }
}
