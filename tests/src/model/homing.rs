//! Homing on the limit switches, a part of the servo: what Set Homing takes, the tick that finds home, and the stop that
//! comes with it.

use super::servo::{one_fails, Load, Mode, Servo, ServoSample, GOOD, HIGH, LOW};
use super::station::{NOT_NOW, OUT_OF_RANGE, WRONG_COUNT};
use crate::branches::{all_hold, either, reach, uncounted, Branch};
use crate::slips::Slip;

/// Most that a sample's limit inputs may be: limit 1 in bit 0, limit 2 in bit 1.
pub const LIMITS_MOST: u8 = 3;

/// How the motor stops where home is found.
#[derive(Clone, Copy, Debug, PartialEq, Eq)]
pub enum HomeStop {
    Off,
    Abrupt,
    Smooth,
}

/// Homing in progress: which limit inputs are watched, and whether finding home stops the motor.
#[derive(Clone, Copy, Debug, PartialEq, Eq)]
pub struct Homing {
    pub limit1: bool,
    pub limit2: bool,
    pub stop: Option<HomeStop>,
}

/// The bit of each stop in Set Homing's byte, and the kind that it is in a Stop.
const STOPS: [(HomeStop, u8, u8); 3] =
    [(HomeStop::Off, 0x04, 1), (HomeStop::Abrupt, 0x10, 2), (HomeStop::Smooth, 0x20, 4)];
/// What Set Homing of the manual has besides: ENC_INDEX, position error, current limiting.
const MANUALS_OWN: u8 = 0xC8;

fn watches(byte: u8) -> bool {
    byte & 3 != 0
}

fn stops_at_most_once(byte: u8) -> bool {
    STOPS.iter().filter(|(_, bit, _)| byte & bit != 0).count() <= 1
}

impl Homing {
    /// What a byte asks for, its bad bits left aside.
    fn asked(byte: u8) -> Homing {
        let stop = STOPS.iter().find(|(_, bit, _)| byte & bit != 0).map(|(stop, _, _)| *stop);
        Homing { limit1: byte & 1 != 0, limit2: byte & 2 != 0, stop }
    }

    /// Homing by the byte that began it, if that is a good one.
    pub fn by(byte: u8) -> Option<Homing> {
        let good = watches(byte) && stops_at_most_once(byte) && byte & MANUALS_OWN == 0;
        good.then(|| Homing::asked(byte))
    }

    /// The byte that begins it.
    pub fn byte(self) -> u8 {
        let stops = STOPS.iter().filter(|(stop, _, _)| self.stop == Some(*stop)).map(|(_, bit, _)| bit).sum::<u8>();
        u8::from(self.limit1) | u8::from(self.limit2) << 1 | stops
    }

    /// Whether a tick finds home: a watched input is not what it was.
    fn finds(self, before: u8, now: u8, slip: Slip) -> bool {
        let changed = before ^ now;
        let (one, two) = (changed & 1 != 0, changed & 2 != 0);
        match slip {
            Slip::HomingByLevel => (self.limit1 && now & 1 != 0) || (self.limit2 && now & 2 != 0),
            Slip::HomingByRise => (self.limit1 && one && now & 1 != 0) || (self.limit2 && two && now & 2 != 0),
            Slip::HomingByEither => one || two,
            Slip::HomingByAll => (one || !self.limit1) && (two || !self.limit2),
            Slip::HomingByOther => (self.limit1 && two) || (self.limit2 && one),
            _ => (self.limit1 && one) || (self.limit2 && two),
        }
    }

    /// Counts what a tick shows of the inputs while it watches.
    fn note(self, before: u8, now: u8) {
        let changed = before ^ now;
        reach(match (self.limit1, self.limit2, changed) {
            (_, _, 0) => Branch::HomingUnchanged,
            (true, false, 1) => Branch::HomeByLimit1,
            (true, false, 2) => Branch::HomingLimit2Unwatched,
            (true, false, _) => Branch::HomeByLimit1OfBoth,
            (false, true, 2) => Branch::HomeByLimit2,
            (false, true, 1) => Branch::HomingLimit1Unwatched,
            (false, true, _) => Branch::HomeByLimit2OfBoth,
            (_, _, 1) => Branch::HomeByEither1,
            (_, _, 2) => Branch::HomeByEither2,
            _ => Branch::HomeByBoth,
        });
    }
}

impl Servo {
    /// Counts what comes while homing is in progress and leaves it so.
    pub(super) fn note_homing(&self, branch: Branch) {
        if self.homing.is_some() {
            reach(branch);
        }
    }

    /// By a slip only: nothing but finding home and Hard Reset ends homing.
    pub(super) fn end_homing_by(&mut self, ends: Slip, slip: Slip) {
        if slip == ends {
            self.homing = None;
        }
    }

    /// Reset Position's shift of home, found or not; homing goes on.
    pub(super) fn shift_home(&mut self, by: u32, slip: Slip) {
        self.note_homing(Branch::ResetPositionWhileHoming);
        either(self.home == 0, Branch::ResetPositionUnhomed, Branch::ResetPositionHomed);
        self.end_homing_by(Slip::ResetPositionEndsHoming, slip);
        let left = match slip {
            Slip::ResetPositionLeavesHome => true,
            Slip::ResetPositionLeavesNoHome => self.home == 0,
            _ => false,
        };
        if !left {
            self.home = self.home.wrapping_sub(by);
        }
    }

    /// Status bits 5 to 7: limit 1, limit 2, homing in progress.
    pub(super) fn homing_bits(&self, slip: Slip) -> u8 {
        let (mut limit1, mut limit2) = (self.latched.inputs & 1, self.latched.inputs >> 1 & 1);
        either(limit1 == 1, Branch::Limit1Set, Branch::Limit1Clear);
        either(limit2 == 1, Branch::Limit2Set, Branch::Limit2Clear);
        let homing = either(self.homing.is_some(), Branch::HomingShown, Branch::HomingNotShown);
        match slip {
            Slip::LimitsSwapped => (limit1, limit2) = (limit2, limit1),
            Slip::LimitsNotShown => (limit1, limit2) = (0, 0),
            _ => {}
        }
        limit1 << 5 | limit2 << 6 | u8::from(homing && slip != Slip::HomingNotShown) << 7
    }

    /// Set Homing: the byte is judged and nothing else, so it is never not now.
    pub(super) fn set_homing(&mut self, data: &[u8], slip: Slip) -> Result<(), u8> {
        // a byte that is missing is none that is bad
        let asked = data.first().copied().unwrap_or(1);
        let ranges = [
            (watches(asked) || (asked == 0 && slip == Slip::HomingCancelled), Branch::SetHomingUnwatched),
            (stops_at_most_once(asked) || slip == Slip::HomingOfTwoStops, Branch::SetHomingStops),
            (asked & MANUALS_OWN == 0 || slip == Slip::HomingBitsTaken, Branch::SetHomingBits),
        ];
        let bad = one_fails(&ranges);
        if data.len() != 1 && !(bad && slip == Slip::HomingRangeBeforeCount) {
            either(data.is_empty(), Branch::SetHomingEmpty, Branch::SetHomingCount);
            if bad {
                reach(Branch::CountBeforeRangeHoming);
            }
            return Err(WRONG_COUNT);
        }
        if !all_hold(&ranges) {
            return Err(if slip == Slip::HomingRangeAsCount { WRONG_COUNT } else { OUT_OF_RANGE });
        }
        self.note_set_homing();
        match slip {
            Slip::HomingNeedsPower if self.latched.power != GOOD => return Err(NOT_NOW),
            Slip::HomingNeedsClearError if self.error => return Err(NOT_NOW),
            Slip::HomingNeedsServo if self.servo_off() => return Err(NOT_NOW),
            Slip::HomingNotAnew if self.homing.is_some() => return Err(NOT_NOW),
            Slip::HomingKeepsOldByte if self.homing.is_some() => return Ok(()),
            Slip::SetHomingForgetsHome => self.home = 0,
            Slip::SetHomingStoresPosition => self.home = self.position(),
            _ => {}
        }
        self.homing = (asked != 0).then(|| Homing::asked(asked));
        Ok(())
    }

    fn note_set_homing(&self) {
        either(self.homing.is_some(), Branch::SetHomingAnew, Branch::SetHoming);
        let also = [
            (self.latched.power == LOW, Branch::SetHomingAtLow),
            (self.latched.power == HIGH, Branch::SetHomingAtHigh),
            (self.error, Branch::SetHomingWithError),
            (!self.servo_off(), Branch::SetHomingOn),
            (self.latched.inputs != 0, Branch::SetHomingAtSwitch),
            (self.home != 0, Branch::SetHomingHomed),
        ];
        also.iter().filter(|(comes, _)| *comes).for_each(|(_, branch)| reach(*branch));
    }

    /// The tick's look at the inputs, once they and the position are latched: where a watched one has changed the
    /// position is home, and homing ends. Gives the stop that is to come with it.
    pub(super) fn find_home(&mut self, before: &ServoSample, slip: Slip) -> Option<HomeStop> {
        let homing = match self.homing {
            Some(homing) => homing,
            None => {
                if before.inputs != self.latched.inputs {
                    reach(Branch::LimitsWithoutHoming);
                }
                return None;
            }
        };
        homing.note(before.inputs, self.latched.inputs);
        if !homing.finds(before.inputs, self.latched.inputs, slip) {
            return None;
        }
        if slip == Slip::HomingOffFindsNothing && self.servo_off() {
            return None;
        }
        let skipped = homing.stop == Some(HomeStop::Abrupt) && !(self.latched.power == GOOD && !self.error);
        self.home = match slip {
            // in the tick after it would be stored; by then the run has ended
            Slip::HomeStoredLate => self.home,
            Slip::SkippedStopHidesHome if skipped => self.home,
            Slip::HomeOfTickBefore => self.last_position,
            Slip::HomeIsRaw => self.latched.raw,
            Slip::HomeIsSetpoint if !self.servo_off() => (self.setpoint >> 16) as u32,
            _ => self.position(),
        };
        let goes_on = slip == Slip::HomingGoesOn || (slip == Slip::SkippedStopGoesOn && skipped);
        if !goes_on {
            self.homing = None;
        }
        if homing.stop.is_none() {
            self.note_no_stop();
            if slip == Slip::PlainHomeDropsLoad {
                self.load = Load::default();
            }
        }
        homing.stop
    }

    fn note_no_stop(&self) {
        reach(Branch::HomeWithoutStop);
        if self.load.waits {
            reach(Branch::HomeWithoutStopKeepsLoad);
        }
    }

    /// Whether homing's stop is left out: where the Stop command of that kind would be not now.
    fn skips(&self, stop: HomeStop, before: &ServoSample, slip: Slip) -> bool {
        let power = if slip == Slip::HomeStopByOldPower { before.power } else { self.latched.power };
        match slip {
            Slip::SmoothHomeSkipped if stop == HomeStop::Smooth => return power != GOOD,
            Slip::OffHomeSkipped if stop == HomeStop::Off => return power != GOOD,
            _ => {}
        }
        stop == HomeStop::Abrupt
            && !all_hold(&[
                (power != LOW, Branch::HomeAbruptLow),
                (power != HIGH || slip == Slip::HomeAbruptAtHigh, Branch::HomeAbruptHigh),
                (!self.error || slip == Slip::HomeAbruptWithError, Branch::HomeAbruptError),
            ])
    }

    /// The stop that finding home brings, with all that Stop's bit of that kind does. Amplifier bit and cause stay: no
    /// frame was executed.
    pub(super) fn stop_at_home(&mut self, stop: HomeStop, before: &ServoSample, slip: Slip) {
        if self.skips(stop, before, slip) {
            if self.load.waits {
                reach(Branch::HomeSkippedKeepsLoad);
            }
            if slip == Slip::SkippedStopDropsLoad {
                self.load = Load::default();
            }
            return;
        }
        self.note_stop(stop);
        let (_, _, kind) = STOPS.iter().find(|(known, _, _)| *known == stop).expect("one of the three");
        // where a slip skips too little, Stop must not refuse it
        let rule = match slip {
            Slip::HomeStopByOldPower | Slip::HomeAbruptAtHigh => Slip::HoldNeedsNoPower,
            Slip::HomeAbruptWithError => Slip::HoldIgnoresErrorBit,
            _ => Slip::None,
        };
        uncounted(|| self.stop_motion(*kind, &[], rule)).expect("it is not skipped");
        if slip == Slip::HomeAbruptHoldsBefore && stop == HomeStop::Abrupt {
            self.setpoint = i64::from(self.last_position) << 16;
        }
        if slip != Slip::HomeStopKeepsLoad {
            self.load = Load::default();
        }
        self.amplifier |= slip == Slip::HomeStopSetsAmplifier;
        self.amplifier &= slip != Slip::HomeStopClearsAmplifier;
        if slip == Slip::HomeStopClearsCause {
            self.station.cause = 0;
        }
    }

    fn note_stop(&self, stop: HomeStop) {
        reach(match (stop, self.mode) {
            (HomeStop::Off, Mode::Off) => Branch::HomeOffOff,
            (HomeStop::Off, Mode::Pwm) => Branch::HomeOffPwm,
            (HomeStop::Off, Mode::Holding) => Branch::HomeOffHolding,
            (HomeStop::Off, Mode::Velocity) => Branch::HomeOffVelocity,
            (HomeStop::Off, Mode::Trapezoid) => Branch::HomeOffTrapezoid,
            (HomeStop::Abrupt, Mode::Off) => Branch::HomeAbruptOff,
            (HomeStop::Abrupt, Mode::Pwm) => Branch::HomeAbruptPwm,
            (HomeStop::Abrupt, Mode::Holding) => Branch::HomeAbruptHolding,
            (HomeStop::Abrupt, Mode::Velocity) => Branch::HomeAbruptVelocity,
            (HomeStop::Abrupt, Mode::Trapezoid) => Branch::HomeAbruptTrapezoid,
            (HomeStop::Smooth, Mode::Off) => Branch::HomeSmoothOff,
            (HomeStop::Smooth, Mode::Pwm) => Branch::HomeSmoothPwm,
            (HomeStop::Smooth, Mode::Holding) => Branch::HomeSmoothHolding,
            (HomeStop::Smooth, Mode::Velocity) => Branch::HomeSmoothVelocity,
            (HomeStop::Smooth, Mode::Trapezoid) => Branch::HomeSmoothTrapezoid,
        });
        let also = [
            (self.load.waits, Branch::HomeDropsLoad),
            (self.latched.power == LOW, Branch::HomeStopAtLow),
            (self.latched.power == HIGH, Branch::HomeStopAtHigh),
            (self.error, Branch::HomeStopWithError),
            (self.amplifier, Branch::HomeStopAmplifierOn),
            (!self.amplifier, Branch::HomeStopAmplifierOff),
            (self.station.cause != 0, Branch::HomeStopKeepsCause),
        ];
        also.iter().filter(|(comes, _)| *comes).for_each(|(_, branch)| reach(*branch));
    }
}
