//! What step-motor modules have come to.

use super::{add, over_end, over_half, Tally};
use crate::model::{Motion, Stepper, EXECUTED};

/// What a motor does.
#[derive(Clone, Copy, Debug, PartialEq, Eq)]
pub enum Run {
    Rest,
    Forward,
    Backward,
    StoppingForward,
    StoppingBackward,
}

pub const RUNS: [Run; 5] = [Run::Rest, Run::Forward, Run::Backward, Run::StoppingForward, Run::StoppingBackward];

/// What may come upon it.
#[derive(Clone, Copy, Debug, PartialEq, Eq)]
pub enum Upon {
    Start,
    StartNow,
    Abrupt,
    Smooth,
    HardReset,
    /// A tick at stop input 1, and one at 0.
    Input,
    Tick,
    /// Any other frame that was executed, and any that was not.
    Nothing,
}

pub const ALL_UPON: [Upon; 8] =
    [Upon::Start, Upon::StartNow, Upon::Abrupt, Upon::Smooth, Upon::HardReset, Upon::Input, Upon::Tick, Upon::Nothing];

#[derive(Debug, Default)]
pub struct Steppers {
    /// By what came upon them, what they did before and what after.
    pub runs: [[[usize; RUNS.len()]; RUNS.len()]; ALL_UPON.len()],
    /// What frames that were executed have met.
    pub frames: Tally,
    /// What ticks have done to those that moved.
    pub ticks: Tally,
}

fn run(stepper: &Stepper) -> Run {
    match &stepper.motion {
        None => Run::Rest,
        Some(Motion { speed, stopping: false, .. }) if *speed > 0 => Run::Forward,
        Some(Motion { stopping: false, .. }) => Run::Backward,
        Some(Motion { speed, .. }) if *speed > 0 => Run::StoppingForward,
        Some(_) => Run::StoppingBackward,
    }
}

fn upon(code: u8, data: &[u8], cause: u8) -> Upon {
    match (cause, code, data) {
        (0, 5, _) => Upon::Start,
        (0, 4, [control, ..]) if control & 0x80 != 0 => Upon::StartNow,
        (0, 7, [control]) if control & 4 != 0 => Upon::Abrupt,
        (0, 7, [control]) if control & 8 != 0 => Upon::Smooth,
        (0, 15, _) => Upon::HardReset,
        _ => Upon::Nothing,
    }
}

impl Steppers {
    fn note(&mut self, upon: Upon, before: &Stepper, after: &Stepper) {
        self.runs[upon as usize][run(before) as usize][run(after) as usize] += 1;
    }

    pub fn frame(&mut self, code: u8, data: &[u8], before: &Stepper, after: &Stepper) {
        let upon = upon(code, data, after.station.cause);
        self.note(upon, before, after);
        if after.station.cause != EXECUTED {
            return;
        }
        let started = matches!(upon, Upon::Start | Upon::StartNow);
        let waited = before.load.waits;
        let moving = before.motion.is_some();
        let motion = after.motion.as_ref();
        let of_time = |least: u8| started && motion.map_or(false, |motion| motion.time >= least);
        add(
            &mut self.frames,
            &[
                ("started at once with a load waiting", upon == Upon::StartNow && waited),
                ("started while the amplifier bit is clear", started && !before.amplifier),
                ("started with T 1", started && motion.map_or(false, |motion| motion.time == 1)),
                ("started with T above 200", of_time(200)),
                ("started in the midst of T ticks", started && before.motion.as_ref().map_or(false, |m| m.passed > 0)),
                ("stopped smoothly in the midst of T ticks", {
                    upon == Upon::Smooth && before.motion.as_ref().map_or(false, |motion| motion.passed > 0)
                }),
                ("stopped abruptly with a load waiting", upon == Upon::Abrupt && waited),
                ("stopped smoothly with a load waiting", upon == Upon::Smooth && waited),
                ("a load that waits while moving", code == 4 && !started && moving),
                ("amplifier switched while moving", moving && before.amplifier != after.amplifier),
                ("position stored", before.stored_position != after.stored_position),
                ("timer count stored", before.stored_timer != after.stored_timer),
            ],
        );
    }

    /// A tick by which the stop input was 1 or not.
    pub fn tick(&mut self, stop: bool, before: &Stepper, after: &Stepper) {
        self.note(if stop { Upon::Input } else { Upon::Tick }, before, after);
        let motion = match &before.motion {
            Some(motion) => motion,
            None => return,
        };
        let (v, w) = (before.speed(), after.speed());
        let least = i32::from(before.minimum);
        let (round, half) = (over_end(before.position, after.position), over_half(before.position, after.position));
        add(
            &mut self.ticks,
            &[
                ("faster forward", w > v && v > 0),
                ("faster backward", w < v && v < 0),
                ("slower forward, not stopping", w < v && w > 0 && !motion.stopping),
                ("slower backward, not stopping", w > v && w < 0 && !motion.stopping),
                ("slower forward, stopping", w < v && w > 0 && motion.stopping),
                ("slower backward, stopping", w > v && w < 0 && motion.stopping),
                ("at 250", w.abs() == 250),
                ("at the minimum, going on", w.abs() == least && w == motion.goal && !motion.stopping),
                ("ended by the input above the minimum", stop && v.abs() > least),
                ("ended by the input in a smooth stop", stop && motion.stopping),
                ("ended by the input with a load waiting", stop && before.load.waits),
                ("first tick of a start from rest, T 1", motion.time == 1 && v.abs() == least && w.abs() == least + 1),
                ("in the midst of T ticks", motion.passed + 1 < motion.time),
                ("position up over 2^31", half.0),
                ("position down over -2^31", half.1),
                ("position up over 0", round.0),
                ("position down over 0", round.1),
            ],
        );
    }
}
