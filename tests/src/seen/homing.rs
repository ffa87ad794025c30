//! What homing has come to.

use super::{add, Tally};
use crate::calls::MOST_MODULES;
use crate::model::{HomeStop, Mode, Servo, EXECUTED};

/// Homing's stops, none among them.
pub const STOPS: [Option<HomeStop>; 4] = [None, Some(HomeStop::Off), Some(HomeStop::Abrupt), Some(HomeStop::Smooth)];

#[derive(Debug, Default)]
pub struct Homings {
    /// Homes that ticks have found, by stop, mode before the tick and power in it.
    pub found: [[[usize; 3]; 5]; STOPS.len()],
    /// Executed Set Homings, by stop, watched inputs and mode.
    pub set: [[[usize; 5]; 4]; STOPS.len()],
    pub frames: Tally,
    pub ticks: Tally,
    /// What a place's last tick was.
    last: [Last; MOST_MODULES],
}

#[derive(Clone, Copy, Debug, Default)]
struct Last {
    /// The watched inputs by which home was found, if it was.
    found_by: u8,
    low: bool,
}

/// The stop that came with a home which a tick has found, if it has.
pub fn found(before: &Servo, after: &Servo) -> Option<Option<HomeStop>> {
    let homing = before.homing?;
    after.homing.is_none().then(|| homing.stop)
}

fn index(stop: Option<HomeStop>) -> usize {
    STOPS.iter().position(|known| *known == stop).expect("one of the four")
}

impl Homings {
    /// A frame that has touched a servo.
    pub fn frame(&mut self, code: u8, data: &[u8], before: &Servo, after: &Servo) {
        let executed = after.station.cause == EXECUTED;
        if let (9, true, Some(homing), [byte]) = (code, executed, after.homing, data) {
            self.set[index(homing.stop)][usize::from(byte & 3)][after.mode as usize] += 1;
        }
        let homing = before.homing.is_some() && executed;
        let goes_on = homing && after.homing == before.homing;
        add(
            &mut self.frames,
            &[
                ("homing with another byte", code == 9 && homing && !goes_on),
                ("homing with the same byte again", code == 9 && goes_on),
                ("homing goes on through a load", code == 4 && goes_on),
                ("homing goes on through a start", code == 5 && goes_on),
                ("homing goes on through Stop", code == 7 && goes_on),
                ("homing goes on through Clear Bits", code == 11 && goes_on),
                ("homing goes on through Reset Position", code == 0 && goes_on && after.home != before.home),
                ("homing ended by Hard Reset", code == 15 && homing && after.homing.is_none()),
                ("home forgotten by Hard Reset", code == 15 && executed && before.home != 0 && after.home == 0),
            ],
        );
    }

    /// A tick of a servo at a place.
    pub fn tick(&mut self, place: usize, before: &Servo, after: &Servo) {
        let changed = before.latched.inputs ^ after.latched.inputs;
        let found = found(before, after);
        if let Some(stop) = found {
            self.found[index(stop)][before.mode as usize][usize::from(after.latched.power)] += 1;
        }
        let watched = before.homing.map_or(0, |homing| homing.byte() & 3);
        let last = self.last[place];
        self.last[place] = Last {
            found_by: if found.is_some() { watched & changed } else { 0 },
            low: after.latched.power == 0 && found.is_none(),
        };
        self.note_ticks(last, changed, found, before, after);
    }

    fn note_ticks(&mut self, last: Last, changed: u8, found: Option<Option<HomeStop>>, before: &Servo, after: &Servo) {
        let home = found.is_some();
        let stop = found.flatten();
        let (by, waits) = (|kind| stop == Some(kind), before.load.waits);
        let trips = after.error && !before.error;
        let holds = by(HomeStop::Abrupt) && after.latched.power == 1 && !before.error;
        add(
            &mut self.ticks,
            &[
                ("home where both inputs change", home && changed == 3),
                ("back in the next tick", last.found_by != 0 && changed & last.found_by == last.found_by && !home),
                ("home in a tick that trips", home && trips),
                ("smooth stop in a tick that trips", by(HomeStop::Smooth) && trips),
                ("abrupt stop instead of a trip", holds && would_trip(before, after)),
                ("home after a cut tick", home && before.cut),
                ("home with the error bit set", home && before.error),
                ("off, a load dropped", by(HomeStop::Off) && waits && !after.load.waits),
                ("abrupt, a load dropped", holds && waits && !after.load.waits),
                ("smooth, a load dropped", by(HomeStop::Smooth) && waits && !after.load.waits),
                ("abrupt skipped, a load kept", by(HomeStop::Abrupt) && waits && after.load.waits),
                ("no stop, a load kept", home && stop.is_none() && waits && after.load.waits),
                ("off until power came back, then held by homing", holds && last.low && before.mode == Mode::Off),
                ("held by homing with the amplifier bit of before", holds && after.amplifier),
                ("a second home", home && before.home != 0 && after.home != before.home),
                ("home at the position that it was", home && after.home == before.home),
            ],
        );
    }

    /// The ticks before are those of another record.
    pub fn another_record(&mut self) {
        self.last = Default::default();
    }
}

/// Whether a servo that held would have tripped.
fn would_trip(before: &Servo, after: &Servo) -> bool {
    let held = (before.setpoint >> 16) as u32;
    let error = i64::from(held.wrapping_sub(after.position()) as i32).abs();
    before.mode == Mode::Holding && error > i64::from(before.gains.el)
}
