//! What histories have come to, told from the networks before and after each call, so that a test can tell that its
//! dice still fall everywhere.

use crate::branches::uncounted;
use crate::calls::{BAD_FIELD, BAD_LIST, BAD_PLACE, BAD_RECORD, MOST_MODULES, ROOM_LEN, SAMPLE_LEN};
use crate::model::{
    HomeStop, Mode, Module, Network, Receiver, Servo, Touch, CAUSES, EXECUTED, NOT_NOW, OUT_OF_RANGE, SPEED_MOST,
    UNKNOWN, WRONG_COUNT,
};

pub mod buffers;
pub mod homing;
pub mod stepper;

use buffers::{Buffers, Fate};
use homing::Homings;
use stepper::Steppers;

/// What may change a servo's mode.
#[derive(Clone, Copy, Debug, PartialEq, Eq)]
pub enum Change {
    Start,
    StartNow,
    StopOff,
    Abrupt,
    Smooth,
    StopHere,
    HardReset,
    PowerLow,
    Trip,
    /// The stops of homing, where they are not skipped and power is not low.
    HomeOff,
    HomeAbrupt,
    HomeSmooth,
    /// Any other frame that was executed, any that was not, and any other tick.
    Nothing,
}

pub const CHANGES: [Change; 13] = [
    Change::Start,
    Change::StartNow,
    Change::StopOff,
    Change::Abrupt,
    Change::Smooth,
    Change::StopHere,
    Change::HardReset,
    Change::PowerLow,
    Change::Trip,
    Change::HomeOff,
    Change::HomeAbrupt,
    Change::HomeSmooth,
    Change::Nothing,
];

/// Half of what a velocity or an acceleration can be at most.
const STEEP: i64 = SPEED_MOST as i64 / 2;

/// How many module types there are.
const TYPES: usize = 3;

/// Counts by name.
pub type Tally = Vec<(&'static str, usize)>;

/// The last filter ticks of a place.
#[derive(Clone, Copy, Debug, Default)]
struct Cuts {
    /// How many were cut, one after another.
    in_a_row: usize,
    /// Whether the last of them left the integral beyond IL.
    past_il: bool,
}

fn is_past_il(servo: &Servo) -> bool {
    servo.integral.abs() > i64::from(servo.gains.il)
}

#[derive(Debug, Default)]
pub struct Seen {
    /// Frames that ended, by the chain's last place.
    pub chains: [usize; MOST_MODULES],
    /// Modules touched, by place.
    pub places: [usize; MOST_MODULES],
    /// Modules touched, by code and cause: servos, then I/O modules, then steppers.
    pub met: [[[usize; CAUSES]; 16]; TYPES],
    /// Frames that mean one thing to a module and another to one of another type.
    pub two_causes: Tally,
    pub three_causes: Tally,
    pub steppers: Steppers,
    pub homings: Homings,
    /// Servos touched or ticked, by what came upon them, mode before and mode after.
    pub modes: [[[usize; 5]; 5]; CHANGES.len()],
    /// What ticks have done to servos that ran.
    pub running: Tally,
    /// Numbers of servos that went round in a tick, at either end of their range or in its middle.
    pub wraps: Tally,
    /// What servos have executed while their last filter tick was a cut one, and what ticks have done to them then.
    pub frames_while_cut: Tally,
    pub ticks_while_cut: Tally,
    cuts: [Cuts; MOST_MODULES],
    /// Answers by their number.
    pub numbers: [usize; 21],
    /// Frames by how many modules replied: none, one, more.
    pub repliers: [usize; 3],
    pub bytes: usize,
    pub buffers: Buffers,
    pub ticks: usize,
    pub full_rooms: usize,
    pub damaged_records: usize,
    pub damaged_records_taken: usize,
    /// Ticks with a damaged record and a list that would have been refused with the record as it was.
    pub damaged_records_and_lists: Tally,
    pub host_calls: usize,
}

/// Adds what happened; every tally is of one list, always in the same order.
fn add(tally: &mut Tally, happened: &[(&'static str, bool)]) {
    if tally.is_empty() {
        tally.extend(happened.iter().map(|(name, _)| (*name, 0)));
    }
    for ((_, count), (_, happened)) in tally.iter_mut().zip(happened) {
        *count += usize::from(*happened);
    }
}

fn change_by_frame(code: u8, data: &[u8], cause: u8) -> Change {
    match (cause, code, data) {
        (0, 5, _) => Change::Start,
        (0, 4, [control, ..]) if control & 0x80 != 0 => Change::StartNow,
        (0, 7, [control, ..]) => match control >> 1 {
            0 => Change::Nothing,
            1 => Change::StopOff,
            2 => Change::Abrupt,
            4 => Change::Smooth,
            _ => Change::StopHere,
        },
        (0, 15, _) => Change::HardReset,
        _ => Change::Nothing,
    }
}

/// What a tick does to a servo that has power and no trip.
fn change_by_home(before: &Servo, after: &Servo) -> Change {
    let ready = after.latched.power == 1 && !before.error;
    match homing::found(before, after) {
        Some(Some(HomeStop::Off)) => Change::HomeOff,
        Some(Some(HomeStop::Abrupt)) if ready => Change::HomeAbrupt,
        Some(Some(HomeStop::Smooth)) => Change::HomeSmooth,
        _ => Change::Nothing,
    }
}

/// Whether a 32-bit count went over the end of its range, upward and downward, by a step that is no leap.
fn over_end(before: u32, after: u32) -> (bool, bool) {
    let step = after.wrapping_sub(before) as i32;
    (step > 0 && after < before, step < 0 && after > before)
}

/// The same for a number with a sign: from 2^31 - 1 to -2^31 and back.
fn over_half(before: u32, after: u32) -> (bool, bool) {
    over_end(before ^ 1 << 31, after ^ 1 << 31)
}

/// The causes that a frame has left, by type.
type Told = [[bool; CAUSES]; TYPES];

/// Where a module's type stands in a table of them.
fn index(module: &Module) -> usize {
    match module {
        Module::Servo(_) => 0,
        Module::Io(_) => 1,
        Module::Stepper(_) => 2,
    }
}

impl Seen {
    /// A frame that has ended; the networks tell of it before and after.
    pub fn frame(&mut self, before: &Network, after: &Network, written: usize) {
        let receiver = &before.receiver;
        let code = receiver.command & 15;
        let mut repliers = 0;
        let mut told = [[false; CAUSES]; TYPES];
        for (place, module) in before.modules.iter().enumerate() {
            let touch = match before.touch(place, receiver.address) {
                Some(touch) => touch,
                None => continue,
            };
            self.places[place] += 1;
            let cause = after.modules[place].station().cause;
            self.met[index(module)][usize::from(code)][usize::from(cause)] += 1;
            told[index(module)][usize::from(cause)] = true;
            self.touched(&before.receiver, module, &after.modules[place]);
            let speaks = touch == Touch::Individually || module.station().leader;
            repliers += usize::from(speaks && !(code == 15 && cause == 0));
        }
        self.several_causes(&told);
        self.chains[before.modules.len() - 1] += 1;
        self.repliers[repliers.min(2)] += 1;
        self.full_rooms += usize::from(written == ROOM_LEN);
    }

    /// A buffer that was taken, by the network before it: as its bytes bring them, each frame that has ended. How many
    /// these are.
    pub fn buffer(&mut self, before: &Network, bytes: &[u8], marks: &[u8], written: usize) -> usize {
        let mut network = before.clone();
        let mut fates = Vec::new();
        for (mark, byte) in marks.iter().zip(bytes) {
            let was = network.receiver.is_at_last().then(|| network.clone());
            let ended = uncounted(|| network.byte(*mark == 1, *byte));
            fates.push(match (was, ended) {
                (Some(was), Some(ended)) => {
                    let replied = ended.replies.iter().map(|(_, reply)| reply.len()).sum();
                    self.frame(&was, &network, replied);
                    uncounted(|| Fate::of_last(&ended, before, &was))
                }
                _ if network.receiver.fill == 0 => Fate::Dropped { marked: *mark == 1 },
                _ => Fate::Inside,
            });
        }
        self.buffers.taken(&fates, written, network.receiver.fill != 0);
        fates.iter().filter(|fate| matches!(fate, Fate::Ended { .. })).count()
    }

    /// What the frame in the receiver has made of a module that it touched.
    fn touched(&mut self, receiver: &Receiver, before: &Module, after: &Module) {
        let (code, count) = (receiver.command & 15, usize::from(receiver.command >> 4));
        let data = &receiver.data[..count];
        match (before, after) {
            (Module::Servo(before), Module::Servo(after)) => {
                let cause = after.station.cause;
                let change = change_by_frame(code, data, cause);
                self.mode(change, before, after);
                self.homings.frame(code, data, before, after);
                if before.cut && cause == EXECUTED {
                    self.frame_while_cut(code, change, after);
                }
            }
            (Module::Stepper(before), Module::Stepper(after)) => self.steppers.frame(code, data, before, after),
            _ => {}
        }
    }

    fn several_causes(&mut self, told: &Told) {
        let [servo, io, stepper] = told;
        let both = |one: u8, io_has: u8| servo[usize::from(one)] && io[usize::from(io_has)];
        add(
            &mut self.two_causes,
            &[
                ("executed by a servo, unknown to an I/O module", both(EXECUTED, UNKNOWN)),
                ("executed by a servo, of a wrong count for an I/O module", both(EXECUTED, WRONG_COUNT)),
                ("unknown to a servo, executed by an I/O module", both(UNKNOWN, EXECUTED)),
                ("unknown to a servo, of a wrong count for an I/O module", both(UNKNOWN, WRONG_COUNT)),
                ("of a wrong count for a servo, executed by an I/O module", both(WRONG_COUNT, EXECUTED)),
                ("out of range for a servo, of a wrong count for an I/O module", both(OUT_OF_RANGE, WRONG_COUNT)),
                ("not now for a servo, executed by an I/O module", both(NOT_NOW, EXECUTED)),
            ],
        );
        let all = |causes: [u8; TYPES]| {
            let [one, two, three] = causes.map(usize::from);
            servo[one] && io[two] && stepper[three]
        };
        add(
            &mut self.three_causes,
            &[
                ("executed by all three types", all([EXECUTED, EXECUTED, EXECUTED])),
                ("out of range for a stepper alone", all([EXECUTED, EXECUTED, OUT_OF_RANGE])),
                ("of a wrong count for a servo alone", all([WRONG_COUNT, EXECUTED, EXECUTED])),
                ("executed by a servo alone", all([EXECUTED, WRONG_COUNT, OUT_OF_RANGE])),
                ("executed by a stepper alone", all([WRONG_COUNT, WRONG_COUNT, EXECUTED])),
                ("executed by an I/O module alone", all([UNKNOWN, EXECUTED, UNKNOWN])),
                ("known to a servo alone", all([EXECUTED, UNKNOWN, UNKNOWN])),
                ("not now for a servo, executed by both others", all([NOT_NOW, EXECUTED, EXECUTED])),
                ("not now for a stepper, executed by both others", all([EXECUTED, EXECUTED, NOT_NOW])),
            ],
        );
    }

    /// A tick with its list; the networks tell of it before and after.
    pub fn tick(&mut self, before: &Network, after: &Network, list: &[u8]) {
        self.buffers.tick();
        for (place, pair) in before.modules.iter().zip(&after.modules).enumerate() {
            match pair {
                (Module::Servo(before), Module::Servo(after)) => self.tick_of_servo(place, before, after),
                (Module::Stepper(before), Module::Stepper(after)) => {
                    self.steppers.tick(list[SAMPLE_LEN * place + 1] == 1, before, after);
                }
                _ => {}
            }
        }
    }

    fn tick_of_servo(&mut self, place: usize, before: &Servo, after: &Servo) {
        let change = match (after.latched.power, after.error && !before.error) {
            (0, _) => Change::PowerLow,
            (_, true) => Change::Trip,
            _ => change_by_home(before, after),
        };
        self.mode(change, before, after);
        self.homings.tick(place, before, after);
        if before.mode != Mode::Off {
            self.run(before, after);
        }
        if before.cut {
            self.tick_while_cut(self.cuts[place], change, before, after);
        }
        let in_a_row = if before.cut { self.cuts[place].in_a_row + 1 } else { 1 };
        self.cuts[place] = if after.cut { Cuts { in_a_row, past_il: is_past_il(after) } } else { Cuts::default() };
    }

    /// A tick upon a damaged record, by its number, and the number that its list has with the record undamaged.
    pub fn damaged_record_and_list(&mut self, number: u32, undamaged: u32) {
        let hides = |later: u32| number == BAD_RECORD && undamaged == later;
        add(
            &mut self.damaged_records_and_lists,
            &[
                ("number 16 before number 20", hides(BAD_LIST)),
                ("number 16 before number 13", hides(BAD_PLACE)),
                ("number 16 before number 14", hides(BAD_FIELD)),
                ("the list refused, the record taken though damaged", number == undamaged),
            ],
        );
    }

    /// The ticks before are those of another record.
    pub fn another_record(&mut self) {
        self.cuts = Default::default();
        self.homings.another_record();
        self.buffers.another_record();
    }

    fn frame_while_cut(&mut self, code: u8, change: Change, after: &Servo) {
        let started = matches!(change, Change::Start | Change::StartNow);
        add(
            &mut self.frames_while_cut,
            &[
                ("cut, then off by Stop", change == Change::StopOff),
                ("cut, then Hard Reset", change == Change::HardReset),
                ("cut, then PWM starts", started && after.mode == Mode::Pwm),
                ("cut, then velocity mode starts", started && after.mode == Mode::Velocity),
                ("cut, then a trapezoid starts", started && after.mode == Mode::Trapezoid),
                ("cut, then an abrupt stop", change == Change::Abrupt),
                ("cut, then Stop Here", change == Change::StopHere),
                ("cut, then a smooth stop", change == Change::Smooth),
                ("cut, then Stop with bit 0 alone", code == 7 && change == Change::Nothing),
                ("cut, then a load that waits", code == 4 && !started),
                ("cut, then Set Gain", code == 6),
                ("cut, then Reset Position", code == 0),
                ("cut, then Clear Bits", code == 11),
            ],
        );
    }

    fn tick_while_cut(&mut self, cuts: Cuts, change: Change, before: &Servo, after: &Servo) {
        let plain = !after.servo_off() && !after.cut;
        add(
            &mut self.ticks_while_cut,
            &[
                ("cut, then off by power", change == Change::PowerLow),
                ("cut, then off by a trip", change == Change::Trip),
                ("cut three times, then not", plain && cuts.in_a_row >= 3),
                ("left beyond IL by a cut tick, then held to it", plain && cuts.past_il && is_past_il(before)),
            ],
        );
    }

    fn mode(&mut self, change: Change, before: &Servo, after: &Servo) {
        self.modes[change as usize][before.mode as usize][after.mode as usize] += 1;
    }

    fn run(&mut self, before: &Servo, after: &Servo) {
        let (power, a) = (after.latched.power, i64::from(after.running_acceleration));
        let (v, w) = (before.speed.abs(), after.speed.abs());
        let trapezoid = after.mode == Mode::Trapezoid;
        let between = w > (v - a).max(0) && w < (v + a).min(i64::from(after.top));
        let steep = trapezoid && a > STEEP && i64::from(after.top) > STEEP;
        add(
            &mut self.running,
            &[
                ("trip", after.error),
                ("power lost", power == 0),
                ("power lost with a load waiting", power == 0 && before.load.waits),
                ("power lost with the amplifier on", power == 0 && before.amplifier),
                ("power high", power == 2),
                ("driven again after high power", before.latched.power == 2 && after.output != 0),
                ("arrived", trapezoid && before.distance() != 0 && after.distance() == 0),
                ("reversed", before.speed.signum() * after.speed.signum() < 0),
                ("output at its limit", after.output != 0 && after.output.abs() == i64::from(after.gains.ol)),
                ("trapezoid's speed neither highest nor lowest", trapezoid && between),
                ("trapezoid with both rates near their greatest", steep),
                ("such a trapezoid that brakes to a speed in between", steep && between && w < v),
                ("trapezoid that needs a million ticks to stop", trapezoid && w > 1_000_000 * a),
            ],
        );
        if !after.servo_off() {
            self.wrap(before, after);
        }
    }

    fn wrap(&mut self, before: &Servo, after: &Servo) {
        let whole = |servo: &Servo| (servo.setpoint >> 16) as u32;
        let setpoint = over_end(whole(before), whole(after));
        let setpoint_half = over_half(whole(before), whole(after));
        let position_half = over_half(before.position(), after.position());
        let position = over_end(before.position(), after.position());
        let raw = over_end(before.latched.raw, after.latched.raw);
        let error = over_end(after.position(), whole(after));
        let error_half = over_half(after.position(), whole(after));
        let goal = if after.mode == Mode::Trapezoid { over_end(whole(after), after.goal) } else { (false, false) };
        let far = after.mode == Mode::Trapezoid && after.distance().abs() > (1 << 47) - (1 << 24);
        add(
            &mut self.wraps,
            &[
                ("setpoint up over 2^48", setpoint.0),
                ("setpoint down over 0", setpoint.1),
                ("setpoint's whole part up over 2^31", setpoint_half.0),
                ("setpoint's whole part down over 2^31", setpoint_half.1),
                ("position up over 2^31", position_half.0),
                ("position down over -2^31", position_half.1),
                ("position up over 0", position.0),
                ("position down over 0", position.1),
                ("raw count up over 2^32", raw.0),
                ("raw count down over 0", raw.1),
                ("error over 0, setpoint ahead", error.0),
                ("error over 0, setpoint behind", error.1),
                ("error over 2^31, setpoint ahead", error_half.0),
                ("error over 2^31, setpoint behind", error_half.1),
                ("goal over 2^32", goal.0),
                ("goal over 0", goal.1),
                ("goal nearly 2^31 counts away", far),
            ],
        );
    }
}
