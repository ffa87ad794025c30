//! Where the dice are led: frames that somebody hears and can execute, records that pass the list at its edges,
//! samples of a motor that follows, and lists of samples with something wrong with them.

use crate::calls::*;
use crate::dice::Dice;
use crate::model::{
    distance, items_of, stopping_sum, Device, Gains, Homing, Io, Load, Mode, Module, Network, Servo, Station, Stepper,
    Way, CAUSES, HEADER, SPEED_MOST,
};
use crate::record::{
    at, put_module, slot, CAUSE, COUNT, FILL, IO_LEN, MARK, SERVO_LEN, SLOTS, STEPPER_LEN, TWELVE_BITS,
};
use crate::slips::Slip;

pub mod buffer;
pub mod stepper;

/// Individual and group bytes that meet each other often, and the header among them.
const INDIVIDUALS: &[u8] = &[0, 1, 2, 3, 4, 0x81, 0x82, HEADER, 0xFF];
const GROUPS: &[u8] = &[0xFF, 0x7F, 0x81, 0x01, 0x82, 0x02, HEADER, 0x2A, 0x80, 0x00];
const IO_CODES: &[u8] = &[0, 0, 1, 1, 2, 2, 3, 3, 4, 5, 5, 6, 6, 7, 7, 8, 9, 10, 10, 11, 12, 12, 13, 14, 15];
const SERVO_CODES: &[u8] =
    &[0, 0, 1, 2, 2, 3, 3, 3, 4, 4, 4, 4, 4, 5, 5, 5, 6, 6, 7, 7, 7, 8, 9, 9, 9, 10, 11, 11, 12, 13, 14, 15];
/// Control byte of a trapezoid with all that it needs.
pub const TRAPEZOID: u8 = 0x17;
const EDGES: &[u8] = &[0, 1, 2, 3, 4, 5, 15, 16, 31, 32, 33, 63, 64, 127, 128, HEADER, 255];

pub fn data_byte(dice: &mut Dice) -> u8 {
    match dice.below(10) {
        0 => HEADER,
        1 => 0,
        2 => 0xFF,
        _ => dice.byte(),
    }
}

pub fn individual(dice: &mut Dice) -> u8 {
    if dice.percent(85) {
        dice.pick(INDIVIDUALS)
    } else {
        dice.byte()
    }
}

pub fn group(dice: &mut Dice) -> u8 {
    if dice.percent(85) {
        dice.pick(GROUPS)
    } else {
        dice.byte()
    }
}

fn chain_length(dice: &mut Dice) -> usize {
    match dice.below(16) {
        0 => 1,
        1 => 32,
        2 | 3 => 1 + dice.below(MOST_MODULES),
        _ => 2 + dice.below(4),
    }
}

/// Types that a chain is made of, mostly all of them.
const MIXTURES: &[&[u8]] = &[
    &[0, 2, 3],
    &[0, 0, 2, 3],
    &[0, 0, 0, 2, 3],
    &[0, 0, 0, 2, 3, 3],
    &[0, 0, 2],
    &[0, 0, 3],
    &[2, 3],
    &[0],
    &[2],
    &[3],
];

pub fn types(dice: &mut Dice) -> Vec<u8> {
    let length = chain_length(dice);
    let mixture = dice.pick(MIXTURES);
    (0..length).map(|_| dice.pick(mixture)).collect()
}

/// Items to define or to read, mostly those that a type has.
pub fn any_items(dice: &mut Dice, module_type: u8) -> u8 {
    let items = data_byte(dice);
    if dice.percent(80) {
        items & items_of(module_type.into())
    } else {
        items
    }
}

/// Mostly another count of data than a command has, often by one: then the rest of it is still what it was.
fn miscount(dice: &mut Dice, data: &mut Vec<u8>) {
    let count = match dice.below(4) {
        0 => data.len().saturating_sub(1),
        1 => (data.len() + 1).min(15),
        _ => dice.below(16),
    };
    data.resize_with(count, || data_byte(dice));
}

/// Frames that mean different things to the types of a group: code and data.
const DIVIDED: &[(u8, &[u8])] = &[
    (2, &[0xFF]),
    (3, &[0x1F]),
    (4, &[0x02, 0x64]),
    (4, &[0x02, 0x64]),
    (4, &[0x12, 0x05]),
    (4, &[0x04, 0x03]),
    (5, &[]),
    (5, &[]),
    (6, &[0x00, 0x05]),
    (6, &[0x00, 0x05, 0x00, 0x00, 0x00]),
    (7, &[0x02]),
    (7, &[0x03]),
    (9, &[0x13]),
    (11, &[]),
    (12, &[]),
];

/// A frame that somebody in the network is likely to hear.
pub fn frame(dice: &mut Dice, network: &Network) -> (u8, u8, Vec<u8>) {
    let module = &network.modules[dice.below(network.modules.len())];
    let station = module.station();
    if dice.percent(5) {
        let (code, data) = dice.pick(DIVIDED);
        return (station.group, code, data.to_vec());
    }
    let address = match dice.below(20) {
        0..=8 => station.individual,
        9..=15 => station.group,
        16 => 0,
        17 => 0xFF,
        _ => dice.byte(),
    };
    let (code, mut data) = match module {
        Module::Servo(servo) => servo_command(dice, servo),
        Module::Io(_) => {
            let code = dice.pick(IO_CODES);
            let data = (0..module.count(code, &[])).map(|_| data_byte(dice)).collect();
            (code, data)
        }
        Module::Stepper(stepper) => stepper::command(dice, stepper),
    };
    if dice.percent(15) {
        miscount(dice, &mut data);
    }
    if code == 1 && data.len() >= 2 {
        data[0] = individual(dice);
        data[1] = group(dice);
    }
    (address, code, data)
}

// ---------------------------------------------------------------- the servo

/// A velocity or an acceleration near its greatest.
fn steep_rate(dice: &mut Dice) -> u32 {
    let less = if dice.percent(50) { 3 } else { SPEED_MOST as usize / 2 };
    SPEED_MOST - dice.below(less) as u32
}

/// A velocity or an acceleration: mostly one that a move of some ticks shows; the edges of its range; and often one
/// near its greatest.
fn rate(dice: &mut Dice) -> u32 {
    match dice.below(24) {
        0 | 1 => 0,
        2 => 1,
        3..=5 => steep_rate(dice),
        6..=10 => dice.below(300) as u32,
        11..=15 => dice.below(4 << 16) as u32,
        _ => (1 + dice.below(24) as u32) << 14,
    }
}

fn rate_or_bad(dice: &mut Dice) -> u32 {
    match dice.below(20) {
        0 => SPEED_MOST + 1,
        1 => dice.throw() as u32,
        _ => rate(dice),
    }
}

fn bad_rate(dice: &mut Dice) -> u32 {
    dice.pick(&[SPEED_MOST + 1, u32::MAX])
}

/// Counts that are near, and counts at the far end of the circle.
fn counts(dice: &mut Dice) -> u32 {
    match dice.below(14) {
        0 => 0,
        1 => 1,
        2..=4 => 1 << 31,
        5 => dice.pick(&[(1 << 31) - 1, (1 << 31) + 1]),
        6 => dice.throw() as u32,
        7..=10 => dice.below(60) as u32,
        _ => (dice.below(60) as u32).wrapping_neg(),
    }
}

/// Counts that take a few ticks with the steepest ramps.
fn steep_counts(dice: &mut Dice) -> u32 {
    (dice.below(12_000) as u32).wrapping_sub(6_000)
}

fn where_it_is(servo: &Servo) -> u32 {
    if servo.servo_off() {
        servo.position()
    } else {
        (servo.setpoint >> 16) as u32
    }
}

/// A load's control byte. Until both rates have been loaded, often one that brings the other alone.
fn control(dice: &mut Dice, servo: &Servo) -> u8 {
    let fresh = !(servo.velocity_loaded && servo.acceleration_loaded);
    let mut control = match dice.below(12) {
        _ if fresh && dice.percent(40) => dice.pick(&[0x13, 0x15, 0x32, 0x34]),
        _ if servo.mode == Mode::Pwm && dice.percent(20) => 0x08,
        0..=3 => TRAPEZOID,
        4..=6 => 0x36,
        7 => 0x11,
        8 => dice.pick(&[0x32, 0x16]),
        9 | 10 => 0x08,
        _ => dice.byte(),
    };
    if dice.percent(15) {
        control ^= 1 << dice.below(8);
    }
    control
}

/// A load by its control byte; reversed or not, to be started now or not. Often one of a steep move, whose numbers
/// belong together.
pub fn load(dice: &mut Dice, servo: &Servo, control: u8) -> Vec<u8> {
    if dice.percent(15) {
        load_with(dice, servo, control, steep_counts, steep_rate)
    } else {
        load_with(dice, servo, control, counts, rate_or_bad)
    }
}

fn load_with(
    dice: &mut Dice,
    servo: &Servo,
    control: u8,
    counts: fn(&mut Dice) -> u32,
    rate: fn(&mut Dice) -> u32,
) -> Vec<u8> {
    let control = control ^ dice.pick(&[0, 0x40, 0x80, 0xC0]);
    let mut data = vec![control];
    if control & 1 != 0 {
        data.extend(where_it_is(servo).wrapping_add(counts(dice)).to_le_bytes());
    }
    for bit in [1, 2] {
        if control >> bit & 1 == 1 {
            data.extend(rate(dice).to_le_bytes());
        }
    }
    if control & 8 != 0 {
        data.push(data_byte(dice));
    }
    data
}

fn gain(dice: &mut Dice) -> u16 {
    match dice.below(8) {
        0 => 0,
        1 | 2 => 32_767,
        3 => dice.below(0x8000) as u16,
        _ => dice.below(800) as u16,
    }
}

/// Bytes of Set Gain by which a value is out of range: the upper one of a number, SR, DB.
const GAIN_TOPS: &[usize] = &[1, 3, 5, 7, 11, 12, 13];

/// Output limits, with those among them that leave nothing, or hardly a thing.
const OUTPUT_LIMITS: &[u8] = &[0, 1, 50, 127, 200, 254, 255];

/// Good gains, mostly with room for an error.
pub fn gains(dice: &mut Dice) -> Vec<u8> {
    let mut data = Vec::new();
    for _ in 0..4 {
        data.extend(gain(dice).to_le_bytes());
    }
    data.push(dice.pick(OUTPUT_LIMITS));
    data.push(dice.byte());
    let limit = match dice.below(8) {
        0 => dice.below(4) as u16,
        1 | 2 => 16_383,
        _ => dice.below(16_384) as u16,
    };
    data.extend(limit.to_le_bytes());
    data.extend([1, 0, dice.byte()]);
    data
}

/// The servo's own gains, but for IL and OL: the integral is often beyond the new IL.
fn other_limits(dice: &mut Dice, servo: &Servo) -> Vec<u8> {
    let Gains { kp, kd, ki, cl, el, sm, .. } = servo.gains;
    let integral = servo.integral.unsigned_abs() as usize;
    let il = if dice.percent(70) { dice.below(1 + integral) as u16 } else { gain(dice) };
    let mut data = [kp, kd, ki, il].map(u16::to_le_bytes).concat();
    data.extend([dice.pick(OUTPUT_LIMITS), cl]);
    data.extend(el.to_le_bytes());
    data.extend([1, 0, sm]);
    data
}

/// Stop's data with their control byte.
fn stop(dice: &mut Dice, servo: &Servo, control: u8) -> Vec<u8> {
    let mut data = vec![control];
    if control & 0x10 != 0 {
        data.extend(servo.position().wrapping_add(counts(dice)).to_le_bytes());
    }
    data
}

/// Set Homing's byte: mostly a good one, with any stop or none.
pub fn homing_byte(dice: &mut Dice) -> u8 {
    if dice.percent(80) {
        dice.pick(&[0x01, 0x02, 0x03]) | dice.pick(HOMING_STOPS)
    } else {
        bad_homing_byte(dice)
    }
}

/// No stop, off, abrupt, smooth: where these bits stand in Set Homing's byte.
const HOMING_STOPS: &[u8] = &[0x00, 0x04, 0x10, 0x20];

/// Without a watched input, with two stops or with another bit; sometimes with more than one of these, or good after all.
fn bad_homing_byte(dice: &mut Dice) -> u8 {
    match dice.below(4) {
        0 => dice.pick(HOMING_STOPS),
        1 => dice.pick(&[0x01, 0x02, 0x03]) | dice.pick(&[0x14, 0x24, 0x30, 0x34]),
        2 => dice.pick(&[0x01, 0x02, 0x03]) | dice.pick(HOMING_STOPS) | dice.pick(&[0x08, 0x40, 0x80]),
        _ => dice.byte(),
    }
}

/// A command with a bad value, with another count than its own or with both, whatever the servo can do now: one fault
/// hides the other.
fn faulty_command(dice: &mut Dice, servo: &Servo) -> (u8, Vec<u8>) {
    let code = dice.pick(&[0, 0, 4, 4, 5, 6, 7, 7, 9]);
    let mut data = match code {
        4 => {
            let control = dice.pick(&[TRAPEZOID, 0x36, 0x12, 0x14, 0x0E]);
            load_with(dice, servo, control, counts, bad_rate)
        }
        6 => {
            let mut gains = gains(dice);
            gains[dice.pick(GAIN_TOPS)] = 0xFF;
            gains
        }
        7 => {
            let control = dice.pick(&[0x06, 0x0C, 0x0A, 0x12, 0x14, 0x18, 0x20, 0x44, 0x90]);
            stop(dice, servo, control)
        }
        9 => vec![bad_homing_byte(dice)],
        _ => Vec::new(),
    };
    if data.is_empty() || dice.percent(60) {
        miscount(dice, &mut data);
    }
    (code, data)
}

/// A command of the servo's, mostly one that it can execute as it stands.
pub fn servo_command(dice: &mut Dice, servo: &Servo) -> (u8, Vec<u8>) {
    if dice.percent(4) {
        return faulty_command(dice, servo);
    }
    // in a dip, often a Stop that decides what the enable line is after it
    if servo.amplifier && servo.latched.power != 1 && dice.percent(15) {
        return (7, vec![dice.pick(&[0, 1, 2, 8])]);
    }
    // with the output at its limit, often a Set Gain after which the integral may stay beyond its own
    if servo.cut && dice.percent(15) {
        return (6, other_limits(dice, servo));
    }
    let code = dice.pick(SERVO_CODES);
    let data = match code {
        4 => {
            let control = control(dice, servo);
            load(dice, servo, control)
        }
        6 => {
            let mut gains = gains(dice);
            if dice.percent(25) {
                gains[dice.pick(GAIN_TOPS)] = dice.pick(&[0, 1, 2, 0x3F, 0x40, 0x7F, 0x80, 0xFF]);
            }
            gains
        }
        7 => {
            let control = if dice.percent(85) {
                dice.pick(&[0, 1, 2, 3, 4, 5, 5, 8, 9, 9, 0x10, 0x11, 0x11])
            } else {
                dice.byte()
            };
            stop(dice, servo, control)
        }
        9 => vec![homing_byte(dice)],
        _ => (0..Servo::count(code, &[])).map(|_| data_byte(dice)).collect(),
    };
    (code, data)
}

/// Where the counts go round, and where their sign does.
fn seam(dice: &mut Dice) -> u32 {
    dice.pick(&[0, 1 << 31])
}

/// Where the setpoint will be if the profile goes on as it does.
pub fn ahead(servo: &Servo) -> u32 {
    ((servo.setpoint + servo.speed) >> 16) as u32
}

/// How far off a motor is, by a little mostly, with what trips and what just does not among it.
fn error(dice: &mut Dice, servo: &Servo) -> u32 {
    let limit = u32::from(servo.gains.el);
    let error = match dice.below(24) {
        0 => limit,
        1 => limit + 1,
        2 => 1 << 31,
        3 => dice.throw() as u32,
        4..=6 => dice.below(1 + servo.gains.el as usize) as u32,
        _ => dice.below(1 + servo.gains.el.min(9) as usize) as u32,
    };
    if dice.percent(50) {
        error.wrapping_neg()
    } else {
        error
    }
}

/// The error, if EL allows it, by which there is just OL or -OL to put out, or a little more or less.
fn error_to_output_limit(dice: &mut Dice, servo: &Servo) -> u32 {
    let [kp, kd, ki, el] = [servo.gains.kp, servo.gains.kd, servo.gains.ki, servo.gains.el].map(i64::from);
    let u = 256 * i64::from(servo.gains.ol) + dice.below(600) as i64 - 200;
    let remembered = ki * servo.integral - kd * servo.previous_error;
    let error = (dice.pick(&[1, -1]) * u - remembered) / (kp + kd + ki).max(1);
    error.clamp(-el, el) as u32
}

/// For a servo that stands ready for a full swing, the error at the other end of the range.
fn error_of_swing(dice: &mut Dice, servo: &Servo) -> u32 {
    (-servo.previous_error.signum() * (16_383 - dice.below(3) as i64)) as u32
}

/// A raw count for a motor that follows its setpoint more or less.
pub fn following(dice: &mut Dice, servo: &Servo) -> u32 {
    let error = if is_ready_to_swing(servo) {
        error_of_swing(dice, servo)
    } else if !servo.servo_off() && dice.percent(15) {
        error_to_output_limit(dice, servo)
    } else {
        error(dice, servo)
    };
    let base = match servo.servo_off() {
        true if dice.percent(15) => seam(dice),
        true => servo.position(),
        false => ahead(servo),
    };
    base.wrapping_sub(error).wrapping_add(servo.offset)
}

// ---------------------------------------------------------------- homing

/// A rate that a move of some ticks shows.
fn plain_rate(dice: &mut Dice) -> u32 {
    (1 + dice.below(24) as u32) << 14
}

/// Counts to go that take some ticks with such rates.
fn plain_counts(dice: &mut Dice) -> u32 {
    (dice.below(400) as u32).wrapping_sub(200)
}

/// A load with all that a trapezoid or velocity mode needs, as its control byte says.
fn plain_load(dice: &mut Dice, servo: &Servo, control: u8) -> Vec<u8> {
    let mut data = load_with(dice, servo, control, plain_counts, plain_rate);
    // reversed or not, but started as asked
    data[0] = data[0] & 0x7F | control & 0x80;
    data
}

/// A command that brings a servo into a mode, into each as often as into another.
pub fn into_a_mode(dice: &mut Dice, servo: &Servo) -> (u8, Vec<u8>) {
    match dice.below(5) {
        0 => (7, vec![dice.pick(&[2, 3])]),
        1 => (4, vec![dice.pick(&[0x88, 0xC8]), data_byte(dice)]),
        2 => (7, vec![dice.pick(&[4, 5])]),
        3 => (4, plain_load(dice, servo, 0xB6)),
        _ => (4, plain_load(dice, servo, 0x97)),
    }
}

/// A load that waits.
pub fn waiting_load(dice: &mut Dice, servo: &Servo) -> Vec<u8> {
    match dice.below(3) {
        0 => vec![0x08, data_byte(dice)],
        1 => plain_load(dice, servo, 0x36),
        _ => plain_load(dice, servo, TRAPEZOID),
    }
}

/// A sample in which an input changes, or both do: at any power, and often further off than the motor may be, most often
/// from where it is held.
pub fn switched(dice: &mut Dice, servo: &Servo) -> Sample {
    let inputs = servo.latched.inputs ^ dice.pick(&[1, 2, 3]);
    let power = dice.pick(&[0, 1, 1, 1, 2]);
    let mut raw = following(dice, servo);
    if dice.percent(if servo.mode == Mode::Holding { 80 } else { 20 }) {
        raw = raw.wrapping_add(dice.pick(&[16_384, 40_000, 1 << 31]));
    }
    servo_sample(raw, power, dice.byte(), inputs)
}

// ---------------------------------------------------------------- samples

/// Limit inputs that change now and then, while homing more often.
fn limits(dice: &mut Dice, servo: &Servo) -> u8 {
    let changes = dice.percent(if servo.homing.is_some() { 25 } else { 8 });
    servo.latched.inputs ^ if changes { dice.pick(&[1, 2, 3]) } else { 0 }
}

/// What a module may measure.
pub fn sample(dice: &mut Dice, module: &Module) -> Sample {
    match module {
        Module::Servo(servo) => {
            let inputs = limits(dice, servo);
            // where homing finds its switch, power is often not good at just that tick
            let switched = servo.homing.is_some() && inputs != servo.latched.inputs;
            let power = match dice.below(if switched { 12 } else { 40 }) {
                0 | 1 => 0,
                2..=4 => 2,
                _ => 1,
            };
            servo_sample(following(dice, servo), power, dice.byte(), inputs)
        }
        Module::Io(_) => any_io_sample(dice),
        Module::Stepper(_) => stepper::sample(dice),
    }
}

/// A good sample of a type, whatever the module does.
fn any_sample(dice: &mut Dice, module_type: u8) -> Sample {
    match module_type {
        Servo::TYPE => servo_sample(dice.throw() as u32, dice.below(3) as u8, dice.byte(), dice.below(4) as u8),
        Io::TYPE => any_io_sample(dice),
        _ => stepper::any_sample(dice),
    }
}

fn any_io_sample(dice: &mut Dice) -> Sample {
    let inputs = dice.below(4096) as u16;
    let ad = [dice.byte(), dice.byte(), dice.byte()];
    io_sample(inputs, ad, dice.throw() as u32)
}

/// Anything in the bytes of a list that are not looked at.
pub fn fill_rests(dice: &mut Dice, list: &mut [u8]) {
    for sample in list.chunks_exact_mut(SAMPLE_LEN) {
        let used = match sample[0] {
            Servo::TYPE => 8,
            Io::TYPE => SAMPLE_LEN,
            _ => 2,
        };
        if dice.percent(70) {
            let rest = dice.bytes(SAMPLE_LEN - used);
            sample[used..].copy_from_slice(&rest);
        }
    }
}

/// Another type: one that no module has, or one of the others, then often with all that belongs to it.
fn spoil_type(dice: &mut Dice, sample: &mut [u8]) {
    let others = match sample[0] {
        Servo::TYPE => [2, 3],
        Io::TYPE => [0, 3],
        _ => [0, 2],
    };
    let other = dice.pick(&others);
    match dice.below(4) {
        0 => sample[0] = dice.pick(&[1, 4, 7, 128, 130, 131, 255]),
        1 => sample[0] = other,
        _ => sample.copy_from_slice(&any_sample(dice, other)),
    }
}

fn spoil_field(dice: &mut Dice, sample: &mut [u8]) {
    match sample[0] {
        Servo::TYPE if dice.percent(50) => sample[7] = dice.pick(&[4, 4, 5, 7, 8, 127, 128, 131, 255]),
        Servo::TYPE => sample[1] = dice.pick(&[3, 3, 4, 127, 128, 254, 255]),
        Io::TYPE => {
            let inputs: u16 = dice.pick(&[4096, 4096, 4097, 0x1FFF, 0x8000, 0xF000, 0xFFFF]);
            sample[1..3].copy_from_slice(&inputs.to_le_bytes());
        }
        _ => sample[1] = dice.pick(&[2, 2, 3, 127, 128, 254, 255]),
    }
}

/// Does it to one sample of a list mostly, else to some; often at an end.
fn spoil_some(dice: &mut Dice, list: &mut [u8], spoil: fn(&mut Dice, &mut [u8])) {
    let chain = list.len() / SAMPLE_LEN;
    for _ in 0..dice.pick(&[1, 1, 1, 2, 3]) {
        let place = match dice.below(4) {
            0 => 0,
            1 => chain - 1,
            _ => dice.below(chain),
        };
        spoil(dice, &mut list[SAMPLE_LEN * place..SAMPLE_LEN * (place + 1)]);
    }
}

/// By a byte, by part of a sample, by one or several; what it has more is often good, too.
fn spoil_length(dice: &mut Dice, list: &mut Vec<u8>) {
    let right = list.len();
    let length = match dice.below(8) {
        0 => 0,
        1 => right - 1,
        2 => right - SAMPLE_LEN,
        3 => dice.below(right),
        4 => right + 1,
        5 => right + SAMPLE_LEN,
        6 => right + 1 + dice.below(3 * SAMPLE_LEN),
        _ => dice.pick(&[2 * right, SAMPLE_LEN * (MOST_MODULES + 1), right + 256, right + 65_536]),
    };
    let more = if dice.percent(50) { list[right - SAMPLE_LEN..].to_vec() } else { dice.bytes(SAMPLE_LEN) };
    let mut again = more.into_iter().cycle();
    list.resize_with(length, || again.next().expect("without end"));
}

/// A list that a chain of this one's length does not take, often for two reasons at once.
pub fn spoiled_list(dice: &mut Dice, list: &[u8]) -> Vec<u8> {
    const LENGTH: u8 = 1;
    const TYPE: u8 = 2;
    const FIELD: u8 = 4;
    let faults = dice.pick(&[LENGTH, LENGTH, TYPE, TYPE, FIELD, FIELD, TYPE | FIELD, TYPE | FIELD, 3, 5, 7]);
    let mut list = list.to_vec();
    if faults & FIELD != 0 {
        spoil_some(dice, &mut list, spoil_field);
    }
    if faults & TYPE != 0 {
        spoil_some(dice, &mut list, spoil_type);
    }
    if faults & LENGTH != 0 {
        spoil_length(dice, &mut list);
    }
    list
}

// ---------------------------------------------------------------- records

fn within(dice: &mut Dice, most: i64) -> i64 {
    match dice.below(6) {
        0 => most,
        1 => -most,
        2 | 3 => dice.below(40.min(most as usize + 1)) as i64 - 20.min(most / 2),
        _ => dice.below(2 * most as usize + 1) as i64 - most,
    }
}

fn flag(dice: &mut Dice) -> bool {
    dice.percent(50)
}

fn any_gains(dice: &mut Dice) -> Gains {
    Gains {
        kp: gain(dice),
        kd: gain(dice),
        ki: gain(dice),
        il: gain(dice),
        ol: data_byte(dice),
        cl: dice.byte(),
        el: if dice.percent(70) { 16_383 - dice.below(4000) as u16 } else { dice.below(16_384) as u16 },
        sm: dice.byte(),
    }
}

/// Without a waiting load the list asks nothing of the load's other bytes.
fn any_load(dice: &mut Dice) -> Load {
    if dice.percent(40) {
        return Load::default();
    }
    Load {
        waits: dice.percent(90),
        way: dice.pick(&[Way::Pwm, Way::Velocity, Way::Trapezoid, Way::Trapezoid]),
        position_carried: dice.percent(80),
        position: dice.throw() as u32,
        pwm_carried: dice.percent(80),
        pwm: dice.byte(),
        reverse: flag(dice),
    }
}

/// A servo that the list takes, in any mode and often at an edge of it.
fn any_servo(dice: &mut Dice, station: Station) -> Servo {
    let mut servo = Servo::power_up();
    servo.station = station;
    servo.gains = any_gains(dice);
    servo.velocity = rate(dice);
    servo.acceleration = rate(dice);
    servo.velocity_loaded = dice.percent(70);
    servo.acceleration_loaded = servo.acceleration > 0 && dice.percent(70);
    servo.load = any_load(dice);
    any_motion(dice, &mut servo);

    servo.offset = dice.throw() as u32;
    servo.latched.raw = following(dice, &servo);
    servo.latched.ad = dice.byte();
    servo.latched.inputs = dice.below(4) as u8;
    servo.last_position = dice.throw() as u32;
    servo.home = dice.throw() as u32;
    servo.homing = if dice.percent(50) { Homing::by(homing_byte(dice)) } else { None };
    if servo.mode == Mode::Holding && dice.percent(30) {
        full_swing(dice, &mut servo);
    }
    if dice.percent(60) {
        servo.load.position = where_it_is(&servo).wrapping_add(counts(dice)) * u32::from(servo.load.waits);
    }
    servo
}

/// A mode, and what it asks of the numbers that run with it.
fn any_motion(dice: &mut Dice, servo: &mut Servo) {
    servo.goal = dice.throw() as u32;
    servo.goal_speed = within(dice, i64::from(SPEED_MOST));
    servo.running_acceleration = rate(dice);
    servo.top = rate(dice);
    servo.setpoint = (dice.throw() >> 16) as i64;
    if dice.percent(30) {
        servo.setpoint = ((i64::from(seam(dice)) << 16) + within(dice, 3 << 16)).rem_euclid(1 << 48);
    }
    servo.latched.power = dice.pick(&[0, 1, 1, 1, 1, 1, 2]);
    servo.mode = dice.pick(&[Mode::Off, Mode::Pwm, Mode::Holding, Mode::Velocity, Mode::Velocity, Mode::Trapezoid]);
    if servo.latched.power == 0 {
        servo.mode = Mode::Off;
    }
    match servo.mode {
        Mode::Off | Mode::Holding => {}
        Mode::Pwm => servo.pwm = within(dice, 255),
        Mode::Velocity => servo.speed = within(dice, i64::from(SPEED_MOST)),
        Mode::Trapezoid => any_trapezoid(dice, servo),
    }
    if !servo.servo_off() {
        servo.integral = within(dice, 32_767);
        servo.previous_error = within(dice, 16_383);
        servo.cut = flag(dice);
    }
    if servo.mode != Mode::Off && servo.latched.power == 1 {
        servo.output = within(dice, 255);
    }
    servo.error = servo.mode == Mode::Off && flag(dice);
    servo.amplifier = flag(dice);
}

/// The error at one end of its range, all that is summed up there too, and the highest gains: with the error at the other
/// end u is as large as it can be.
fn full_swing(dice: &mut Dice, servo: &mut Servo) {
    let sign = dice.pick(&[1, -1]);
    servo.gains = Gains { kp: 32_767, kd: 32_767, ki: 32_767, il: 32_767, el: 16_383, ..servo.gains.clone() };
    servo.integral = sign * (32_767 - dice.below(3) as i64);
    servo.previous_error = -sign * (16_383 - dice.below(3) as i64);
}

fn is_ready_to_swing(servo: &Servo) -> bool {
    let Gains { kp, kd, ki, .. } = servo.gains;
    let apart = servo.integral.signum() * servo.previous_error.signum() < 0;
    [kp, kd, ki] == [32_767; 3] && apart && servo.previous_error.abs() > 16_380 && servo.mode == Mode::Holding
}

/// What a move under way needs to stop at most, in 65,536ths; a distance is below 2^47.
const LONGEST_SUM: i64 = 1 << 46;

/// A move under way that can stop within its distance, often by nothing to spare.
fn any_trapezoid(dice: &mut Dice, servo: &mut Servo) {
    servo.running_acceleration = rate(dice).max(1);
    let a = i64::from(servo.running_acceleration);
    let mut size = match dice.below(10) {
        0..=2 => dice.below(2 * a as usize) as i64,
        3..=6 => a * dice.below(2000) as i64 + dice.below(a as usize) as i64,
        _ => dice.below(SPEED_MOST as usize + 1) as i64,
    };
    size = size.min(i64::from(SPEED_MOST));
    while stopping_sum(size, a, Slip::None) > LONGEST_SUM {
        size /= 2;
    }
    servo.top = (size as u32 + dice.below(3) as u32 * rate(dice)).min(SPEED_MOST);
    let spare = match dice.below(6) {
        0 | 1 => 0,
        2 => 1,
        3 | 4 => dice.below(2 * a as usize) as i64,
        _ => dice.below(1 << 40) as i64,
    };
    let left = stopping_sum(size - a, a, Slip::None) + spare;
    let backward = flag(dice);
    let d = if backward { -left } else { left };
    servo.speed = if backward { -size } else { size };
    // the setpoint's fraction is what is missing to whole counts
    let fraction = (-d).rem_euclid(65_536);
    servo.setpoint = (servo.setpoint & !0xFFFF) | fraction;
    servo.goal = ((servo.setpoint >> 16) as u32).wrapping_add(((d + fraction) >> 16) as u32);
    debug_assert_eq!(distance(servo.goal, servo.setpoint), d);
}

/// A record in which every field that the list bounds is within it, and all else is anything.
pub fn any_record(dice: &mut Dice) -> Vec<u8> {
    let mut net = dice.bytes(NET_LEN);
    let types = types(dice);
    net[COUNT] = types.len() as u8;
    if dice.percent(50) {
        net[..=MARK].fill(0);
    } else {
        net[FILL] = 1 + dice.below(3 + usize::from(net[16] >> 4)) as u8;
        net[MARK] = dice.below(2) as u8;
    }
    for (place, module_type) in types.into_iter().enumerate() {
        let station = Station {
            individual: individual(dice),
            group: group(dice) | if dice.percent(90) { 0x80 } else { 0 },
            leader: flag(dice),
            low: dice.percent(70),
            cause: dice.below(CAUSES) as u8,
            items: dice.byte(),
            baud: dice.byte(),
        };
        let module = &mut net[slot(place)..slot(place + 1)];
        match module_type {
            Servo::TYPE => put_module(module, &Module::Servo(Box::new(any_servo(dice, station)))),
            Io::TYPE => put_any_io(module, &station),
            _ => put_module(module, &Module::Stepper(Box::new(stepper::any_stepper(dice, station)))),
        }
    }
    net
}

/// An I/O module out of whatever the slot holds.
fn put_any_io(module: &mut [u8], station: &Station) {
    module[0] = Io::TYPE;
    module[1..6].copy_from_slice(&[
        station.individual,
        station.group,
        station.leader.into(),
        station.low.into(),
        station.cause,
    ]);
    for at in TWELVE_BITS {
        module[at + 1] &= 0x0F;
    }
}

/// Signed and unsigned fields of a servo's slot, four bytes each.
const NUMBERS: &[usize] = &[
    at::VELOCITY,
    at::ACCELERATION,
    at::SETPOINT,
    at::SPEED,
    at::GOAL,
    at::GOAL_SPEED,
    at::RUNNING_ACCELERATION,
    at::TOP,
    at::INTEGRAL,
    at::PREVIOUS_ERROR,
    at::PWM,
    at::OUTPUT,
];
const NUMBER_EDGES: &[i32] =
    &[0, 1, 255, 256, 16_383, 16_384, 32_767, 32_768, SPEED_MOST as i32, SPEED_MOST as i32 + 1];

/// What a trapezoid's way to stop hangs on.
const STOPPING: &[usize] = &[at::SETPOINT, at::SPEED, at::GOAL, at::RUNNING_ACCELERATION];

fn whole_setpoint(slot: &[u8]) -> u32 {
    u32::from_le_bytes(slot[at::SETPOINT + 2..at::SETPOINT + 6].try_into().expect("four bytes"))
}

/// A goal that the next count is: mostly too near to stop there.
fn near_goal(slot: &mut [u8]) {
    let backward = slot[at::SPEED + 3] >= 0x80;
    let goal = whole_setpoint(slot).wrapping_add(if backward { u32::MAX } else { 1 });
    slot[at::GOAL..at::GOAL + 4].copy_from_slice(&goal.to_le_bytes());
}

/// A goal half the range from the setpoint, or a count beside it; often at rest, since no speed can then be against it.
fn far_goal(dice: &mut Dice, slot: &mut [u8]) {
    let goal = whole_setpoint(slot).wrapping_add(dice.pick(&[(1 << 31) - 1, 1 << 31, 1 << 31, (1 << 31) + 1]));
    slot[at::GOAL..at::GOAL + 4].copy_from_slice(&goal.to_le_bytes());
    if dice.percent(50) {
        slot[at::SPEED..at::SPEED + 4].fill(0);
    }
}

fn damage_number(dice: &mut Dice, slot: &mut [u8]) {
    let trapezoid = slot[at::MODE] == Mode::Trapezoid as u8 && dice.percent(60);
    if trapezoid && dice.percent(45) {
        return far_goal(dice, slot);
    }
    if trapezoid && dice.percent(15) {
        return near_goal(slot);
    }
    let at = dice.pick(if trapezoid { STOPPING } else { NUMBERS });
    let old = i32::from_le_bytes(slot[at..at + 4].try_into().expect("four bytes"));
    let new = match dice.below(5) {
        0 => dice.pick(NUMBER_EDGES),
        1 => -dice.pick(NUMBER_EDGES),
        2 => old.wrapping_neg(),
        3 => old.wrapping_add(1),
        _ => old.wrapping_sub(1),
    };
    slot[at..at + 4].copy_from_slice(&new.to_le_bytes());
}

/// Limit inputs or a homing byte at the edges of what they may be.
fn damage_homing(dice: &mut Dice, slot: &mut [u8]) {
    if dice.percent(30) {
        slot[at::INPUTS] = dice.pick(&[0, 1, 2, 3, 4, 4, 5, 128, 255]);
    } else {
        slot[at::HOMING] = bad_homing_byte(dice);
    }
}

/// A bit that the mode does not allow, the cut bit where no filter runs or the error bit where something does; no power;
/// or any number in a byte that has few.
fn damage_byte(dice: &mut Dice, slot: &mut [u8]) {
    if dice.percent(15) {
        slot[at::POWER] = 0;
    } else if dice.percent(50) {
        let forbidden = match slot[at::MODE] {
            0 => at::CUT,
            1 => dice.pick(&[at::CUT, at::ERROR]),
            _ => at::ERROR,
        };
        slot[forbidden] = 1;
    } else {
        let at = dice.pick(&[at::ERROR, at::MODE, at::POWER, at::WAY, at::LOAD_WAITS, at::CUT]);
        slot[at] = dice.below(6) as u8;
    }
}

/// Some place of the chain, often one with a trapezoid: no other mode is asked that much.
fn place_to_damage(dice: &mut Dice, net: &[u8]) -> usize {
    let places = usize::from(net[COUNT]).min(MOST_MODULES);
    let runs =
        |place: &usize| net[slot(*place)] == Servo::TYPE && net[slot(*place) + at::MODE] == Mode::Trapezoid as u8;
    let trapezoids: Vec<usize> = (0..places).filter(runs).collect();
    if !trapezoids.is_empty() && dice.percent(45) {
        dice.pick(&trapezoids)
    } else {
        dice.below(places)
    }
}

pub fn damaged_record(dice: &mut Dice, net: &[u8]) -> Vec<u8> {
    let mut damaged = net.to_vec();
    if dice.percent(5) {
        damaged.resize(dice.pick(&[0, 1, 20, NET_LEN - 1, NET_LEN + 1, NET_LEN + SLOTS]), 0);
        return damaged;
    }
    for _ in 0..1 + dice.below(2) {
        let place = place_to_damage(dice, net);
        damage_some(dice, place, &mut damaged);
    }
    damaged
}

/// A field of the place's type, or any byte, of its slot, of the receiver, or of all.
fn damage_some(dice: &mut Dice, place: usize, net: &mut [u8]) {
    let (module_type, own) = (net[slot(place)], &mut net[slot(place)..slot(place + 1)]);
    match (module_type, dice.below(10)) {
        (Servo::TYPE, 0..=3) => return damage_number(dice, own),
        (Servo::TYPE, 4) => return damage_byte(dice, own),
        (Servo::TYPE, 9) => return damage_homing(dice, own),
        (Stepper::TYPE, 0..=4) => return stepper::damage(dice, own),
        (_, 5) if dice.percent(30) => {
            own[CAUSE] = (CAUSES - dice.below(2)) as u8;
            return;
        }
        _ => {}
    }
    let used = match module_type {
        Servo::TYPE => SERVO_LEN,
        Io::TYPE => IO_LEN,
        _ => STEPPER_LEN,
    };
    let at = match dice.below(10) {
        0..=2 => dice.below(SLOTS),
        3..=7 => slot(place) + dice.below(used),
        _ => dice.below(NET_LEN),
    };
    net[at] = if dice.percent(60) { dice.pick(EDGES) } else { dice.byte() };
}
