//! The lent record as docs/RECORD.md lays it out, and the calls that the model makes of it: every refusal in the
//! table's order, then the network read from the bytes, moved on, and put back.

use crate::branches::{all_hold, either, reach, Branch};
use crate::calls::*;
use crate::model::{
    self, is_half_turn, stopping_sum, Buffer, Device, Gains, Homing, Io, IoSample, Load, Mode, Module, Network,
    Receiver, Servo, ServoSample, Station, Stepper, Way, LIMITS_MOST, SPEED_MOST,
};
use crate::slips::Slip;

mod stepper;
mod text;

pub use stepper::{stepper_at, MOTION, STEPPER_LEN};

pub const FILL: usize = 17;
pub const MARK: usize = 18;
pub const COUNT: usize = 19;
pub const SLOTS: usize = 20;
pub const SLOT_LEN: usize = 128;
/// Where in a slot of any type the last cause stands, and the items.
pub const CAUSE: usize = 5;
pub const ITEMS: usize = 6;
/// Bytes of its slot that an I/O module uses, and a servo.
pub const IO_LEN: usize = 34;
pub const SERVO_LEN: usize = 107;
/// Where in a slot of a type that latches its sample this begins.
pub const LATCHED: usize = 8;

/// Where in a slot the 12-bit numbers of an I/O module begin.
pub const TWELVE_BITS: [usize; 5] = [8, 17, 19, 23, 28];

/// Where in a slot the fields of a servo begin.
pub mod at {
    use crate::branches::Branch;

    pub const POWER: usize = 8;
    pub const AD: usize = 9;
    pub const RAW: usize = 10;
    pub const INPUTS: usize = 14;
    pub const OFFSET: usize = 15;
    pub const LAST_POSITION: usize = 19;
    pub const KP: usize = 23;
    pub const KD: usize = 25;
    pub const KI: usize = 27;
    pub const IL: usize = 29;
    pub const OL: usize = 31;
    pub const EL: usize = 32;
    pub const CL: usize = 34;
    pub const SM: usize = 35;
    pub const VELOCITY: usize = 36;
    pub const ACCELERATION: usize = 40;
    pub const VELOCITY_LOADED: usize = 44;
    pub const ACCELERATION_LOADED: usize = 45;
    pub const LOAD_WAITS: usize = 46;
    pub const WAY: usize = 47;
    pub const POSITION_CARRIED: usize = 48;
    pub const LOAD_POSITION: usize = 49;
    pub const PWM_CARRIED: usize = 53;
    pub const LOAD_PWM: usize = 54;
    pub const REVERSE: usize = 55;
    pub const SETPOINT: usize = 56;
    pub const SPEED: usize = 62;
    pub const GOAL: usize = 66;
    pub const GOAL_SPEED: usize = 70;
    pub const RUNNING_ACCELERATION: usize = 74;
    pub const TOP: usize = 78;
    pub const INTEGRAL: usize = 82;
    pub const PREVIOUS_ERROR: usize = 86;
    pub const MODE: usize = 90;
    pub const PWM: usize = 91;
    pub const OUTPUT: usize = 95;
    pub const ERROR: usize = 99;
    pub const AMPLIFIER: usize = 100;
    pub const CUT: usize = 101;
    pub const HOME: usize = 102;
    pub const HOMING: usize = 106;

    /// Bytes that are 0 or 1, each with the line that asks for it.
    pub const FLAGS: [(usize, Branch); 11] = [
        (3, Branch::ListLeader),
        (4, Branch::ListLow),
        (VELOCITY_LOADED, Branch::ListPaced),
        (ACCELERATION_LOADED, Branch::ListRamped),
        (LOAD_WAITS, Branch::ListWaits),
        (POSITION_CARRIED, Branch::ListPlaced),
        (PWM_CARRIED, Branch::ListPulsed),
        (REVERSE, Branch::ListReverse),
        (ERROR, Branch::ListError),
        (AMPLIFIER, Branch::ListAmplifier),
        (CUT, Branch::ListCut),
    ];
}

pub fn slot(place: usize) -> usize {
    SLOTS + place * SLOT_LEN
}

fn two(bytes: &[u8], at: usize) -> u16 {
    u16::from_le_bytes([bytes[at], bytes[at + 1]])
}

fn four(bytes: &[u8], at: usize) -> u32 {
    u32::from_le_bytes([bytes[at], bytes[at + 1], bytes[at + 2], bytes[at + 3]])
}

fn signed(bytes: &[u8], at: usize) -> i64 {
    i64::from(four(bytes, at) as i32)
}

fn put(bytes: &mut [u8], at: usize, number: &[u8]) {
    bytes[at..at + number.len()].copy_from_slice(number);
}

/// Two's complement in four bytes.
fn put_signed(bytes: &mut [u8], at: usize, number: i64) {
    put(bytes, at, &i32::try_from(number).expect("within 32 bits").to_le_bytes());
}

fn station(slot: &[u8]) -> Station {
    Station {
        individual: slot[1],
        group: slot[2],
        leader: slot[3] == 1,
        low: slot[4] == 1,
        cause: slot[CAUSE],
        items: slot[6],
        baud: slot[7],
    }
}

fn put_station(slot: &mut [u8], station: &Station) {
    let (leader, low) = (u8::from(station.leader), u8::from(station.low));
    put(slot, 1, &[station.individual, station.group, leader, low, station.cause, station.items, station.baud]);
}

fn cause_holds(slot: &[u8], slip: Slip) -> bool {
    let most = match slip {
        Slip::RecordCauseUntested => u8::MAX,
        Slip::RecordCauseTo3 => 3,
        Slip::RecordCauseTo6 => 6,
        _ => 5,
    };
    slot[CAUSE] <= most
}

fn receiver(net: &[u8], slip: Slip) -> Option<Receiver> {
    let fill = net[FILL];
    if fill == 0 {
        let clear = net[..=MARK].iter().all(|byte| *byte == 0) || slip == Slip::RecordIdleUntested;
        return all_hold(&[(clear, Branch::ListIdle)]).then(Receiver::default);
    }
    let whole = 3 + (net[16] >> 4);
    all_hold(&[(fill <= whole, Branch::ListFill), (net[MARK] <= 1, Branch::ListMark)]).then(|| Receiver {
        data: net[..15].try_into().expect("fifteen bytes"),
        address: net[15],
        command: net[16],
        fill,
        marked: net[MARK] == 1,
    })
}

fn io(slot: &[u8], slip: Slip) -> Option<Box<Io>> {
    let holds = all_hold(&[
        (slot[3] <= 1, Branch::ListIoLeader),
        (slot[4] <= 1, Branch::ListIoLow),
        (cause_holds(slot, slip), Branch::ListIoCause),
        (TWELVE_BITS.iter().all(|at| two(slot, *at) < 4096), Branch::ListIoBits),
    ]);
    if !holds {
        return None;
    }
    Some(Box::new(Io {
        station: station(slot),
        latched: IoSample { inputs: two(slot, 8), ad: [slot[10], slot[11], slot[12]], counter: four(slot, 13) },
        direction: two(slot, 17),
        register: two(slot, 19),
        pwm: [slot[21], slot[22]],
        synch_bits: two(slot, 23),
        synch_pwm: [slot[25], slot[26]],
        timer_mode: slot[27],
        captured_inputs: two(slot, 28),
        captured_counter: four(slot, 30),
    }))
}

fn put_io(bytes: &mut [u8], io: &Io) {
    put_station(bytes, &io.station);
    put(bytes, 8, &io.latched.inputs.to_le_bytes());
    put(bytes, 10, &io.latched.ad);
    put(bytes, 13, &io.latched.counter.to_le_bytes());
    put(bytes, 17, &io.direction.to_le_bytes());
    put(bytes, 19, &io.register.to_le_bytes());
    put(bytes, 21, &io.pwm);
    put(bytes, 23, &io.synch_bits.to_le_bytes());
    put(bytes, 25, &io.synch_pwm);
    bytes[27] = io.timer_mode;
    put(bytes, 28, &io.captured_inputs.to_le_bytes());
    put(bytes, 30, &io.captured_counter.to_le_bytes());
}

/// 0 while it is not homing, else a byte that Set Homing takes.
fn homing_holds(byte: u8, slip: Slip) -> bool {
    let also = match slip {
        Slip::RecordHomingUntested => true,
        Slip::RecordHomingUnwatched => Homing::by(byte | 1).is_some(),
        Slip::RecordHomingOfTwoStops => byte & 0x3 != 0 && byte & 0xC8 == 0,
        _ => false,
    };
    byte == 0 || Homing::by(byte).is_some() || also
}

/// Ranges and flags of a servo's slot: what can be told field by field.
fn servo_in_range(slot: &[u8], slip: Slip) -> bool {
    let flags: [(bool, Branch); 11] = at::FLAGS.map(|(at, line)| (slot[at] <= 1, line));
    let gains = [at::KP, at::KD, at::KI, at::IL].iter().all(|at| two(slot, *at) <= 32_767);
    let loaded_force = slot[at::ACCELERATION_LOADED] == 0 || four(slot, at::ACCELERATION) >= 1;
    let within = |at: usize, most: i64| signed(slot, at).abs() <= most;
    // whatever IL is: a cut tick leaves an integral that Set Gain has put beyond it
    let integral_most = if slip == Slip::RecordIntegralToIl { two(slot, at::IL).into() } else { 32_767 };
    let rate = |at: usize| four(slot, at) <= SPEED_MOST;
    let most = i64::from(SPEED_MOST);
    let numbers = [
        (cause_holds(slot, slip), Branch::ListCause),
        (slot[at::POWER] <= 2, Branch::ListLatchedPower),
        (slot[at::INPUTS] <= LIMITS_MOST || slip == Slip::RecordLimitsUntested, Branch::ListLatchedLimits),
        (gains && two(slot, at::EL) <= 16_383, Branch::ListGains),
        (rate(at::VELOCITY), Branch::ListVelocity),
        (rate(at::ACCELERATION), Branch::ListAcceleration),
        (loaded_force, Branch::ListLoadedForce),
        (slot[at::WAY] <= 2, Branch::ListWay),
        (within(at::SPEED, most), Branch::ListSpeed),
        (within(at::GOAL_SPEED, most), Branch::ListAim),
        (rate(at::RUNNING_ACCELERATION), Branch::ListRunningAcceleration),
        (rate(at::TOP), Branch::ListTop),
        (within(at::INTEGRAL, integral_most), Branch::ListIntegral),
        (within(at::PREVIOUS_ERROR, 16_383), Branch::ListPrevious),
        (slot[at::MODE] <= 4, Branch::ListMode),
        (within(at::PWM, 255), Branch::ListPulse),
        (within(at::OUTPUT, 255), Branch::ListOutput),
        (homing_holds(slot[at::HOMING], slip), Branch::ListHoming),
    ];
    let flags_hold = all_hold(&flags);
    let numbers_hold = all_hold(&numbers);
    flags_hold && numbers_hold
}

/// What the mode asks of the other fields.
fn servo_in_order(servo: &Servo, slip: Slip) -> bool {
    let empty = servo.integral == 0 && servo.previous_error == 0;
    let at_rest = servo.speed == 0;
    let own = match servo.mode {
        Mode::Off => all_hold(&[
            (at_rest, Branch::ListOffSpeed),
            (empty, Branch::ListOffEmpty),
            (!servo.cut || slip == Slip::RecordCutOffUntested, Branch::ListOffUncut),
            (servo.output == 0 || slip == Slip::RecordOutputUntested, Branch::ListOffOutput),
        ]),
        Mode::Pwm => all_hold(&[
            (at_rest, Branch::ListPwmSpeed),
            (empty, Branch::ListPwmEmpty),
            (!servo.cut || slip == Slip::RecordCutPwmUntested, Branch::ListPwmUncut),
        ]),
        Mode::Holding => all_hold(&[(at_rest, Branch::ListHold)]),
        Mode::Velocity => true,
        Mode::Trapezoid => trapezoid_in_order(servo, slip),
    };
    let off = servo.mode == Mode::Off;
    let every = all_hold(&[
        (servo.mode == Mode::Pwm || servo.pwm == 0, Branch::ListUnpulsed),
        (off || !servo.error || slip == Slip::RecordRunningUntested, Branch::ListClear),
        (off || servo.latched.power != 0, Branch::ListAlive),
        (servo.latched.power == 1 || servo.output == 0, Branch::ListPowerless),
    ]);
    own && every
}

fn trapezoid_in_order(servo: &Servo, slip: Slip) -> bool {
    let (a, d) = (i64::from(servo.running_acceleration), servo.distance());
    let size = servo.speed.abs();
    let straight = servo.speed == 0 || d == 0 || (servo.speed < 0) == (d < 0);
    // without an acceleration there is no sum to look at
    let stops = a == 0 || stopping_sum(size - a, a, slip) <= d.abs() || slip == Slip::RecordStopUntested;
    let half_turn = is_half_turn(servo.goal, servo.setpoint) && slip != Slip::RecordHalfTurnUntested;
    all_hold(&[
        (a >= 1, Branch::ListTrapezoidForce),
        (straight, Branch::ListTrapezoidAgainst),
        (size <= i64::from(servo.top), Branch::ListTrapezoidTop),
        (stops, Branch::ListTrapezoidStop),
        (!half_turn, Branch::ListTrapezoidHalfTurn),
    ])
}

fn gains(slot: &[u8]) -> Gains {
    Gains {
        kp: two(slot, at::KP),
        kd: two(slot, at::KD),
        ki: two(slot, at::KI),
        il: two(slot, at::IL),
        ol: slot[at::OL],
        el: two(slot, at::EL),
        cl: slot[at::CL],
        sm: slot[at::SM],
    }
}

fn load(slot: &[u8]) -> Load {
    Load {
        waits: slot[at::LOAD_WAITS] == 1,
        way: [Way::Pwm, Way::Velocity, Way::Trapezoid][usize::from(slot[at::WAY])],
        position_carried: slot[at::POSITION_CARRIED] == 1,
        position: four(slot, at::LOAD_POSITION),
        pwm_carried: slot[at::PWM_CARRIED] == 1,
        pwm: slot[at::LOAD_PWM],
        reverse: slot[at::REVERSE] == 1,
    }
}

fn servo(slot: &[u8], slip: Slip) -> Option<Box<Servo>> {
    if !servo_in_range(slot, slip) {
        return None;
    }
    let flag = |at: usize| slot[at] == 1;
    let servo = Servo {
        station: station(slot),
        latched: ServoSample {
            raw: four(slot, at::RAW),
            power: slot[at::POWER],
            ad: slot[at::AD],
            inputs: slot[at::INPUTS],
        },
        offset: four(slot, at::OFFSET),
        last_position: four(slot, at::LAST_POSITION),
        gains: gains(slot),
        velocity: four(slot, at::VELOCITY),
        acceleration: four(slot, at::ACCELERATION),
        velocity_loaded: flag(at::VELOCITY_LOADED),
        acceleration_loaded: flag(at::ACCELERATION_LOADED),
        load: load(slot),
        setpoint: i64::from(four(slot, at::SETPOINT)) | i64::from(two(slot, at::SETPOINT + 4)) << 32,
        speed: signed(slot, at::SPEED),
        goal: four(slot, at::GOAL),
        goal_speed: signed(slot, at::GOAL_SPEED),
        running_acceleration: four(slot, at::RUNNING_ACCELERATION),
        top: four(slot, at::TOP),
        integral: signed(slot, at::INTEGRAL),
        previous_error: signed(slot, at::PREVIOUS_ERROR),
        mode: [Mode::Off, Mode::Pwm, Mode::Holding, Mode::Velocity, Mode::Trapezoid][usize::from(slot[at::MODE])],
        pwm: signed(slot, at::PWM),
        output: signed(slot, at::OUTPUT),
        error: flag(at::ERROR),
        amplifier: flag(at::AMPLIFIER),
        cut: flag(at::CUT),
        home: four(slot, at::HOME),
        homing: Homing::by(slot[at::HOMING]),
    };
    servo_in_order(&servo, slip).then(|| Box::new(servo))
}

fn put_servo(bytes: &mut [u8], servo: &Servo) {
    put_station(bytes, &servo.station);
    (bytes[at::POWER], bytes[at::AD]) = (servo.latched.power, servo.latched.ad);
    put(bytes, at::RAW, &servo.latched.raw.to_le_bytes());
    bytes[at::INPUTS] = servo.latched.inputs;
    put(bytes, at::OFFSET, &servo.offset.to_le_bytes());
    put(bytes, at::LAST_POSITION, &servo.last_position.to_le_bytes());
    let gains = &servo.gains;
    for (at, gain) in
        [(at::KP, gains.kp), (at::KD, gains.kd), (at::KI, gains.ki), (at::IL, gains.il), (at::EL, gains.el)]
    {
        put(bytes, at, &gain.to_le_bytes());
    }
    (bytes[at::OL], bytes[at::CL], bytes[at::SM]) = (gains.ol, gains.cl, gains.sm);
    put(bytes, at::VELOCITY, &servo.velocity.to_le_bytes());
    put(bytes, at::ACCELERATION, &servo.acceleration.to_le_bytes());
    bytes[at::VELOCITY_LOADED] = u8::from(servo.velocity_loaded);
    bytes[at::ACCELERATION_LOADED] = u8::from(servo.acceleration_loaded);
    let load = &servo.load;
    bytes[at::LOAD_WAITS] = u8::from(load.waits);
    bytes[at::WAY] = load.way as u8;
    bytes[at::POSITION_CARRIED] = u8::from(load.position_carried);
    put(bytes, at::LOAD_POSITION, &load.position.to_le_bytes());
    bytes[at::PWM_CARRIED] = u8::from(load.pwm_carried);
    bytes[at::LOAD_PWM] = load.pwm;
    bytes[at::REVERSE] = u8::from(load.reverse);
    put(bytes, at::SETPOINT, &servo.setpoint.to_le_bytes()[..6]);
    put_signed(bytes, at::SPEED, servo.speed);
    put(bytes, at::GOAL, &servo.goal.to_le_bytes());
    put_signed(bytes, at::GOAL_SPEED, servo.goal_speed);
    put(bytes, at::RUNNING_ACCELERATION, &servo.running_acceleration.to_le_bytes());
    put(bytes, at::TOP, &servo.top.to_le_bytes());
    put_signed(bytes, at::INTEGRAL, servo.integral);
    put_signed(bytes, at::PREVIOUS_ERROR, servo.previous_error);
    bytes[at::MODE] = servo.mode as u8;
    put_signed(bytes, at::PWM, servo.pwm);
    put_signed(bytes, at::OUTPUT, servo.output);
    bytes[at::ERROR] = u8::from(servo.error);
    bytes[at::AMPLIFIER] = u8::from(servo.amplifier);
    bytes[at::CUT] = u8::from(servo.cut);
    put(bytes, at::HOME, &servo.home.to_le_bytes());
    bytes[at::HOMING] = servo.homing.map_or(0, Homing::byte);
}

/// Puts a module into its slot; what its type does not use stays as it was.
pub fn put_module(slot: &mut [u8], module: &Module) {
    match module {
        Module::Servo(servo) => {
            slot[0] = Servo::TYPE;
            put_servo(slot, servo);
        }
        Module::Io(io) => {
            slot[0] = Io::TYPE;
            put_io(slot, io);
        }
        Module::Stepper(stepper) => {
            slot[0] = Stepper::TYPE;
            stepper::put_stepper(slot, stepper);
        }
    }
}

/// The module that a slot tells of, or nothing where it breaks the list.
pub fn module(slot: &[u8], slip: Slip) -> Option<Module> {
    match slot[0] {
        Servo::TYPE => servo(slot, slip).map(Module::Servo),
        Io::TYPE => io(slot, slip).map(Module::Io),
        Stepper::TYPE => stepper::stepper(slot, slip).map(Module::Stepper),
        _ => {
            reach(Branch::ListType);
            None
        }
    }
}

/// The network that a record tells of, or nothing where it breaks the list.
pub fn decode(net: &[u8], slip: Slip) -> Option<Network> {
    let length = net.len() == NET_LEN;
    let chain = !length || (1..=MOST_MODULES).contains(&usize::from(net[COUNT]));
    if !all_hold(&[(length, Branch::ListLength), (chain, Branch::ListChain)]) {
        return None;
    }
    let looked_at = if slip == Slip::RecordBeyondChainTested { MOST_MODULES } else { usize::from(net[COUNT]) };
    let mut modules = Vec::with_capacity(MOST_MODULES);
    for place in 0..looked_at {
        let bytes = &net[slot(place)..slot(place + 1)];
        if place < usize::from(net[COUNT]) {
            modules.push(module(bytes, slip)?);
        } else if bytes[..SERVO_LEN].iter().any(|byte| *byte != 0) {
            return None;
        }
    }
    Some(Network { receiver: receiver(net, slip)?, modules, slip })
}

/// Puts a network back; what its modules do not use stays as it was.
pub fn encode(network: &Network, net: &mut [u8]) {
    let receiver = &network.receiver;
    net[..15].copy_from_slice(&receiver.data);
    net[15] = receiver.address;
    net[16] = receiver.command;
    net[FILL] = receiver.fill;
    net[MARK] = u8::from(receiver.marked);
    net[COUNT] = network.modules.len() as u8;
    for (place, module) in network.modules.iter().enumerate() {
        put_module(&mut net[slot(place)..slot(place + 1)], module);
    }
}

/// What the module of a slot has latched, as a tick's list brings it again: its bytes stand there as they stand here. A
/// step-motor module keeps nothing of its sample.
pub fn latched(slot: &[u8]) -> Sample {
    let mut sample = no_sample(slot[0]);
    let measured = match slot[0] {
        Servo::TYPE => &mut sample[1..8],
        Io::TYPE => &mut sample[1..],
        _ => &mut [],
    };
    measured.copy_from_slice(&slot[LATCHED..LATCHED + measured.len()]);
    sample
}

/// A refusal by its number, and the branch that gives it.
fn refuse(branch: Branch, number: u32) -> u32 {
    reach(branch);
    number
}

/// A call that tells something of the module at a place: refused for the record, for the place, or done.
fn told_of(network: Option<&Network>, place: u32, branches: [Branch; 3], tell: impl FnOnce(&Module)) -> u32 {
    let [record, beyond, done] = branches;
    let network = match network {
        Some(network) => network,
        None => return refuse(record, BAD_RECORD),
    };
    let module = match network.modules.get(place as usize) {
        Some(module) => module,
        None => return refuse(beyond, BAD_PLACE),
    };
    reach(done);
    tell(module);
    DONE
}

/// The model behind the same calls as the library.
#[derive(Clone, Copy)]
pub struct Model {
    pub slip: Slip,
}

impl Model {
    /// What a place drives in a network that a record told of, if it passed.
    pub fn outputs_of(&self, network: Option<&Network>, place: u32, outputs: &mut [u8; 8]) -> u32 {
        let branches = [Branch::OutputsRecord, Branch::OutputsPlace, Branch::OutputsDone];
        told_of(network, place, branches, |module| *outputs = module.outputs(self.slip))
    }

    /// The last cause at a place of such a network.
    pub fn cause_of(&self, network: Option<&Network>, place: u32, cause: &mut u8) -> u32 {
        let branches = [Branch::CauseRecord, Branch::CausePlace, Branch::CauseDone];
        told_of(network, place, branches, |module| *cause = module.station().cause)
    }
}

impl Calls for Model {
    fn setup(&self, net: &mut [u8], types: &[u8]) -> u32 {
        if net.len() != NET_LEN {
            return refuse(Branch::SetupLength, BAD_RECORD);
        }
        if !(1..=MOST_MODULES).contains(&types.len()) {
            return refuse(Branch::SetupChain, BAD_CHAIN);
        }
        let modules = match types.iter().map(|module_type| Module::power_up(*module_type)).collect() {
            Some(modules) => modules,
            None => return refuse(Branch::SetupType, BAD_TYPE),
        };
        reach(Branch::SetupDone);
        net.fill(0);
        encode(&Network::power_up(modules, self.slip), net);
        DONE
    }

    fn byte(&self, net: &mut [u8], mark: u32, byte: u8, room: &mut [u8], written: &mut usize) -> u32 {
        *written = 0;
        let short = room.len() < ROOM_LEN;
        if short && self.slip == Slip::RoomBeforeRecord {
            return SHORT_ROOM;
        }
        let mut network = match decode(net, self.slip) {
            Some(network) => network,
            None => return refuse(Branch::ByteRecord, BAD_RECORD),
        };
        if mark > 1 && !(short && self.slip == Slip::RoomBeforeMark) {
            return refuse(Branch::ByteMark, BAD_FIELD);
        }
        if short {
            return refuse(Branch::ByteRoom, SHORT_ROOM);
        }
        let ended = network.byte(mark == 1, byte);
        encode(&network, net);
        let ended = match ended {
            Some(ended) => ended,
            None => {
                reach(Branch::ByteTaken);
                return DONE;
            }
        };
        let replies: Vec<u8> = ended.replies.into_iter().flat_map(|(_, reply)| reply).collect();
        room[..replies.len()].copy_from_slice(&replies);
        *written = replies.len();
        if either(ended.frame.damaged, Branch::ByteDamaged, Branch::ByteUndamaged) {
            DAMAGED
        } else {
            UNDAMAGED
        }
    }

    fn bytes(&self, net: &mut [u8], bytes: &[u8], marks: &[u8], room: &mut [u8], written: &mut usize) -> u32 {
        *written = 0;
        let buffer = Buffer { bytes, marks, room_len: room.len() };
        let network = decode(net, self.slip);
        let refusal = buffer.refusal(network.as_ref(), self.slip);
        let mut network = match network {
            Some(network) => network,
            None => return refusal.expect("a bad record is refused"),
        };
        if let Some(number) = refusal {
            if let Some(half) = buffer.taken_though_refused(number, self.slip) {
                network.buffer(&half);
                encode(&network, net);
            }
            return number;
        }
        let ended = network.buffer(&buffer);
        encode(&network, net);
        *written = model::put_replies(&ended, room, self.slip);
        model::number_given(&ended, self.slip)
    }

    fn tick(&self, net: &mut [u8], samples: &[u8]) -> u32 {
        // part of a sample is nothing that a chain asks for
        let no_list = samples.is_empty() || samples.len() % SAMPLE_LEN != 0;
        if no_list && self.slip == Slip::LengthBeforeRecord {
            return BAD_LIST;
        }
        let mut network = match decode(net, self.slip) {
            Some(network) => network,
            None => {
                if no_list {
                    reach(Branch::TickRecordBeforeList);
                }
                return refuse(Branch::TickRecord, BAD_RECORD);
            }
        };
        let outcome = network.tick(samples);
        encode(&network, net);
        match outcome {
            Ok(()) => {
                reach(Branch::TickDone);
                DONE
            }
            Err(number) => number,
        }
    }

    fn outputs(&self, net: &[u8], place: u32, outputs: &mut [u8; 8]) -> u32 {
        self.outputs_of(decode(net, self.slip).as_ref(), place, outputs)
    }

    fn cause(&self, net: &[u8], place: u32, cause: &mut u8) -> u32 {
        self.cause_of(decode(net, self.slip).as_ref(), place, cause)
    }

    fn write_frame(&self, address: u32, code: u32, data: &[u8], room: &mut [u8], written: &mut usize) -> u32 {
        *written = 0;
        let fits = all_hold(&[
            (address <= 255, Branch::WriterAddress),
            (code <= 15, Branch::WriterCode),
            (data.len() <= 15, Branch::WriterData),
        ]);
        if !fits {
            return BAD_FRAME;
        }
        if room.len() < data.len() + 4 {
            return refuse(Branch::WriterRoom, SHORT_ROOM);
        }
        reach(Branch::WriterDone);
        let bytes = model::frame_bytes(address as u8, code as u8, data);
        room[..bytes.len()].copy_from_slice(&bytes);
        *written = bytes.len();
        DONE
    }

    fn read_status(&self, module_type: u32, items: u8, reply: &[u8], reading: &mut [u8; 33]) -> u32 {
        reading.fill(0);
        match model::read_status(module_type, items, reply, self.slip) {
            Err(refusal) => refusal,
            Ok(read) => {
                reading[0] = read.status;
                for (bit, number) in read.numbers.iter().enumerate() {
                    reading[1 + 4 * bit..5 + 4 * bit].copy_from_slice(&number.to_le_bytes());
                }
                DONE
            }
        }
    }

    fn import_text(&self, text: &[u8], room: &mut [u8], written: &mut usize, offset: &mut usize) -> u32 {
        text::import_text(text, room, written, offset, self.slip)
    }

    fn export_text(&self, records: &[u8], room: &mut [u8], written: &mut usize) -> u32 {
        text::export_text(records, room, written, self.slip)
    }
}
