//! A heavy carriage, pushed by what its servo drives, runs against a block that holds it for a while and is then gone: the
//! closed loop of docs/windup.svg, tick by tick, by whichever calls. Its table is docs/windup.txt.

use crate::calls::Calls;
use crate::moving::Carriage;
use crate::record::Model;
use crate::slips::Slip;

pub const GOAL: i64 = 300;
pub const OUTPUT_LIMIT: i64 = 100;
pub const INTEGRAL_LIMIT: i64 = 12_000;
/// Where the block holds the carriage, and the tick in which it is gone.
pub const BLOCK: i64 = 150;
pub const GONE: usize = 130;
const TICKS: usize = 331;

/// What the carriage weighs, in units of the output; what such a unit adds to its speed in a tick, and how much of its
/// speed is lost in one, both in 64ths.
const WEIGHT: i64 = 20;
const PUSH: i64 = 200;
const DRAG: i64 = 8;

/// The rules of version 1.6.0, by which a cut tick kept its new integral, and those of now.
pub const BEFORE: Model = Model { slip: Slip::CutWindsUp };
pub const AFTER: Model = Model { slip: Slip::None };

/// Where the carriage is and what its servo makes of it, after a tick.
#[derive(Clone, Copy, Debug, PartialEq, Eq)]
pub struct Row {
    pub setpoint: i64,
    pub position: i64,
    pub output: i64,
    pub integral: i64,
    pub cut: bool,
}

impl Row {
    fn columns(self) -> String {
        let Row { position, output, integral, cut, .. } = self;
        format!("{position} {output} {integral} {}", u8::from(cut))
    }
}

/// In 256ths of a count, and of a count per tick.
#[derive(Default)]
struct Heavy {
    place: i64,
    speed: i64,
}

impl Heavy {
    fn is_pushed(&mut self, output: i64, blocked: bool) {
        self.speed += (PUSH * (output - WEIGHT) - DRAG * self.speed) / 64;
        self.place += self.speed;
        if blocked && self.place > BLOCK << 8 {
            *self = Heavy { place: BLOCK << 8, speed: 0 };
        }
    }
}

/// Kp 600, Kd 2,000, Ki 16.
fn gains() -> [u8; 15] {
    let words = [600, 2000, 16, INTEGRAL_LIMIT as u16].map(u16::to_le_bytes).concat();
    let [kp0, kp1, kd0, kd1, ki0, ki1, il0, il1]: [u8; 8] = words.try_into().expect("eight bytes");
    [kp0, kp1, kd0, kd1, ki0, ki1, il0, il1, OUTPUT_LIMIT as u8, 0, 0xFF, 0x3F, 1, 0, 1]
}

/// A move to the goal with velocity 4 and acceleration 1/4.
pub fn rows(calls: &dyn Calls) -> Vec<Row> {
    let mut servo = Carriage::with_gains(calls, 0, &gains());
    servo.sets_out(GOAL as u32, 4 << 16, 1 << 14);
    let mut heavy = Heavy::default();
    let tick = |number| {
        let position = heavy.place >> 8;
        servo.ticks_at(position as u32);
        let (setpoint, output, integral) = (servo.setpoint() >> 16, servo.output(), servo.integral());
        heavy.is_pushed(output, number < GONE);
        Row { setpoint, position, output, integral, cut: servo.is_cut() }
    };
    (0..TICKS).map(tick).collect()
}

/// The table: a line a tick, under one that says what stands in its columns.
pub fn table(before: &[Row], after: &[Row]) -> String {
    let columns = "position output integral cut";
    let mut table = format!("# tick setpoint, before: {columns}, after: {columns}\n");
    for (tick, (before, after)) in before.iter().zip(after).enumerate() {
        table += &format!("{tick} {} {} {}\n", before.setpoint, before.columns(), after.columns());
    }
    table
}
