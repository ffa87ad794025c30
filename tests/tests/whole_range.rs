//! Moves with rates at the ends of their range, across half of all counts and through their wrap: every tick's speed and
//! setpoint against what the paper's words come to for that move.

use doljurven_tests::moving::Carriage;

const FASTEST: u32 = 83_886_080;

/// A move by so many counts has these speeds, one a tick, and with the last of them stands at its goal.
fn moves(from: u32, counts: i64, velocity: u32, acceleration: u32, speeds: impl Iterator<Item = i64>) {
    let mut carriage = Carriage::at(from);
    let goal = from.wrapping_add(counts as u32);
    carriage.sets_out(goal, velocity, acceleration);
    let mut setpoint = i64::from(from) << 16;
    for (tick, speed) in speeds.enumerate() {
        let speed = speed * counts.signum();
        carriage.moves_on();
        setpoint = (setpoint + speed).rem_euclid(1 << 48);
        assert_eq!((carriage.speed(), carriage.setpoint()), (speed, setpoint), "tick {tick}");
    }
    assert_eq!((carriage.speed(), carriage.setpoint()), (0, i64::from(goal) << 16));
}

/// With as much acceleration as speed a sum has one term, so each tick takes all that is left, up to the top speed.
fn as_fast_as_can_be(counts: i64) -> impl Iterator<Item = i64> {
    let most = i64::from(FASTEST);
    let whole = counts.abs() << 16;
    (0..=whole / most + 1).map(move |tick| (whole - tick * most).clamp(0, most))
}

#[test]
fn the_steepest_ramps_across_half_of_all_counts() {
    let half = (1 << 31) - 1;
    moves(0xC000_0000, half, FASTEST, FASTEST, as_fast_as_can_be(half));
    moves(0x4000_0000, -half, FASTEST, FASTEST, as_fast_as_can_be(half));
}

/// 1 + 2 + ... + n + ... + 2 + 1 is n squared: with acceleration 1 such a move climbs to n and goes down again.
fn up_and_down(n: i64) -> impl Iterator<Item = i64> {
    (1..=n).chain((0..n).rev())
}

#[test]
fn the_longest_ramps_through_the_wrap_of_counts() {
    let n = 1 << 18;
    let counts = n * n >> 16;
    moves(0xFFF8_0000, counts, FASTEST, 1, up_and_down(n));
    moves(0x8008_0000, -counts, FASTEST, 1, up_and_down(n));
}
