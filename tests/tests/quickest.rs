//! No quicker move exists (document 02, P14), seen on the library: how many ticks a move takes, worked out, and other
//! moves over the same distance, thrown by dice, beside it tick by tick.

use doljurven_tests::dice::Dice;
use doljurven_tests::moving::Carriage;

const FASTEST: u64 = 83_886_080;
const LONGEST: i64 = 2_000;
const MOVES: usize = 400;

/// Acceleration, velocity and the distance, all in 65,536ths.
#[derive(Clone, Copy, Debug)]
struct Limits {
    a: i64,
    top: i64,
    d: i64,
}

impl Limits {
    /// The most that so many ticks cover from rest to rest: up and down by steps of a, and with ticks at top in between.
    fn reach(self, ticks: i64) -> i64 {
        let steps = self.top / self.a;
        if ticks <= 2 * steps {
            self.a * ((ticks + 1) / 2) * ((ticks + 2) / 2)
        } else {
            self.a * steps * (steps + 1) + (ticks - 2 * steps) * self.top
        }
    }

    /// In how many ticks the distance is covered, if that is soon enough to be played.
    fn ticks(self) -> Option<i64> {
        (1..=LONGEST).find(|ticks| self.d <= self.reach(*ticks))
    }

    /// What braking from a speed covers, the tick at that speed included.
    fn braking(self, speed: i64) -> i64 {
        (0..).map(|k| speed - k * self.a).take_while(|term| *term > 0).sum()
    }

    /// The speeds that any move at v with so much left can go on with: a range that ends at the greatest that can stop.
    fn next(self, v: i64, left: i64) -> (i64, i64) {
        let (low, mut high) = ((v - self.a).max(0), (v + self.a).min(self.top));
        let mut sure = low;
        while sure < high {
            let middle = high - (high - sure) / 2;
            if self.braking(middle) <= left {
                sure = middle;
            } else {
                high = middle - 1;
            }
        }
        (low, sure)
    }
}

/// A number up to the greatest rate, every size as likely as another.
fn rate(dice: &mut Dice) -> i64 {
    let bits = dice.below(27);
    (1 << bits | dice.throw() & ((1 << bits) - 1)).min(FASTEST) as i64
}

/// Limits that are played in time, with a distance of whole counts.
fn limits(dice: &mut Dice) -> Limits {
    loop {
        let counts = rate(dice) >> dice.below(20) | 1;
        let limits = Limits { a: rate(dice), top: rate(dice), d: counts << 16 };
        if limits.ticks().is_some() {
            return limits;
        }
    }
}

/// Another move over the distance: now as fast as it can be, now any speed that it can have.
struct Other {
    speed: i64,
    covered: i64,
}

impl Other {
    fn moves_on(&mut self, limits: Limits, dice: &mut Dice) {
        let (low, high) = limits.next(self.speed, limits.d - self.covered);
        self.speed = if dice.percent(70) { high } else { low + dice.below((high - low + 1) as usize) as i64 };
        self.covered += self.speed;
    }
}

/// The move forth or back from a place of which the counts may wrap; it is there and at rest when it is said to be.
fn plays(limits: Limits, dice: &mut Dice) -> usize {
    let (from, forth) = (dice.pick(&[0, 5, u32::MAX, 1 << 31, 0x1234_5678]), dice.percent(50));
    let counts = (limits.d >> 16) as u32;
    let goal = if forth { from.wrapping_add(counts) } else { from.wrapping_sub(counts) };
    let mut carriage = Carriage::at(from);
    carriage.sets_out(goal, limits.top as u32, limits.a as u32);
    let mut other = Other { speed: 0, covered: 0 };
    let mut behind = 0;
    let last = limits.ticks().unwrap();
    for tick in 1..=last {
        carriage.moves_on();
        let gone = (carriage.setpoint() - (i64::from(from) << 16)) * if forth { 1 } else { -1 };
        let covered = gone.rem_euclid(1 << 48);
        assert_eq!(covered == limits.d, tick == last, "{limits:?}, tick {tick}: {covered}");
        other.moves_on(limits, dice);
        assert!(other.covered <= covered, "{limits:?}, tick {tick}: {covered}, another {}", other.covered);
        behind += usize::from(other.covered < covered);
        assert_eq!(carriage.is_done(), false, "{limits:?}, tick {tick}");
    }
    carriage.moves_on();
    assert_eq!((carriage.speed(), carriage.setpoint()), (0, i64::from(goal) << 16), "{limits:?}");
    assert!(carriage.is_done(), "{limits:?}");
    behind
}

#[test]
fn no_move_is_ahead_and_each_takes_as_long_as_it_must() {
    let mut dice = Dice::new(14);
    let (mut long, mut short, mut steep, mut behind) = (0, 0, 0, 0);
    for _ in 0..MOVES {
        let limits = limits(&mut dice);
        if limits.top < limits.a {
            steep += 1;
        } else if limits.ticks().unwrap() > 2 * (limits.top / limits.a) {
            long += 1;
        } else {
            short += 1;
        }
        behind += plays(limits, &mut dice);
    }
    assert!(long > 20 && short > 20 && steep > 20 && behind > MOVES, "{long}, {short}, {steep}, {behind}");
}
