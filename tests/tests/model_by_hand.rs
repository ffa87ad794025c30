//! The model by itself: the servo's shorter sums against the paper's words, the bench sheet, the bytes of Set Homing, and a
//! step-motor module's ramp.

use doljurven_tests::model::{
    distance, greatest_speed, stopping_sum, Device, HomeStop, Homing, Servo, Stepper, SPEED_MOST,
};
use doljurven_tests::slips::Slip;

/// w + (w - a) + (w - 2a) + ..., positive terms, one after another.
fn sum_in_words(w: i64, a: i64) -> i64 {
    let mut term = w;
    let mut sum = 0;
    while term > 0 {
        sum += term;
        term -= a;
    }
    sum
}

#[test]
fn stopping_sum_is_the_sum_of_its_terms() {
    for a in 1..=40 {
        for w in -3..=200 {
            assert_eq!(stopping_sum(w, a, Slip::None), sum_in_words(w, a), "w {w}, a {a}");
        }
    }
    let most = i64::from(SPEED_MOST);
    assert_eq!(stopping_sum(most, 1, Slip::None), most * (most + 1) / 2);
    assert_eq!(stopping_sum(most, most, Slip::None), most);
    assert_eq!(stopping_sum(most, most - 1, Slip::None), most + 1);
}

#[test]
fn greatest_speed_is_the_greatest() {
    for a in 1..=5 {
        for top in 0..=11 {
            for v in 0..=top {
                for d in sum_in_words(v - a, a)..=40 {
                    let speeds = (v - a).max(0)..=(v + a).min(top);
                    let greatest = speeds.filter(|w| sum_in_words(*w, a) <= d).max();
                    assert_eq!(
                        Some(greatest_speed(v, a, top, d, Slip::None)),
                        greatest,
                        "v {v}, a {a}, top {top}, d {d}"
                    );
                }
            }
        }
    }
}

/// Speeds from rest until at rest again.
fn walk(a: i64, top: i64, mut d: i64) -> Vec<i64> {
    let mut speeds = Vec::new();
    let mut v = 0;
    while d > 0 || v > 0 {
        v = greatest_speed(v, a, top, d, Slip::None);
        d -= v;
        speeds.push(v);
    }
    assert_eq!(d, 0);
    speeds
}

#[test]
fn bench_sheet_trapezoids() {
    assert_eq!(walk(2, 5, 12), [2, 4, 4, 2, 0]);
    assert_eq!(walk(2, 5, 11), [2, 4, 3, 2, 0]);
}

#[test]
fn every_short_move_ends_at_its_goal() {
    for a in 1..=6 {
        for top in 1..=9 {
            for d in 1..=120 {
                let speeds = walk(a, top, d);
                assert!(speeds.iter().all(|speed| (0..=top).contains(speed)));
                assert!(speeds.windows(2).all(|pair| (pair[0] - pair[1]).abs() <= a));
                assert_eq!(speeds.last(), Some(&0));
            }
        }
    }
}

#[test]
fn distance_goes_the_shorter_way_less_the_fraction() {
    assert_eq!(distance(5, 2 << 16), 3 << 16);
    assert_eq!(distance(2, 5 << 16), -(3 << 16));
    assert_eq!(distance(5, (4 << 16) + 1), 65_535);
    assert_eq!(distance(5, (5 << 16) + 1), -1, "back by the fraction");
    assert_eq!(distance(1, 0xFFFF_FFFF << 16), 2 << 16, "over the end");
    assert_eq!(distance(0xFFFF_FFFF, 1 << 16), -(2 << 16));
    assert_eq!(distance(0x7FFF_FFFF, 0), 0x7FFF_FFFF << 16);
    assert_eq!(distance(0x8000_0001, 0), -(0x7FFF_FFFF << 16));
}

#[test]
fn load_counts() {
    assert_eq!(Servo::load_count(0x97), 13, "bench sheet");
    for (control, count) in [(0x00, 1), (0xF0, 1), (0x01, 5), (0x06, 9), (0x08, 2), (0x0F, 14), (0x8E, 10), (0xF2, 5)] {
        assert_eq!(Servo::load_count(control), count, "control {control:02X}");
        assert_eq!(Servo::count(4, &[control]), count);
    }
}

#[test]
fn stepper_load_counts() {
    let counts = [(0x00, 1), (0xF0, 1), (0x01, 5), (0x02, 2), (0x04, 2), (0x06, 3), (0x08, 4), (0x87, 7), (0x9F, 10)];
    for (control, count) in counts {
        assert_eq!(Stepper::load_count(control), count, "control {control:02X}");
        assert_eq!(Stepper::count(4, &[control]), count);
    }
}

#[test]
fn homing_bytes() {
    let stops =
        [(0x00, None), (0x04, Some(HomeStop::Off)), (0x10, Some(HomeStop::Abrupt)), (0x20, Some(HomeStop::Smooth))];
    let mut good = Vec::new();
    for (limit1, limit2) in [(true, false), (false, true), (true, true)] {
        for (bit, stop) in stops {
            let byte = bit | u8::from(limit1) | u8::from(limit2) << 1;
            assert_eq!(Homing::by(byte), Some(Homing { limit1, limit2, stop }), "byte {byte:02X}");
            good.push(byte);
        }
    }
    for byte in 0..=255 {
        assert_eq!(Homing::by(byte).map(Homing::byte), good.contains(&byte).then(|| byte), "byte {byte:02X}");
    }
    assert_eq!(good.len(), 12);
}

/// The speeds of so many ticks after what a frame brings about.
fn speeds(stepper: &mut Stepper, code: u8, data: &[u8], ticks: usize) -> Vec<i32> {
    assert_eq!(stepper.command(code, data, Slip::None), Ok(()));
    let tick = |_| {
        stepper.tick(false, Slip::None);
        stepper.speed()
    };
    (0..ticks).map(tick).collect()
}

#[test]
fn stepper_changes_its_speed_each_t_th_tick() {
    let mut stepper = Stepper::power_up();
    assert_eq!(speeds(&mut stepper, 6, &[0, 5, 0, 0, 0], 1), [0]);
    assert_eq!(speeds(&mut stepper, 4, &[0x86, 8, 3], 10), [5, 5, 6, 6, 6, 7, 7, 7, 8, 8]);
    assert_eq!(speeds(&mut stepper, 4, &[0x86, 6, 1], 3), [7, 6, 6]);
    assert_eq!(speeds(&mut stepper, 4, &[0x86, 6, 2], 1), [6]);
    assert_eq!(speeds(&mut stepper, 7, &[8], 5), [6, 5, 5, 0, 0]);
    assert_eq!(speeds(&mut stepper, 4, &[0x96, 6, 1], 2), [-6, -6]);
    stepper.tick(true, Slip::None);
    assert_eq!(stepper.speed(), 0);
    // 52 + 13 + 6 + 6 + 5 + 5 + ... forward, 12 back
    assert_eq!(stepper.position, 65 + 19 + 6 + 16 - 12);
}
