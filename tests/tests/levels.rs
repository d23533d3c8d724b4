//! Levels for the screen against a search for the nearest whole number: every shift, bounds at both ends, every half
//! that is not clamped, both ends of the outputs, every short length, and refused calls.

use wemsteky_tests::call::Buffer;
use wemsteky_tests::engine;
use wemsteky_tests::levels::{level, number, SHIFTS};
use wemsteky_tests::random::Random;

/// Bounds at both ends, and one between.
const SOME_BOUNDS: [usize; 5] = [1, 2, 127, 32_766, 32_767];

/// Makes a call whose buffer for levels has `room` places, and holds everything that it returns and leaves.
fn hold(shift: usize, bound: usize, outputs: &[i32], room: usize) {
    let mut levels = Buffer::of(room, || -12_345i16);
    let mut expected = levels.clone();
    let given = outputs.to_vec();
    let answer = engine::levels(shift, bound, outputs, levels.lend(room));
    assert_eq!(answer, number(shift, bound, outputs.len(), room), "shift {shift}, bound {bound}, room {room}");
    if answer == 0 {
        let places = expected.lend(room).iter_mut();
        places.zip(outputs).for_each(|(place, &output)| *place = level(shift, bound, output));
    }
    if let Some((place, found, expected)) = levels.difference(&expected) {
        let output = usize::try_from(place).ok().and_then(|place| outputs.get(place));
        panic!("level {place} is {found}, not {expected}: shift {shift}, bound {bound}, output {output:?}");
    }
    assert_eq!(outputs, given, "outputs changed");
}

/// A value and its neighbours that are outputs.
fn around(value: i64) -> impl Iterator<Item = i32> {
    (value - 1..=value + 1).filter_map(|near| i32::try_from(near).ok())
}

#[test]
fn every_half_of_every_shift() {
    for shift in SHIFTS {
        // q + 1/2 times 2^shift, and beside it with shift 0; beyond 32,769 all are clamped.
        let halves = (-32_769i64..=32_769).map(|q| ((2 * q + 1) << shift) / 2);
        let outputs: Vec<i32> = halves.flat_map(around).collect();
        for bound in SOME_BOUNDS {
            hold(shift, bound, &outputs, outputs.len());
        }
    }
}

#[test]
fn outputs_at_the_clamp_and_at_the_ends() {
    for shift in SHIFTS {
        for bound in SOME_BOUNDS {
            let edges = [0, bound as i64, bound as i64 + 1].map(|q| q << shift);
            let ends = [i64::from(i32::MIN), i64::from(i32::MAX)];
            let signed = edges.iter().flat_map(|&edge| [-edge, edge]).chain(ends);
            let outputs: Vec<i32> = signed.flat_map(around).collect();
            hold(shift, bound, &outputs, outputs.len());
        }
    }
}

#[test]
fn drawn_outputs_of_every_short_length() {
    for trial in 0..2_000 {
        let mut random = Random::new("levels, drawn outputs", trial);
        let shift = trial % 32;
        let bound = if random.once_in(2) { random.pick(&SOME_BOUNDS) } else { random.between(1, 32_767) };
        let mut draw = || (random.word() as i32) >> random.below(32);
        let outputs: Vec<i32> = std::iter::repeat_with(&mut draw).take(trial % 70).collect();
        hold(shift, bound, &outputs, outputs.len());
    }
}

#[test]
fn refused_calls_leave_the_levels_as_lent() {
    let shifts = [0, 31, 32, 33, 63, 64, 1 << 32, 1 << 63, usize::MAX];
    let bounds = [0, 1, 32_767, 32_768, 65_536 + 1, (1 << 32) + 1, usize::MAX];
    let outputs = [-3, 3, i32::MIN, i32::MAX, 0, 1, 2, -1, 7];
    let mut refused = 0;
    for shift in shifts {
        for bound in bounds {
            for (count, room) in [(9, 9), (9, 8), (9, 10), (9, 0), (0, 0), (0, 1), (1, 9)] {
                hold(shift, bound, &outputs[..count], room);
                refused += number(shift, bound, count, room) / 20;
            }
        }
    }
    assert_eq!(refused, shifts.len() * bounds.len() * 7 - 2 * 2 * 2);
}
