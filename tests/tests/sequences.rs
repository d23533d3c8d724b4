//! Whole sequences that are accepted: the final map against direct sums and levels in turn, and against runs and levels one
//! call after the other; drawn sequences, noise, the growth of a chart, the largest maps and the most channels. That work
//! maps, output and scratch end all zero, and that nothing else changes, is held with each of them.

use wemsteky_tests::engine::{self, Engine};
use wemsteky_tests::layer::{Layer, CONV, TCONV};
use wemsteky_tests::random::{seed, Random};
use wemsteky_tests::rules::Offender;
use wemsteky_tests::sequence::{Lengths, Sequence, Stage, Step, MOST};
use wemsteky_tests::sequence_draw::{self as draw, count_in_turn, least_lengths, Size, SMALL};
use wemsteky_tests::{checked, noise};

/// Makes a call that must be accepted, with buffers of any contents. Returns what each step makes.
fn accepted(random: &mut Random, call: &Sequence) -> Vec<Stage> {
    let mut buffers = draw::buffers(random, call);
    let (answer, stages) = checked::sequence(random, call, &mut buffers);
    assert_eq!(answer, (0, Offender::default()), "{:?}", call.steps());
    stages
}

/// What the drawn sequences have in them, so that none of it is left out.
#[derive(Debug, Default)]
struct Seen {
    steps: usize,
    changed_kind: usize,
    changed_field: usize,
    strided: usize,
    padded: usize,
    cropped: usize,
    enlarged: usize,
    of_channels: usize,
    maps_not_zero: usize,
    clamped: usize,
    rounded: usize,
    greatest_first: usize,
    greatest_between: usize,
    greatest_last: usize,
}

impl Seen {
    fn add(&mut self, call: &Sequence, stages: &[Stage]) {
        for (step, stage) in call.steps().iter().zip(stages) {
            self.add_step(step, stage);
        }
        for pair in call.steps().windows(2) {
            self.changed_kind += usize::from(pair[0].layer.kind != pair[1].layer.kind);
            self.changed_field += usize::from(pair[0].layer.field != pair[1].layer.field);
        }
        let lengths: Vec<u128> = call.steps().iter().map(|step| step.layer.output_length()).collect();
        let greatest = lengths.iter().position(|&length| length == call.greatest_output()).unwrap();
        match greatest {
            0 => self.greatest_first += 1,
            place if place + 1 == call.count => self.greatest_last += 1,
            _ => self.greatest_between += 1,
        }
    }

    fn add_step(&mut self, step: &Step, stage: &Stage) {
        let layer = &step.layer;
        let beyond = |sum: &i64| sum.unsigned_abs() >> step.shift > step.bound as u64;
        let not_whole = |sum: &i64| sum.trailing_zeros() < step.shift as u32;
        self.steps += 1;
        self.strided += usize::from(layer.stride > 1);
        self.padded += usize::from(layer.padding > 0);
        self.cropped += usize::from(layer.uncropped() != *layer);
        self.enlarged += usize::from(layer.below + layer.beside > 0);
        self.of_channels += usize::from(layer.inputs > 1 && layer.outputs > 1);
        self.maps_not_zero += usize::from(stage.map.iter().any(|&value| value != 0));
        self.clamped += usize::from(stage.sums.iter().any(beyond));
        self.rounded += usize::from(stage.sums.iter().any(not_whole));
    }

    /// At least one step in ten has each of these, and nearly every map a value that is not 0.
    fn hold(&self) {
        for seen in [
            self.changed_kind,
            self.changed_field,
            self.strided,
            self.padded,
            self.cropped,
            self.enlarged,
            self.of_channels,
            self.clamped,
            self.rounded,
        ] {
            assert!(10 * seen > self.steps, "{self:?}, seed {}", seed());
        }
        assert!(10 * self.maps_not_zero > 9 * self.steps, "{self:?}, seed {}", seed());
        for seen in [self.greatest_first, self.greatest_between, self.greatest_last] {
            assert!(40 * seen > self.steps, "{self:?}, seed {}", seed());
        }
    }
}

/// Every count in turn, small maps of a few channels.
#[test]
fn drawn_sequences() {
    let mut seen = Seen::default();
    for trial in 0..4_000 {
        let mut random = Random::new("sequences, drawn", trial);
        let call = draw::sequence(&mut random, count_in_turn(trial), SMALL);
        let stages = accepted(&mut random, &call);
        seen.add(&call, &stages);
    }
    seen.hold();
}

/// Maps of several tiles in a row and in a column.
#[test]
fn drawn_sequences_of_several_tiles() {
    let (mut seen, mut several) = (Seen::default(), 0);
    for trial in 0..240 {
        let mut random = Random::new("sequences, several tiles", trial);
        let call = draw::sequence(&mut random, count_in_turn(trial), Size { channels: 2, longest: 90 });
        let stages = accepted(&mut random, &call);
        several += call.steps().iter().filter(|step| Engine::Tiles.total(&step.layer) > 2).count();
        seen.add(&call, &stages);
    }
    assert!(4 * several > seen.steps, "{several} steps of several tiles of {seen:?}, seed {}", seed());
}

/// First maps of noise, whose peak is 128 at least.
#[test]
fn over_noise() {
    for trial in 0..400 {
        let mut random = Random::new("sequences, noise", trial);
        let (height, width, sealed) = (random.between(1, 14), random.between(1, 14), random.word() as u32);
        let (inputs, peak) = (random.between(1, 3), random.pick(&[128, 128, 200, 32_767]));
        let given = Layer { inputs, height, width, peak, ..Layer::default() };
        let mut map = vec![0; given.map_length() as usize];
        let mut known = map.clone();
        assert_eq!(engine::noise(sealed, &mut map), noise::fill(sealed, &mut known));
        assert_eq!(map, known);
        let call = draw::sequence_over(&mut random, count_in_turn(trial), SMALL, given, map);
        accepted(&mut random, &call);
    }
}

/// The final map by a run and a call of levels for each step, each with buffers of its own.
fn by_runs_and_levels(call: &Sequence) -> Vec<i16> {
    let mut map = call.map.clone();
    for (place, step) in call.steps().iter().enumerate() {
        let length = step.layer.output_length() as usize;
        let (mut output, mut levels, mut scratch) = (vec![0; length], vec![0; length], vec![0; 12_288]);
        let kernel = &call.kernels[call.part(place)];
        let run = Engine::Tiles.run(&step.layer.numbers(), &map, kernel, &mut output, &mut scratch);
        assert_eq!((run.number, run.done), (0, 1), "run {place} of {:?}", call.steps());
        assert_eq!(engine::levels(step.shift, step.bound, &output, &mut levels), 0);
        map = levels;
    }
    map
}

/// A sequence of one step is a run and its levels; one of several is as many of both.
#[test]
fn as_runs_and_levels_one_after_the_other() {
    for trial in 0..400 {
        let mut random = Random::new("sequences, runs and levels", trial);
        let call = draw::sequence(&mut random, count_in_turn(trial), SMALL);
        let stages = accepted(&mut random, &call);
        assert_eq!(by_runs_and_levels(&call), stages.last().unwrap().map, "{:?}", call.steps());
    }
}

/// A sequence cut in two at any step: the second over the final map of the first.
#[test]
fn as_two_sequences_one_after_the_other() {
    for trial in 0..160 {
        let mut random = Random::new("sequences, two", trial);
        let call = draw::sequence(&mut random, 2 + trial % (MOST - 1), SMALL);
        let cut = random.between(1, call.count - 1);
        let (before, after) = call.kernels.split_at(call.part(cut).start);
        let mut first = Sequence { count: cut, kernels: before.to_vec(), ..call.clone() };
        first.lengths = least_lengths(&first);
        let middle = accepted(&mut random, &first).pop().unwrap().map;
        let mut second = Sequence { count: call.count - cut, map: middle, kernels: after.to_vec(), ..call.clone() };
        second.rows.rotate_left(cut);
        second.lengths = least_lengths(&second);
        let last = accepted(&mut random, &second).pop().unwrap().map;
        assert_eq!(last, accepted(&mut random, &call).pop().unwrap().map, "{cut} of {:?}", call.steps());
    }
}

/// Noise of 8 by 8 grown four times, each time to twice its rows and columns: after every count of steps.
#[test]
fn growth_of_a_chart() {
    let mut random = Random::new("sequences, growth", 0);
    let mut map = vec![0; 64];
    engine::noise(20_261_118, &mut map);
    let row = [1, 3, 3, 1];
    let kernel: Vec<i16> = row.iter().flat_map(|down| row.map(|across| down * across)).collect();
    let mut call = Sequence { map, ..Sequence::default() };
    let (mut length, mut peak) = (8, 128);
    for count in 1..=4 {
        let layer = Layer::of([TCONV, 4, 1, 1, length, length, 4, 2, 1, peak, 0, 0, 2 * length, 2 * length]);
        call.rows[count - 1] = Step { layer, shift: 4, bound: 127 };
        (call.count, length, peak) = (count, 2 * length, 127);
        call.kernels.extend(&kernel);
        call.lengths = least_lengths(&call);
        let stages = accepted(&mut random, &call);
        let lengths: Vec<usize> = stages.iter().map(|stage| stage.map.len()).collect();
        assert_eq!(lengths, [256, 1_024, 4_096, 16_384][..count]);
        assert_eq!(by_runs_and_levels(&call), stages.last().unwrap().map);
        assert!(stages.iter().all(|stage| stage.map.iter().filter(|&&value| value != 0).count() > stage.map.len() / 2));
    }
}

/// Sums at the limits of both fields, −32,768 and 2,147,483,646 in size, with levels of every map that are known: clamped at
/// the greatest bound, and divided by the greatest shift.
#[test]
fn sums_and_levels_at_their_ends() {
    let mut random = Random::new("sequences, ends", 0);
    let step = |field, peak, shift, bound| Step {
        layer: Layer::of([CONV, field, 1, 1, 1, 1, 1, 1, 0, peak, 0, 0, 1, 1]),
        shift,
        bound,
    };
    let wide = Layer::of([CONV, 5, 3, 1, 1, 1, 1, 1, 0, 32_767, 0, 0, 1, 1]);
    for (steps, map, kernels, known) in [
        (vec![step(4, 16_384, 0, 32_767)], vec![16_384], vec![-2], vec![-32_767]),
        (
            vec![step(4, 16_384, 0, 32_767), step(4, 32_767, 0, 32_766)],
            vec![16_384],
            vec![-2, -1],
            vec![-32_767, 32_766],
        ),
        (vec![step(4, 1, 15, 1), step(5, 1, 31, 1)], vec![1], vec![-32_768, 32_767], vec![-1, 0]),
        (
            vec![Step { layer: wide, shift: 31, bound: 5 }, step(4, 5, 0, 5)],
            vec![32_767; 3],
            vec![32_767, 32_767, 4, -1],
            vec![1, -1],
        ),
        (
            vec![Step { layer: wide, shift: 0, bound: 32_767 }, step(5, 32_767, 16, 32_767)],
            vec![-32_767; 3],
            vec![32_767, 32_767, 4, 32_767],
            vec![-32_767, -16_383],
        ),
    ] {
        let call = Sequence { map, kernels, ..draw::sequence_of(&mut random, &steps) };
        let maps: Vec<i16> = accepted(&mut random, &call).into_iter().flat_map(|stage| stage.map).collect();
        assert_eq!(maps, known, "{steps:?}");
    }
}

/// Rows from the count on are not read, whatever stands in them: zeros, the greatest numbers, the first step or the last.
#[test]
fn rows_after_the_count() {
    for trial in 0..70 {
        let mut random = Random::new("sequences, rows after the count", trial);
        let mut call = draw::sequence(&mut random, 1 + trial % (MOST - 1), SMALL);
        for row in [Step::filled(0), Step::filled(usize::MAX), call.rows[0], *call.last()] {
            call.rows[call.count..].fill(row);
            accepted(&mut random, &call);
        }
    }
}

/// The most steps of the least layers: one value, one weight, which is 1 or −1.
#[test]
fn least_layers() {
    let mut random = Random::new("sequences, least", 0);
    for count in 1..=MOST {
        let step = |place| Step {
            layer: Layer::of([place % 2, 4 + place / 2 % 2, 1, 1, 1, 1, 1, 1, 0, 1, 0, 0, 1, 1]),
            shift: 0,
            bound: 1,
        };
        let steps: Vec<Step> = (0..count).map(step).collect();
        let kernels: Vec<i16> = (0..count).map(|_| random.pick(&[1, -1])).collect();
        let call = Sequence { map: vec![1], kernels: kernels.clone(), ..draw::sequence_of(&mut random, &steps) };
        let last = accepted(&mut random, &call).pop().unwrap().map;
        assert_eq!(last, [kernels.iter().product::<i16>()]);
    }
}

/// Weights from −5 to 5 in turn, so many that no channel is blank.
fn weights_in_turn(call: &Sequence) -> Vec<i16> {
    (0..call.kernels.len()).map(|place| (7 * place % 11) as i16 - 5).collect()
}

/// One channel to 64, these to 64 others, and 64 to one; with both fields and kinds.
#[test]
fn the_most_channels() {
    let mut random = Random::new("sequences, 64 channels", 0);
    let steps = [
        Step { layer: Layer::of([CONV, 4, 1, 64, 12, 12, 3, 1, 1, 100, 0, 0, 12, 12]), shift: 4, bound: 127 },
        Step { layer: Layer::of([TCONV, 5, 64, 64, 12, 12, 2, 2, 0, 127, 0, 0, 24, 24]), shift: 6, bound: 15 },
        Step { layer: Layer::of([CONV, 4, 64, 1, 24, 24, 3, 1, 1, 15, 0, 0, 24, 24]), shift: 3, bound: 255 },
    ];
    let mut call = draw::sequence_of(&mut random, &steps);
    call.kernels = weights_in_turn(&call);
    let stages = accepted(&mut random, &call);
    assert!(stages.iter().all(|stage| stage.map.iter().any(|&value| value != 0)));
}

/// 128 by 128 to 512 by 512 with a row and a column added, over that to two channels, back to one, and to every fourth
/// value: the greatest layer stands between.
#[test]
fn the_largest_maps() {
    let mut random = Random::new("sequences, 512 by 512", 0);
    let first = Layer::of([TCONV, 4, 1, 1, 128, 128, 5, 4, 1, 128, 0, 0, 512, 512]);
    let steps = [
        Step { layer: Layer { below: 1, beside: 1, ..first }, shift: 2, bound: 127 },
        Step { layer: Layer::of([CONV, 5, 1, 2, 512, 512, 3, 1, 1, 127, 0, 0, 512, 512]), shift: 2, bound: 300 },
        Step { layer: Layer::of([TCONV, 4, 2, 1, 512, 512, 2, 1, 1, 300, 0, 0, 511, 511]), shift: 5, bound: 127 },
        Step { layer: Layer::of([CONV, 4, 1, 3, 511, 511, 2, 4, 1, 127, 0, 0, 128, 128]), shift: 2, bound: 127 },
    ];
    let mut call = draw::sequence_of(&mut random, &steps);
    call.kernels = weights_in_turn(&call);
    engine::noise(1, &mut call.map);
    let (greatest, scratch, final_map) = (2 * 512 * 512, 12_288, 3 * 128 * 128);
    let known = Lengths { first_work: greatest, second_work: greatest, output: greatest, scratch, final_map };
    assert_eq!(call.lengths, known);
    let stages = accepted(&mut random, &call);
    assert!(stages.iter().all(|stage| stage.map.iter().filter(|&&value| value != 0).count() > stage.map.len() / 2));
}
