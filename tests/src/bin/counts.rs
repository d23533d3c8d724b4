//! Instructions of `levels`, `noise`, `join`, `worst_map`, of a job call of no part, of previews and of sequences, as valgrind counts them: those of a
//! program that makes two calls less those of one that makes one, and so many for each value or pair of weights. Nothing is asserted of a count.

use wemsteky_tests::engine::{Engine, Lent};
use wemsteky_tests::random::Random;
use wemsteky_tests::{count, engine};

/// Outputs and map values.
const VALUES: usize = 1_000_000;

/// The channels of a joined filter, in each place.
const CHANNELS: usize = 16;

/// The rows and columns of a map and an output of 64 channels each.
const LARGE: usize = 128;

/// A function with a figure: the shift of levels, the sides of two filters, the place of a map value beyond the peak, the
/// side of a kernel, or the engine, the index and the budget of a preview. A job call of no part stands beside the previews,
/// and a preview that is refused with 17, after all other checks; so is a sequence that is refused with 15 beside a whole one.
#[derive(Clone, Copy)]
enum Counted {
    Levels { shift: usize },
    Noise,
    Join { first: usize, second: usize },
    Job { beyond: Option<usize> },
    WorstMap { side: usize },
    NoPart { engine: Engine },
    Preview { engine: Engine, next: usize, budget: usize },
    Sequence { refused: bool },
}

const COUNTED: [Counted; 22] = [
    Counted::Levels { shift: 0 },
    Counted::Levels { shift: 8 },
    Counted::Levels { shift: 31 },
    Counted::Noise,
    Counted::Join { first: 5, second: 5 },
    Counted::Join { first: 11, second: 1 },
    Counted::Join { first: 6, second: 6 },
    Counted::Job { beyond: None },
    Counted::Job { beyond: Some(0) },
    Counted::Job { beyond: Some(VALUES - 1) },
    Counted::WorstMap { side: 1 },
    Counted::WorstMap { side: 11 },
    Counted::NoPart { engine: Engine::Tiles },
    Counted::Preview { engine: Engine::Tiles, next: 0, budget: 0 },
    Counted::Preview { engine: Engine::Tiles, next: 0, budget: usize::MAX },
    Counted::Preview { engine: Engine::Tiles, next: usize::MAX, budget: 0 },
    Counted::NoPart { engine: Engine::Strips },
    Counted::Preview { engine: Engine::Strips, next: 0, budget: 0 },
    Counted::Preview { engine: Engine::Strips, next: 0, budget: usize::MAX },
    Counted::Preview { engine: Engine::Strips, next: usize::MAX, budget: 0 },
    Counted::Sequence { refused: false },
    Counted::Sequence { refused: true },
];

impl Counted {
    fn name(self) -> String {
        match self {
            Self::Levels { shift } => format!("levels, shift {shift}"),
            Self::Noise => "noise".to_string(),
            Self::Join { first, second } => format!("join, sides {first} and {second}"),
            Self::Job { beyond: None } => "job of no tile, no map value beyond the peak".to_string(),
            Self::Job { beyond: Some(place) } => format!("job of no tile, map value {place} beyond the peak"),
            Self::WorstMap { side } => format!("worst map, side {side}"),
            Self::NoPart { engine } => format!("job of no part, 64 channels, {engine:?}"),
            Self::Preview { engine, next: 0, budget: 0 } => format!("preview of no part, 64 channels, {engine:?}"),
            Self::Preview { engine, next: 0, .. } => format!("preview of all parts, 64 channels, {engine:?}"),
            Self::Preview { engine, .. } => format!("preview that is refused with 17, 64 channels, {engine:?}"),
            Self::Sequence { refused: false } => "sequence of four layers from 8 by 8 to 128 by 128".to_string(),
            Self::Sequence { refused: true } => "the same sequence, refused with 15".to_string(),
        }
    }

    /// Values, or pairs of weights that meet, each of which is multiplied twice.
    fn items(self) -> usize {
        match self {
            Self::Levels { .. } | Self::Noise | Self::Job { .. } | Self::WorstMap { .. } => VALUES,
            Self::NoPart { .. } | Self::Preview { .. } => 64 * LARGE * LARGE,
            Self::Sequence { .. } => 16 * 16 + 32 * 32 + 64 * 64 + 128 * 128,
            Self::Join { first, second } => CHANNELS * CHANNELS * CHANNELS * (first * first) * (second * second),
        }
    }

    fn call(self, calls: usize) {
        match self {
            Self::Levels { shift } => levels(shift, calls),
            Self::Noise => noise(calls),
            Self::Join { first, second } => join(first, second, calls),
            Self::Job { beyond } => job(beyond, calls),
            Self::WorstMap { side } => worst_map(side, calls),
            Self::NoPart { engine } => no_part(engine, calls),
            Self::Preview { engine, next, budget } => preview(engine, (next, budget), calls),
            Self::Sequence { refused } => sequence(refused, calls),
        }
    }
}

fn levels(shift: usize, calls: usize) {
    let mut random = Random::new("counts", shift);
    let outputs: Vec<i32> = (0..VALUES).map(|_| random.word() as i32).collect();
    let mut levels = vec![0; VALUES];
    (0..calls).for_each(|_| assert_eq!(engine::levels(shift, 127, &outputs, &mut levels), 0));
}

fn noise(calls: usize) {
    let mut map = vec![0; VALUES];
    let seed = (0..calls).fold(1, |seed, _| engine::noise(seed, &mut map));
    assert_ne!(seed, 1);
}

fn join(first: usize, second: usize, calls: usize) {
    let filter = |side: usize| [0, 4, CHANNELS, CHANNELS, 16, 16, side, 1, 0, 1, 0, 0, 1, 1, 0, 0];
    let weights = |side: usize| vec![1; CHANNELS * CHANNELS * side * side];
    let (one, other) = (weights(first), weights(second));
    let mut joined = weights(first + second - 1);
    (0..calls)
        .for_each(|_| assert_eq!(engine::join((&filter(first), &one), (&filter(second), &other), &mut joined), 0));
}

/// Four map channels of 500 by 500, one weight each.
fn job(beyond: Option<usize>, calls: usize) {
    let layer = [0, 4, 4, 1, 500, 500, 1, 1, 0, 100, 0, 0, 1, 1, 0, 0];
    let mut map = vec![100; VALUES];
    beyond.into_iter().for_each(|place| map[place] = 101);
    let (mut output, mut scratch) = ([0; 1], [0; 3072]);
    for _ in 0..calls {
        let answer = Engine::Tiles.job(&layer, (0, 0), (&map, &[1; 4]), &mut output, &mut scratch);
        assert_eq!(answer.number, if beyond.is_some() { 15 } else { 0 });
    }
}

/// Four map channels of 500 by 500 to one output channel.
fn worst_map(side: usize, calls: usize) {
    let layer = [0, 4, 4, 1, 500, 500, side, 1, 0, 100, 0, 0, 1, 1, 0, 0];
    let (kernel, mut map) = (vec![-1; 4 * side * side], vec![0; VALUES]);
    (0..calls).for_each(|_| assert_eq!(engine::worst_map(&layer, &kernel, &mut map), 0));
}

/// 64 channels to 64 of LARGE by LARGE, K 3, S 1, P 1.
const CHANNELS_64: [usize; 16] = [0, 4, 64, 64, LARGE, LARGE, 3, 1, 1, 1, 0, 0, LARGE, LARGE, 0, 0];

fn no_part(engine: Engine, calls: usize) {
    let (map, kernel) = (vec![1; 64 * LARGE * LARGE], vec![1; 64 * 64 * 9]);
    let (mut output, mut scratch) = (vec![0; 64 * LARGE * LARGE], [0; 3072]);
    for _ in 0..calls {
        let answer = engine.job(&CHANNELS_64, (0, 0), (&map, &kernel), &mut output, &mut scratch);
        assert_eq!((answer.number, answer.count), (0, 0));
    }
}

fn preview(engine: Engine, (next, budget): (usize, usize), calls: usize) {
    let (map, kernel) = (vec![1; 64 * LARGE * LARGE], vec![1; 64 * 64 * 9]);
    let (output, scratch) = (vec![0; 64 * LARGE * LARGE], [0; 3072]);
    for _ in 0..calls {
        let preview = engine.preview(&CHANNELS_64, (next, budget), (&map, &kernel), &output, &scratch);
        let number = if next == 0 { 0 } else { 17 };
        let values = if budget == 0 { 0 } else { 64 * LARGE * LARGE };
        assert_eq!((preview.answer.number, preview.values), (number, values));
    }
}

/// A map of 8 by 8 grown four times to twice its rows and columns, or refused for its last value, after all other checks.
fn sequence(refused: bool, calls: usize) {
    let mut steps = [0; 144];
    for (place, step) in steps.chunks_mut(18).take(4).enumerate() {
        let (length, grown) = (8 << place, 16 << place);
        let layer = [1, 4, 1, 1, length, length, 4, 2, 1, 127, 0, 0, grown, grown, 0, 0];
        step[..16].copy_from_slice(&layer);
        step[16..].copy_from_slice(&[4, 127]);
    }
    let mut map = [127; 64];
    map[63] += i16::from(refused);
    let [mut first_work, mut second_work, mut final_map] = [(); 3].map(|_| vec![0; 128 * 128]);
    let (mut output, mut scratch) = (vec![0; 128 * 128], vec![0; 3072]);
    for _ in 0..calls {
        let lent = Lent {
            first_work: &mut first_work,
            second_work: &mut second_work,
            output: &mut output,
            scratch: &mut scratch,
            final_map: &mut final_map,
        };
        let (number, _) = engine::sequence(4, &steps, (&map, &[1; 64]), lent);
        assert_eq!(number, if refused { 15 } else { 0 });
    }
}

fn counted(number: usize) -> Option<f64> {
    let once = |calls: usize| count::instructions(&[number.to_string(), calls.to_string()]);
    Some(once(2)? - once(1)?)
}

fn main() {
    let arguments: Vec<usize> = std::env::args().skip(1).filter_map(|word| word.parse().ok()).collect();
    match arguments[..] {
        [number, calls] => COUNTED[number].call(calls),
        _ => (0..COUNTED.len()).for_each(|number| {
            let (what, all) = (COUNTED[number], counted(number).unwrap_or(f64::NAN));
            println!(
                "{}: {all:.0} instructions, {:.1} for each of {}",
                what.name(),
                all / what.items() as f64,
                what.items()
            );
        }),
    }
}
