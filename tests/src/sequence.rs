//! Whole sequences, from the request's words: the number that a call gets, rule by rule in the request's order, and each map
//! by direct sums and levels in turn. Lengths are taken in 128 bits.

use crate::call::{Buffer, Call};
use crate::direct::direct_sums;
use crate::engine::Engine;
use crate::layer::Layer;
use crate::levels::{self, level};
use crate::rules::{first_broken_of, offender, plan_number, Offender, ABOVE, BELOW};
use std::ops::Range;

/// The most steps of a sequence, which is how many rows a call is given.
pub const MOST: usize = 8;

/// How many numbers a step has.
pub const NUMBERS: usize = 18;

/// A layer, and the shift and the bound of the levels that follow it.
#[derive(Clone, Copy, Debug, Default, PartialEq, Eq)]
pub struct Step {
    pub layer: Layer,
    pub shift: usize,
    pub bound: usize,
}

impl Step {
    /// The eighteen numbers: the layer's sixteen, the shift, the bound.
    pub fn numbers(&self) -> [usize; NUMBERS] {
        let mut numbers = [0; NUMBERS];
        numbers[..16].copy_from_slice(&self.layer.numbers());
        numbers[16..].copy_from_slice(&[self.shift, self.bound]);
        numbers
    }

    /// The step of which every number is this one.
    pub fn filled(number: usize) -> Step {
        (0..NUMBERS).fold(Step::default(), |step, place| step.with(place, number))
    }

    /// The step with one of its eighteen numbers replaced.
    pub fn with(self, place: usize, number: usize) -> Step {
        match place {
            16 => Step { shift: number, ..self },
            17 => Step { bound: number, ..self },
            _ => Step { layer: self.layer.with(place, number), ..self },
        }
    }
}

/// How much of each written buffer is lent.
#[derive(Clone, Copy, Debug, Default, PartialEq, Eq)]
pub struct Lengths {
    pub first_work: usize,
    pub second_work: usize,
    pub output: usize,
    pub scratch: usize,
    pub final_map: usize,
}

/// What a call is given: the count and all rows, the first map, the kernels end to end, and how much of each buffer.
#[derive(Clone, Debug, Default, PartialEq, Eq)]
pub struct Sequence {
    pub count: usize,
    pub rows: [Step; MOST],
    pub map: Vec<i16>,
    pub kernels: Vec<i16>,
    pub lengths: Lengths,
}

impl Sequence {
    /// The steps, of a count that is not refused.
    pub fn steps(&self) -> &[Step] {
        &self.rows[..self.count]
    }

    pub fn last(&self) -> &Step {
        &self.rows[self.count - 1]
    }

    /// The numbers of all rows, one row after the other.
    pub fn numbers(&self) -> [usize; MOST * NUMBERS] {
        let rows: Vec<usize> = self.rows.iter().flat_map(Step::numbers).collect();
        rows.try_into().expect("eight rows of eighteen numbers")
    }

    /// Where the weights of a step's layer stand in the kernels.
    pub fn part(&self, step: usize) -> Range<usize> {
        let length = |step: &Step| step.layer.kernel_length() as usize;
        let first = self.rows[..step].iter().map(length).sum();
        first..first + length(&self.rows[step])
    }

    /// The greatest M·h·w of all layers, the last one's among them.
    pub fn greatest_output(&self) -> u128 {
        self.steps().iter().map(|step| step.layer.output_length()).max().expect("there is a step")
    }

    /// The greatest 3N² of all layers.
    pub fn greatest_scratch(&self) -> usize {
        self.steps().iter().map(|step| Engine::Tiles.scratch_words(&step.layer)).max().expect("there is a step")
    }
}

/// The buffers that a call writes.
#[derive(Clone)]
pub struct SequenceBuffers {
    pub first_work: Buffer<i16>,
    pub second_work: Buffer<i16>,
    pub output: Buffer<i32>,
    pub scratch: Buffer<u64>,
    pub final_map: Buffer<i16>,
}

/// A number and the test that a call must meet to pass it. A test is made only where those before hold.
type Rule = (usize, fn(&Sequence) -> bool);

/// The rules that come after those of every layer.
static RULES: [Rule; 6] = [
    (22, |call| call.steps().windows(2).all(|pair| leads_to(&pair[0], &pair[1]))),
    (10, |call| call.map.len() as u128 == call.rows[0].layer.map_length()),
    (12, has_room),
    (13, |call| call.lengths.scratch >= call.greatest_scratch()),
    (15, |call| offender(&call.rows[0].layer, &call.map).side != ABOVE),
    (25, |call| offender(&call.rows[0].layer, &call.map).side != BELOW),
];

/// Whether a layer's M, h, w and B are the next one's C, H, W and A.
fn leads_to(step: &Step, next: &Step) -> bool {
    let (from, to) = (&step.layer, &next.layer);
    [from.outputs, from.rows, from.columns, step.bound] == [to.inputs, to.height, to.width, to.peak]
}

/// Whether the final buffer has the last layer's length, and both work maps and the output buffer hold the greatest one's.
fn has_room(call: &Sequence) -> bool {
    let Lengths { first_work, second_work, output, final_map, .. } = call.lengths;
    let greatest = call.greatest_output();
    final_map as u128 == call.last().layer.output_length()
        && [first_work, second_work, output].iter().all(|&length| length as u128 >= greatest)
}

/// The number of a step, given the weights that remain for its layer and the layers after it.
fn step_number(step: &Step, remaining: &[i16], is_last: bool) -> usize {
    let number = plan_number(Engine::Tiles, &step.layer);
    if number != 0 {
        return number;
    }
    let (needed, remain) = (step.layer.kernel_length(), remaining.len() as u128);
    if remain < needed || is_last && remain > needed {
        return 11;
    }
    let kernel = remaining[..needed as usize].to_vec();
    match first_broken_of(&[14, 24, 16], &Call { layer: step.layer, kernel, ..Call::default() }) {
        0 => levels::number(step.shift, step.bound, 0, 0),
        number => number,
    }
}

/// The number of the first step that is refused, or 0.
fn steps_number(call: &Sequence) -> usize {
    let mut remaining = &call.kernels[..];
    for (place, step) in call.steps().iter().enumerate() {
        let number = step_number(step, remaining, place + 1 == call.count);
        if number != 0 {
            return number;
        }
        remaining = &remaining[step.layer.kernel_length() as usize..];
    }
    0
}

/// What a call returns.
pub fn number(call: &Sequence) -> usize {
    if !(1..=MOST).contains(&call.count) {
        return 21;
    }
    match steps_number(call) {
        0 => RULES.iter().find(|(_, holds)| !holds(call)).map_or(0, |&(number, _)| number),
        number => number,
    }
}

/// The place and the side that come with a number: zeros with any but 15 and 25.
pub fn told(call: &Sequence, number: usize) -> Offender {
    match number {
        15 | 25 => offender(&call.rows[0].layer, &call.map),
        _ => Offender::default(),
    }
}

/// What a step makes: the direct sums of its layer, and their levels, which are the next map.
pub struct Stage {
    pub sums: Vec<i64>,
    pub map: Vec<i16>,
}

impl Stage {
    pub fn of(step: &Step, map: &[i16], kernel: &[i16]) -> Stage {
        let sums = direct_sums(&step.layer, map, kernel);
        let fitting = sums.iter().map(|&sum| i32::try_from(sum).expect("an accepted sum fits 32 bits"));
        let map = fitting.map(|sum| level(step.shift, step.bound, sum)).collect();
        Stage { sums, map }
    }
}

/// What each step of an accepted call makes.
pub fn stages(call: &Sequence) -> Vec<Stage> {
    let mut stages: Vec<Stage> = Vec::new();
    for (place, step) in call.steps().iter().enumerate() {
        let map = stages.last().map_or(&call.map, |stage| &stage.map);
        stages.push(Stage::of(step, map, &call.kernels[call.part(place)]));
    }
    stages
}

#[cfg(test)]
mod tests {
    use super::*;
    use crate::layer::{CONV, TCONV};

    /// Chart case 1 with levels, 37 47 67 77 by 2 clamped at 38; then chart case 4 over that.
    fn two_steps() -> Sequence {
        let first = Layer::of([CONV, 4, 1, 1, 3, 3, 2, 1, 0, 9, 0, 0, 2, 2]);
        let second = Layer::of([TCONV, 5, 1, 1, 2, 2, 2, 1, 1, 38, 0, 0, 1, 1]);
        let mut rows = [Step::default(); MOST];
        rows[0] = Step { layer: first, shift: 1, bound: 38 };
        rows[1] = Step { layer: second, shift: 2, bound: 100 };
        let lengths = Lengths { first_work: 4, second_work: 4, output: 4, scratch: 12_288, final_map: 1 };
        Sequence { count: 2, rows, map: (1..=9).collect(), kernels: vec![1, 2, 3, 4, 1, 2, 3, 4], lengths }
    }

    #[test]
    fn two_steps_by_hand() {
        let call = two_steps();
        let maps: Vec<_> = stages(&call).into_iter().map(|stage| stage.map).collect();
        assert_eq!((number(&call), maps), (0, vec![vec![19, 24, 34, 38], vec![64]]));
    }

    #[test]
    fn numbers_by_hand() {
        let refused = |change: fn(&mut Sequence)| {
            let mut call = two_steps();
            change(&mut call);
            number(&call)
        };
        assert_eq!(refused(|call| call.count = 0), 21);
        assert_eq!(refused(|call| call.count = 9), 21);
        assert_eq!(refused(|call| call.count = 3), 2);
        assert_eq!(refused(|call| call.count = 1), 11);
        assert_eq!(refused(|call| call.kernels.truncate(7)), 11);
        assert_eq!(refused(|call| call.rows[0].shift = 32), 20);
        assert_eq!(refused(|call| call.rows[0].bound = 39), 22);
        assert_eq!(refused(|call| call.rows[1].layer.width = 3), 22);
        assert_eq!(refused(|call| call.map.push(0)), 10);
        assert_eq!(refused(|call| call.lengths.final_map = 4), 12);
        assert_eq!(refused(|call| call.lengths.second_work = 3), 12);
        assert_eq!(refused(|call| call.lengths.scratch = 3_072), 13);
        assert_eq!(refused(|call| call.map[4] = 10), 15);
        assert_eq!(refused(|call| call.map[4] = -10), 25);
    }
}
