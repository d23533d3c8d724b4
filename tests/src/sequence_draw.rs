//! Sequences and their buffers, drawn so that every rule accepts them.

use crate::call::Buffer;
use crate::direct::direct_sums;
use crate::draw::{self, added, part, peak};
use crate::layer::Layer;
use crate::random::Random;
use crate::sequence::{Lengths, Sequence, SequenceBuffers, Stage, Step, MOST, NUMBERS};

/// The most channels, and the most rows and columns, of any map of a sequence.
#[derive(Clone, Copy)]
pub struct Size {
    pub channels: usize,
    pub longest: usize,
}

pub const SMALL: Size = Size { channels: 3, longest: 14 };

/// A sequence of so many steps, of kinds, fields, windows, crops and levels that are drawn for each.
pub fn sequence(random: &mut Random, count: usize, size: Size) -> Sequence {
    let given = Layer {
        inputs: random.between(1, size.channels),
        height: random.between(1, size.longest),
        width: random.between(1, size.longest),
        peak: peak(random),
        ..Layer::default()
    };
    let map = draw::map(random, &given);
    sequence_over(random, count, size, given, map)
}

/// A sequence over a first map, of which the channels, rows, columns and peak are given.
pub fn sequence_over(random: &mut Random, count: usize, size: Size, given: Layer, map: Vec<i16>) -> Sequence {
    let mut call = Sequence { count, map: map.clone(), ..Sequence::default() };
    let (mut given, mut map) = (given, map);
    for place in 0..count {
        let (step, kernel) = step_over(random, size, given, &map);
        map = Stage::of(&step, &map, &kernel).map;
        given = map_of(&step);
        call.rows[place] = step;
        call.kernels.extend(kernel);
    }
    fill_rest(random, &mut call);
    call.lengths = lengths(random, &call);
    call
}

/// A sequence of steps that are given; map and kernels are drawn, and buffers are as long as they must be.
pub fn sequence_of(random: &mut Random, steps: &[Step]) -> Sequence {
    let mut call = Sequence { count: steps.len(), map: draw::map(random, &steps[0].layer), ..Sequence::default() };
    call.rows[..steps.len()].copy_from_slice(steps);
    steps.iter().for_each(|step| call.kernels.extend(draw::kernel(random, &step.layer)));
    fill_rest(random, &mut call);
    call.lengths = least_lengths(&call);
    call
}

/// A step over a map, and its kernel; drawn again, a few times at most, where its own map would be all zero.
fn step_over(random: &mut Random, size: Size, given: Layer, map: &[i16]) -> (Step, Vec<i16>) {
    for _ in 0..8 {
        let (step, kernel) = any_step_over(random, size, given, map);
        if Stage::of(&step, map, &kernel).map.iter().any(|&value| value != 0) {
            return (step, kernel);
        }
    }
    any_step_over(random, size, given, map)
}

fn any_step_over(random: &mut Random, size: Size, given: Layer, map: &[i16]) -> (Step, Vec<i16>) {
    let layer = layer_over(random, size, given);
    let kernel = draw::kernel(random, &layer);
    (levelled(random, layer, map, &kernel), kernel)
}

/// The channels, rows, columns and peak of the map that a step makes.
fn map_of(step: &Step) -> Layer {
    let Layer { outputs, rows, columns, .. } = step.layer;
    Layer { inputs: outputs, height: rows, width: columns, peak: step.bound, ..Layer::default() }
}

/// A layer over a map of which the channels, rows, columns and peak are given. One layer in three is cropped, and any that
/// would be too long.
fn layer_over(random: &mut Random, size: Size, given: Layer) -> Layer {
    let layer = loop {
        let side = random.pick(&[3, 5, 11]);
        let side = random.between(1, side);
        let window = Layer {
            kind: random.below(2),
            field: random.between(4, 5),
            outputs: random.between(1, size.channels),
            side,
            stride: random.between(1, 4),
            padding: random.below(side),
            ..given
        };
        let layer = Layer { below: added(random, &window), beside: added(random, &window), ..window };
        if layer.full_rows() >= 1 && layer.full_columns() >= 1 {
            break layer.uncropped();
        }
    };
    let (top, rows) = crop(random, layer.rows, size.longest);
    let (left, columns) = crop(random, layer.columns, size.longest);
    Layer { top, left, rows, columns, ..layer }
}

/// The first place kept of a full output and how many.
fn crop(random: &mut Random, full: usize, longest: usize) -> (usize, usize) {
    let (first, kept) = if random.once_in(3) { part(random, full) } else { (0, full) };
    (first, kept.min(longest))
}

/// A layer with a drawn bound and mostly a shift that takes its largest sum near to it; now and then with any shift.
fn levelled(random: &mut Random, layer: Layer, map: &[i16], kernel: &[i16]) -> Step {
    let largest = direct_sums(&layer, map, kernel).iter().map(|sum| sum.unsigned_abs()).max().unwrap_or(0);
    let bound = peak(random);
    let near = (0..31).find(|&shift| largest >> shift <= bound as u64).unwrap_or(31);
    let shift = match random.below(16) {
        0 => random.below(32),
        _ => (near + random.below(4)).saturating_sub(2).min(31),
    };
    Step { layer, shift, bound }
}

/// Any numbers in the rows from the count on, which are not read.
fn fill_rest(random: &mut Random, call: &mut Sequence) {
    for row in call.rows.iter_mut().skip(call.count) {
        *row = any_row(random);
    }
}

fn any_row(random: &mut Random) -> Step {
    let style = random.below(3);
    (0..NUMBERS).fold(Step::default(), |row, place| {
        let number = match style {
            0 => usize::MAX,
            1 => random.word() as usize,
            _ => random.pick(&[0, 1, 2, 4, 32_768, usize::MAX]),
        };
        row.with(place, number)
    })
}

/// Buffers as long as they must be, or longer where they may.
fn lengths(random: &mut Random, call: &Sequence) -> Lengths {
    let least = least_lengths(call);
    let mut longer = |length: usize| match random.below(4) {
        0 | 1 => length,
        2 => length + random.between(1, 20),
        _ => 2 * length,
    };
    Lengths {
        first_work: longer(least.first_work),
        second_work: longer(least.second_work),
        output: longer(least.output),
        scratch: longer(least.scratch),
        final_map: least.final_map,
    }
}

/// Buffers as long as they must be.
pub fn least_lengths(call: &Sequence) -> Lengths {
    let greatest = call.greatest_output() as usize;
    Lengths {
        first_work: greatest,
        second_work: greatest,
        output: greatest,
        scratch: call.greatest_scratch(),
        final_map: call.last().layer.output_length() as usize,
    }
}

/// Buffers of the lengths that a call lends, of any words.
pub fn buffers(random: &mut Random, call: &Sequence) -> SequenceBuffers {
    let Lengths { first_work, second_work, output, scratch, final_map } = call.lengths;
    SequenceBuffers {
        first_work: Buffer::of(first_work, || random.word() as i16),
        second_work: Buffer::of(second_work, || random.word() as i16),
        output: Buffer::of(output, || random.word() as i32),
        scratch: draw::scratch(random, scratch),
        final_map: Buffer::of(final_map, || random.word() as i16),
    }
}

/// The count of a trial: eight trials one after the other take every one.
pub fn count_in_turn(trial: usize) -> usize {
    1 + trial % MOST
}
