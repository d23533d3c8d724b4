//! Transposed kernels judged by groups: each group at its limit for every stride from 2 on and every side, one more in
//! any group, and outputs as large as the load.

use wemsteky_tests::call::Call;
use wemsteky_tests::checked;
use wemsteky_tests::direct::direct_sums;
use wemsteky_tests::draw;
use wemsteky_tests::engine::Engine;
use wemsteky_tests::groups::{channel_weights, groups, set_group};
use wemsteky_tests::layer::{Layer, TCONV};
use wemsteky_tests::list::List;
use wemsteky_tests::random::{seed, Random};
use wemsteky_tests::rules::{formerly_refused, load, load_limit};

/// Every stride from 2 on, every side and padding.
fn windows() -> impl Iterator<Item = (usize, usize, usize)> {
    let sides = (2..=4).flat_map(|stride| (1..=11).map(move |side| (stride, side)));
    sides.flat_map(|(stride, side)| (0..side).map(move |padding| (stride, side, padding)))
}

/// A peak, with how much it leaves for the sizes of a group: in F_4 the load is then the limit, in F_5, where none is, the
/// greatest load below it.
fn peak(random: &mut Random, field: usize) -> (usize, usize) {
    let peak = match field {
        4 => 1 << random.below(15),
        _ => 32_767,
    };
    (peak, load_limit(field) as usize / peak)
}

/// A call whose every group has as much as the peak leaves, weights and map drawn. Three map channels are enough for
/// that in every group.
fn full_call(
    random: &mut Random,
    (engine, field): (Engine, usize),
    (stride, side, padding): (usize, usize, usize),
) -> Call {
    let (peak, total) = peak(random, field);
    let length = 2 * side.div_ceil(stride) + 2;
    let outputs = random.between(1, 2);
    let layer = Layer::of([TCONV, field, 3, outputs, length, length, side, stride, padding, peak, 0, 0, 0, 0]);
    let mut call = draw::call(random, engine, layer.uncropped());
    for channel in 0..outputs {
        for group in groups(&layer) {
            let weights = draw::weights(random, group.len(), total);
            set_group(&layer, &mut call.kernel, channel, &group, &weights);
        }
        assert_eq!(load(&call, channel), (total * peak) as u128, "{layer:?}");
    }
    call
}

/// Holds a plan, a run and a job call to the number that they must answer with.
fn answered(random: &mut Random, call: &Call, number: usize) {
    let mut buffers = draw::buffers(random, call);
    assert_eq!(checked::plan(call.engine, &call.layer), 0, "{:?}", call.layer);
    assert_eq!(checked::run(call, &mut buffers, None).number, number, "{:?}", call.layer);
    assert_eq!(checked::job(call, &mut buffers, None).number, number, "{:?}", call.layer);
}

/// Adds 1 to the size of a weight of each group in turn: the peak times one more is above the limit.
fn one_more_in_each_group(random: &mut Random, call: &Call) {
    let layer = call.layer;
    for group in groups(&layer) {
        let mut above = call.clone();
        let channel = random.below(layer.outputs);
        let weights = channel_weights(&layer, &call.kernel, channel);
        let fewer: Vec<usize> = group.into_iter().filter(|&place| weights[place].unsigned_abs() < 32_767).collect();
        let place = fewer[random.below(fewer.len())];
        let more = weights[place] + if weights[place] < 0 { -1 } else { 1 };
        set_group(&layer, &mut above.kernel, channel, &[place], &[more]);
        answered(random, &above, 16);
    }
}

/// Every group at its limit: accepted, though the sum of all sizes is above it; a whole job in budgets leaves the direct
/// sums.
fn at_every_limit(test: &'static str, engine: Engine, field: usize) {
    for (trial, window) in windows().enumerate() {
        let mut random = Random::new(test, trial);
        let call = full_call(&mut random, (engine, field), window);
        assert_eq!(formerly_refused(&call), groups(&call.layer).len() > 1, "{:?}", call.layer);
        answered(&mut random, &call, 0);
        one_more_in_each_group(&mut random, &call);
        let sums = direct_sums(&call.layer, &call.map, &call.kernel);
        let mut list = List::new(&mut random, call);
        list.finish(&mut random, Some(&sums));
        let output = list.buffers.output.words().iter().map(|&word| i64::from(word));
        assert!(output.eq(sums), "{:?}", list.call.layer);
    }
}

#[test]
fn every_group_at_its_limit_in_field_4() {
    at_every_limit("loads, limits in field 4", Engine::Tiles, 4);
}

#[test]
fn every_group_at_its_limit_in_field_5() {
    at_every_limit("loads, limits in field 5", Engine::Tiles, 5);
}

#[test]
fn every_group_at_its_limit_by_strips() {
    at_every_limit("loads, limits by strips", Engine::Strips, 4);
}

/// Sets the map values that an output of a channel meets to the peak, each with its weight's sign, so that the output is
/// the sum of its group. The output is the one whose row and column, with the padding, are these.
fn meet(call: &mut Call, channel: usize, row: usize, column: usize) {
    let layer = call.layer;
    let weights = channel_weights(&layer, &call.kernel, channel);
    for (place, weight) in weights.into_iter().enumerate() {
        let (input, a, b) = (place / (layer.side * layer.side), place / layer.side % layer.side, place % layer.side);
        if row % layer.stride == a % layer.stride && column % layer.stride == b % layer.stride {
            let (e, f) = ((row - a) / layer.stride, (column - b) / layer.stride);
            call.map[(input * layer.height + e) * layer.width + f] = layer.peak as i16 * weight.signum();
        }
    }
}

/// The places, with the padding, of one output for each group: all weights of its group lie within the map there.
fn places(layer: &Layer) -> impl Iterator<Item = (usize, usize)> {
    let first = layer.side.div_ceil(layer.stride) * layer.stride;
    let range = first..first + layer.stride.min(layer.side);
    range.clone().flat_map(move |row| range.clone().map(move |column| (row, column)))
}

/// For each group an output as large as the load, of either sign.
fn greatest_outputs(test: &'static str, engine: Engine, field: usize) -> Vec<i64> {
    let mut reached = Vec::new();
    for (trial, window) in windows().enumerate() {
        let mut random = Random::new(test, trial);
        let mut call = full_call(&mut random, (engine, field), window);
        let layer = call.layer;
        for (row, column) in places(&layer) {
            let channel = random.below(layer.outputs);
            meet(&mut call, channel, row, column);
            let flips = random.once_in(2);
            call.map.iter_mut().filter(|_| flips).for_each(|value| *value = -*value);
            let sums = direct_sums(&layer, &call.map, &call.kernel);
            checked::run(&call, &mut draw::buffers(&mut random, &call), Some(&sums));
            let place = (channel * layer.rows + row - layer.padding) * layer.columns + column - layer.padding;
            assert_eq!(sums[place].unsigned_abs() as u128, load(&call, channel), "{row}, {column} of {layer:?}");
            reached.push(sums[place]);
        }
    }
    reached
}

/// Both ends of what a residue reads as, or in F_5 the greatest load of a layer.
fn as_large_as_the_load(test: &'static str, engine: Engine, field: usize, greatest: i64) {
    let reached = greatest_outputs(test, engine, field);
    for end in [greatest, -greatest] {
        assert!(reached.contains(&end), "no output is {end}, seed {}", seed());
    }
}

#[test]
fn outputs_as_large_as_the_load_in_field_4() {
    as_large_as_the_load("loads, greatest outputs in field 4", Engine::Tiles, 4, 32_768);
}

#[test]
fn outputs_as_large_as_the_load_in_field_5() {
    as_large_as_the_load("loads, greatest outputs in field 5", Engine::Tiles, 5, 2_147_483_646);
}

#[test]
fn outputs_as_large_as_the_load_by_strips() {
    as_large_as_the_load("loads, greatest outputs by strips", Engine::Strips, 4, 32_768);
}

/// Calls as the tests of runs and jobs draw them, a quarter of them with stride 1: many kernels are let in by their
/// groups alone.
#[test]
fn drawn_kernels_are_let_in_by_groups() {
    let gained = |&trial: &usize| {
        let mut random = Random::new("loads, drawn kernels", trial);
        let layer = draw::any_layer(&mut random, TCONV, 4 + trial % 2, 4, 12);
        formerly_refused(&draw::call(&mut random, Engine::Tiles, layer))
    };
    let count = (0..1_000).filter(gained).count();
    assert!(count > 400, "{count} of 1000 kernels are let in by groups, seed {}", seed());
}
