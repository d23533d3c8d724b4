//! Whole runs of drawn layers: every output is its direct sum, every part is counted, scratch is left as the request
//! says.

use wemsteky_tests::checked::whole_run;
use wemsteky_tests::engine::Engine;
use wemsteky_tests::kinds::in_turn;
use wemsteky_tests::layer::{Layer, CONV, TCONV};
use wemsteky_tests::parts::ENGINES_AND_FIELDS;
use wemsteky_tests::random::{seed, Random};
use wemsteky_tests::rules::{load, load_limit};
use wemsteky_tests::{draw, for_kinds_and_engines};

/// Layers for each window of a kind, an engine and a field.
const LAYERS: usize = 8;

/// Every K, P and S.
fn windows() -> impl Iterator<Item = (usize, usize, usize)> {
    let paddings = (1..=11).flat_map(|side| (0..side).map(move |padding| (side, padding)));
    paddings.flat_map(|(side, padding)| (1..=4).map(move |stride| (side, padding, stride)))
}

fn every_window(test: &'static str, kind: usize, engine: Engine, field: usize) {
    for (number, (side, padding, stride)) in windows().enumerate() {
        for trial in number * LAYERS..(number + 1) * LAYERS {
            let mut random = Random::new(test, trial);
            let given = Layer { kind, field, side, stride, padding, ..Layer::default() };
            let layer = draw::layer(&mut random, given, 3, 90);
            let call = draw::call(&mut random, engine, layer);
            whole_run(&mut random, &call);
        }
    }
}

for_kinds_and_engines!(every_window, "runs");

/// Maps of up to 512 by 512, the first of each engine and field of the greatest size.
fn large_maps(test: &'static str, kind: usize) {
    for trial in 0..24 {
        let mut random = Random::new(test, trial);
        let (engine, field) = ENGINES_AND_FIELDS[trial % ENGINES_AND_FIELDS.len()];
        let any = draw::any_layer(&mut random, kind, field, 2, 1);
        let (height, width) = match trial / ENGINES_AND_FIELDS.len() {
            0 => (512, 512),
            1 => (512, random.between(11, 20)),
            2 => (random.between(11, 20), 512),
            _ => (random.between(100, 512), random.between(100, 512)),
        };
        let layer = Layer { height, width, ..any }.uncropped();
        let call = draw::call(&mut random, engine, layer);
        whole_run(&mut random, &call);
    }
}

#[test]
fn large_maps_in_conv() {
    large_maps("runs, large maps in conv", CONV);
}

#[test]
fn large_maps_in_tconv() {
    large_maps("runs, large maps in tconv", TCONV);
}

/// Up to 64 channels on both sides, the first trials with exactly 64.
#[test]
fn many_channels() {
    for trial in 0..60 {
        let mut random = Random::new("runs, many channels", trial);
        let (kind, engine, field) = in_turn(trial);
        let any = draw::any_layer(&mut random, kind, field, 64, 12);
        let (inputs, outputs) = if trial < 6 { (64, 64) } else { (any.inputs, any.outputs) };
        let call = draw::call(&mut random, engine, Layer { inputs, outputs, ..any });
        whole_run(&mut random, &call);
    }
}

/// Weights of one sign that carry the whole load, on a constant map at the peak: some output is as large as its load.
fn at_the_limit(random: &mut Random, kind: usize, (engine, field): (Engine, usize), peak: usize) -> i64 {
    let side = random.between(2, 11);
    let length = random.between(side, 40);
    let layer = Layer::of([kind, field, 2, 1, length, length, side, 1, 0, peak, 0, 0, 0, 0]).uncropped();
    let mut call = draw::call(random, engine, layer);
    let value = random.pick(&[-1, 1]) * peak as i16;
    let total = load_limit(field) as usize / peak;
    let weights = draw::weights(random, 2 * side * side, total).into_iter();
    call.map.fill(value);
    call.kernel = weights.map(|weight| if weight > 0 { -weight } else { weight }).collect();
    assert_eq!(load(&call, 0), (total * peak) as u128, "load of {:?}", call.layer);
    let sums = whole_run(random, &call);
    let reached = sums.iter().copied().max_by_key(|sum| sum.abs()).unwrap();
    assert_eq!(reached.unsigned_abs() as u128, load(&call, 0), "greatest output of {:?}", call.layer);
    reached
}

/// Both ends of what a residue reads as. In F_5 no load of a layer is the limit itself: the nearest is 32,767 times
/// 65,538.
#[test]
fn loads_at_the_limit() {
    for (number, (engine, field)) in ENGINES_AND_FIELDS.into_iter().enumerate() {
        let mut reached = Vec::new();
        for trial in 240 * number..240 * (number + 1) {
            let mut random = Random::new("runs, loads at the limit", trial);
            let peak = if field == 4 { 1 << random.below(15) } else { 32_767 };
            reached.push(at_the_limit(&mut random, trial % 2, (engine, field), peak));
        }
        let most = if field == 4 { 32_768 } else { 2_147_483_646 };
        for end in [most, -most] {
            assert!(reached.contains(&end), "no output by {engine:?} is {end}, seed {}", seed());
        }
    }
}
