//! The chart cases of the request: runs of layers with one channel of each, and plans.

use super::rows;
use crate::call::Call;
use crate::direct::direct_sums;
use crate::engine::Engine;
use crate::layer::{Layer, CONV, TCONV};
use crate::rules::{job_number, offender, plan_number, BELOW};

const X: [i16; 9] = [1, 2, 3, 4, 5, 6, 7, 8, 9];
const Y: [i16; 4] = [1, 2, 3, 4];
const G: [i16; 4] = [1, 2, 3, 4];

/// One channel of each, a square map in F_4, not cropped.
fn layer(kind: usize, length: usize, (side, stride, padding): (usize, usize, usize), peak: usize) -> Layer {
    Layer::of([kind, 4, 1, 1, length, length, side, stride, padding, peak, 0, 0, 0, 0]).uncropped()
}

/// The number of the case, the answer's number and a count of tiles, which is 0 where the number is not.
fn line(case: usize, layer: &Layer, number: usize) -> String {
    let tiles = if number == 0 { Engine::Tiles.total(layer) } else { 0 };
    format!("case {case} code {number} tiles {tiles} \n")
}

/// A whole run.
fn call(layer: Layer, map: &[i16], kernel: &[i16]) -> Call {
    Call {
        engine: Engine::Tiles,
        layer,
        next: 0,
        budget: usize::MAX,
        map: map.to_vec(),
        kernel: kernel.to_vec(),
        output_length: layer.output_length() as usize,
        scratch_length: Engine::Tiles.scratch_words(&layer),
    }
}

/// The answer to a run, and the outputs where it is accepted.
fn run(case: usize, layer: Layer, map: &[i16], kernel: &[i16]) -> String {
    let number = job_number(&call(layer, map, kernel));
    let mut text = line(case, &layer, number);
    if number == 0 {
        text += &rows(&direct_sums(&layer, map, kernel), layer.columns);
    }
    text
}

fn small_charts() -> String {
    let first = layer(CONV, 3, (2, 1, 0), 9);
    [
        run(1, first, &X, &G),
        run(2, layer(TCONV, 2, (2, 2, 0), 4), &Y, &G),
        run(3, layer(TCONV, 2, (2, 1, 0), 4), &Y, &G),
        run(4, layer(TCONV, 2, (2, 1, 1), 4), &Y, &G),
        run(6, first, &X, &[1, 0, 0, -1]),
    ]
    .concat()
}

fn loads() -> String {
    let single = |peak| layer(CONV, 1, (1, 1, 0), peak);
    let wide = Layer { field: 5, ..layer(CONV, 2, (2, 1, 0), 32_767) };
    [
        run(7, single(16_384), &[16_384], &[2]),
        run(7, single(16_384), &[16_384], &[-2]),
        run(8, single(10_923), &[10_922], &[3]),
        run(8, single(10_922), &[10_922], &[3]),
        run(9, wide, &[32_767; 4], &[32_767, 32_767, 4, 0]),
        run(9, wide, &[32_767; 4], &[32_767, 32_767, 5, 0]),
    ]
    .concat()
}

fn plans() -> String {
    let plan = |case, layer| line(case, &layer, plan_number(Engine::Tiles, &layer));
    let none = Layer { rows: 1, columns: 1, ..layer(TCONV, 1, (3, 1, 2), 1) };
    let taller = |layer: Layer| Layer { height: layer.height + 1, ..layer }.uncropped();
    let eleven = layer(CONV, 32, (3, 1, 0), 1);
    let thirteen = layer(CONV, 512, (1, 1, 0), 1);
    [plan(10, none), plan(11, eleven), plan(11, taller(eleven)), plan(13, taller(thirteen)), plan(13, thirteen)]
        .concat()
}

/// −32,768 under every peak: how many are answered with 25, the value being below the peak's negative.
fn peaks() -> String {
    let is_beyond = |&peak: &usize| {
        let call = call(layer(CONV, 1, (1, 1, 0), peak), &[i16::MIN], &[0]);
        job_number(&call) == 25 && offender(&call.layer, &call.map).side == BELOW
    };
    format!("case 13 refused {} \n", (1..=32_767).filter(is_beyond).count())
}

pub fn text() -> String {
    [small_charts(), loads(), plans(), peaks()].concat()
}
