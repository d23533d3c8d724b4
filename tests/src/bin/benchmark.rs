//! Times of the engine beside those of the direct sums, as a table: the shortest of several, and instructions for a tile
//! where valgrind is found. Nothing is asserted of a time.

use std::time::{Duration, Instant};
use wemsteky_tests::call::{Buffers, Call};
use wemsteky_tests::engine::Engine;
use wemsteky_tests::layer::{Layer, CONV, TCONV};
use wemsteky_tests::quick::quick_sums;
use wemsteky_tests::random::Random;
use wemsteky_tests::transform::points;
use wemsteky_tests::{count, draw};

/// Rounds of each layer: so many at least, then more until a time has passed.
const LEAST_ROUNDS: usize = 7;
const MOST_ROUNDS: usize = 2_000;
const TIME: Duration = Duration::from_millis(1_000);

/// Tiles of the call whose instructions are counted.
const COUNTED_TILES: usize = 4;

/// The hidden first argument: a layer's number, a budget and a count follow, and so many calls are made.
const CALLS: &str = "calls";

/// A square map, no padding, not cropped.
fn layer(
    kind: usize,
    field: usize,
    (inputs, outputs): (usize, usize),
    length: usize,
    side: usize,
    stride: usize,
) -> Layer {
    Layer::of([kind, field, inputs, outputs, length, length, side, stride, 0, 100, 0, 0, 0, 0]).uncropped()
}

/// One full tile of each side, many channels, strides, then maps of the greatest size; last the most weights in groups.
fn layers() -> Vec<Layer> {
    let mut layers = Vec::new();
    for field in [4, 5] {
        let full = points(field);
        layers.extend([3, 5, 7, 11].map(|side| layer(CONV, field, (4, 1), full, side, 1)));
        layers.extend([3, 7].map(|side| layer(CONV, field, (16, 16), full, side, 1)));
        layers.extend([5, 11].map(|side| layer(CONV, field, (4, 1), 128, side, 2)));
        layers.extend(
            [(4, 2), (11, 2), (8, 4), (11, 4)].map(|(side, stride)| layer(TCONV, field, (4, 1), 64, side, stride)),
        );
        for inputs in [1, 4] {
            layers.extend([3, 5, 7, 11].map(|side| layer(CONV, field, (inputs, 1), 512, side, 1)));
        }
    }
    layers.push(layer(TCONV, 4, (64, 64), 3, 11, 4));
    layers
}

/// A run of a layer, always the same, and its buffers.
fn drawn(number: usize) -> (Call, Buffers) {
    let mut random = Random::new("benchmark", number);
    let call = draw::call(&mut random, Engine::Tiles, layers()[number]);
    let buffers = draw::buffers(&mut random, &call);
    (call, buffers)
}

/// A job call from tile 0.
fn advance(call: &Call, budget: usize, buffers: &mut Buffers) {
    let (output, scratch) = (buffers.output.lend(call.output_length), buffers.scratch.lend(call.scratch_length));
    let answer = call.engine.job(&call.layer.numbers(), (0, budget), (&call.map, &call.kernel), output, scratch);
    assert_eq!(answer.number, 0, "{:?} is refused", call.layer);
}

/// The shortest times of some routines in microseconds. They take turns, so that other work of the machine falls on all
/// of them.
fn shortest<const N: usize>(mut routines: [&mut dyn FnMut(); N]) -> [f64; N] {
    let mut shortest = [f64::INFINITY; N];
    let start = Instant::now();
    let mut rounds = 0;
    while rounds < LEAST_ROUNDS || rounds < MOST_ROUNDS && start.elapsed() < TIME {
        for (routine, shortest) in routines.iter_mut().zip(&mut shortest) {
            let start = Instant::now();
            routine();
            *shortest = shortest.min(start.elapsed().as_secs_f64() * 1e6);
        }
        rounds += 1;
    }
    shortest
}

/// Instructions of this program with some calls.
fn instructions(number: usize, budget: usize, calls: usize) -> Option<f64> {
    count::instructions(&[CALLS.to_string(), number.to_string(), budget.to_string(), calls.to_string()])
}

/// Instructions for a tile: those of a call of some tiles less those of a call of none.
fn tile_instructions(number: usize, total: usize) -> Option<f64> {
    let tiles = total.min(COUNTED_TILES);
    Some((instructions(number, tiles, 1)? - instructions(number, 0, 1)?) / tiles as f64)
}

/// Instructions of a call of no tile: those of two less those of one.
fn call_instructions(number: usize) -> Option<f64> {
    Some(instructions(number, 0, 2)? - instructions(number, 0, 1)?)
}

fn written(count: Option<f64>) -> String {
    count.map_or("-".to_string(), |count| format!("{count:.0}"))
}

/// The table's columns: title and width.
const COLUMNS: [(&str, usize); 15] = [
    ("kind", 5),
    ("field", 5),
    ("C", 2),
    ("M", 2),
    ("H×W", 7),
    ("K", 2),
    ("S", 2),
    ("engine µs", 9),
    ("direct sums µs", 14),
    ("direct / engine", 15),
    ("tiles", 5),
    ("ns by M, C, tile", 16),
    ("no tile µs", 10),
    ("instructions, no tile", 21),
    ("instructions by tile", 20),
];

fn line(words: [String; 15]) -> String {
    let padded = words.iter().zip(COLUMNS).map(|(word, (_, width))| format!("{word:>width$}"));
    format!("| {} |", padded.collect::<Vec<_>>().join(" | "))
}

/// Measures a layer; the engine and the direct sums must agree.
fn measured(number: usize) -> String {
    let (call, mut buffers) = drawn(number);
    let (layer, total) = (call.layer, call.total());
    let (mut output, mut work, mut untouched) = (vec![0; call.output_length], Vec::new(), buffers.clone());
    let [run, direct, none] = shortest([
        &mut || advance(&call, total, &mut buffers),
        &mut || quick_sums(&layer, &call.map, &call.kernel, &mut output, &mut work),
        &mut || advance(&call, 0, &mut untouched),
    ]);
    assert!(buffers.output.words() == output, "the engine and the direct sums differ on {layer:?}");
    let kind = if layer.kind == CONV { "CONV" } else { "TCONV" };
    line([
        kind.to_string(),
        layer.field.to_string(),
        layer.inputs.to_string(),
        layer.outputs.to_string(),
        format!("{}×{}", layer.height, layer.width),
        layer.side.to_string(),
        layer.stride.to_string(),
        format!("{run:.1}"),
        format!("{direct:.1}"),
        format!("{:.2}", direct / run),
        total.to_string(),
        format!("{:.0}", run * 1e3 / (layer.inputs * total) as f64),
        format!("{none:.1}"),
        written(call_instructions(number)),
        written(tile_instructions(number, total)),
    ])
}

fn main() {
    let arguments: Vec<String> = std::env::args().skip(1).collect();
    match &arguments[..] {
        [] => {
            println!("{}", line(COLUMNS.map(|(title, _)| title.to_string())));
            println!("{}", line(COLUMNS.map(|(_, width)| "-".repeat(width - 1) + ":")));
            (0..layers().len()).for_each(|number| println!("{}", measured(number)));
        }
        [first, number, budget, calls] if first == CALLS => {
            let (call, mut buffers) = drawn(number.parse().expect("a layer's number"));
            let budget = budget.parse().expect("a budget");
            (0..calls.parse().expect("a count")).for_each(|_| advance(&call, budget, &mut buffers));
        }
        _ => eprintln!("benchmark takes no arguments"),
    }
}
