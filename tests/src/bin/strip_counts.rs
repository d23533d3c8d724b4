//! Instructions of whole runs by strips, for a strip and for an output, beside those of the tile engine and of the direct
//! sums for an output, as valgrind counts them: those of a program that makes two runs less those of one that makes one.
//! Nothing is asserted of a count.

use wemsteky_tests::engine::Engine::{self, Strips};
use wemsteky_tests::layer::{Layer, CONV, TCONV};
use wemsteky_tests::parts::ENGINES;
use wemsteky_tests::quick::quick_sums;
use wemsteky_tests::random::Random;
use wemsteky_tests::{count, draw};

/// A square map to one output channel in field 4, no padding, not cropped. A row is one strip: in CONV of a map of 256 by
/// 256, in TCONV of the largest map whose rows are no longer than that.
fn layer(kind: usize, inputs: usize, side: usize, stride: usize) -> Layer {
    let length = if kind == CONV { 256 } else { (257 - 2 * side) / stride + 1 };
    Layer::of([kind, 4, inputs, 1, length, length, side, stride, 0, 100, 0, 0, 0, 0]).uncropped()
}

/// Kinds, then strides; of each the sides with one map channel, then some with four.
fn layers() -> Vec<Layer> {
    let mut layers = Vec::new();
    for (kind, stride) in [CONV, TCONV].into_iter().flat_map(|kind| [1, 2, 4].map(move |stride| (kind, stride))) {
        layers.extend([3, 7, 11].map(|side| layer(kind, 1, side, stride)));
        layers.extend([3, 11].map(|side| layer(kind, 4, side, stride)));
    }
    layers
}

/// Runs a layer, always the same, so many times.
fn run(engine: Engine, layer: Layer, runs: usize) {
    let mut random = Random::new("strip counts", 0);
    let call = draw::call(&mut random, engine, layer);
    let mut buffers = draw::buffers(&mut random, &call);
    for _ in 0..runs {
        let (output, scratch) = (buffers.output.lend(call.output_length), buffers.scratch.lend(call.scratch_length));
        let answer = engine.run(&layer.numbers(), &call.map, &call.kernel, output, scratch);
        assert_eq!((answer.number, answer.done), (0, 1), "{layer:?}");
    }
}

/// Computes the direct sums of the same layer, so many times.
fn add_up(layer: Layer, runs: usize) {
    let call = draw::call(&mut Random::new("strip counts", 0), Strips, layer);
    let (mut output, mut work) = (vec![0; call.output_length], Vec::new());
    (0..runs).for_each(|_| quick_sums(&layer, &call.map, &call.kernel, &mut output, &mut work));
}

/// The number of the direct sums, after those of the engines.
const DIRECT: usize = ENGINES.len();

/// Instructions of one run by an engine or of the direct sums once.
fn counted(engine: usize, number: usize) -> Option<f64> {
    let some = |runs: usize| count::instructions(&[engine, number, runs].map(|word| word.to_string()));
    Some(some(2)? - some(1)?)
}

/// The table's columns: title and width.
const COLUMNS: [(&str, usize); 11] = [
    ("kind", 5),
    ("K", 2),
    ("S", 2),
    ("C", 2),
    ("H×W", 7),
    ("strips", 6),
    ("by strip", 9),
    ("by output", 9),
    ("by output, tiles", 16),
    ("by output, direct sums", 22),
    ("strips / tiles", 14),
];

fn line(words: [String; 11]) -> String {
    let padded = words.iter().zip(COLUMNS).map(|(word, (_, width))| format!("{word:>width$}"));
    format!("| {} |", padded.collect::<Vec<_>>().join(" | "))
}

fn measured(number: usize, layer: Layer) -> String {
    let [tiles, strips, direct] = [0, 1, DIRECT].map(|engine| counted(engine, number).unwrap_or(f64::NAN));
    let (total, outputs) = (Strips.total(&layer), layer.output_length() as f64);
    line([
        if layer.kind == CONV { "CONV" } else { "TCONV" }.to_string(),
        layer.side.to_string(),
        layer.stride.to_string(),
        layer.inputs.to_string(),
        format!("{}×{}", layer.height, layer.width),
        total.to_string(),
        format!("{:.0}", strips / total as f64),
        format!("{:.0}", strips / outputs),
        format!("{:.0}", tiles / outputs),
        format!("{:.0}", direct / outputs),
        format!("{:.2}", strips / tiles),
    ])
}

fn main() {
    let arguments: Vec<usize> = std::env::args().skip(1).filter_map(|word| word.parse().ok()).collect();
    match arguments[..] {
        [DIRECT, number, runs] => add_up(layers()[number], runs),
        [engine, number, runs] => run(ENGINES[engine], layers()[number], runs),
        _ => {
            println!("{}", line(COLUMNS.map(|(title, _)| title.to_string())));
            println!("{}", line(COLUMNS.map(|(_, width)| "-".repeat(width - 1) + ":")));
            layers().into_iter().enumerate().for_each(|(number, layer)| println!("{}", measured(number, layer)));
        }
    }
}
