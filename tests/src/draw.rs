//! Layers, maps, kernels and buffers, drawn so that every rule accepts them.

use crate::call::{Buffer, Buffers, Call};
use crate::engine::Engine;
use crate::groups::{groups, set_group};
use crate::layer::{Layer, CONV};
use crate::random::Random;
use crate::rules::{is_blank, load_limit};

/// A layer of which kind, field, K, S and P are given; channels, map, peak, crop and what is added are drawn.
pub fn layer(random: &mut Random, given: Layer, most_channels: usize, longest: usize) -> Layer {
    let mut layer = Layer {
        inputs: random.between(1, most_channels),
        outputs: random.between(1, most_channels),
        height: length(random, longest),
        width: length(random, longest),
        peak: peak(random),
        below: added(random, &given),
        beside: added(random, &given),
        ..given
    };
    lengthen(&mut layer);
    let (top, rows) = part(random, layer.full_rows() as usize);
    let (left, columns) = part(random, layer.full_columns() as usize);
    Layer { top, left, rows, columns, ..layer }
}

/// A layer of a kind and field with any window; channels, map, peak, crop and what is added are drawn.
pub fn any_layer(random: &mut Random, kind: usize, field: usize, most_channels: usize, longest: usize) -> Layer {
    let side = random.between(1, 11);
    let (stride, padding) = (random.between(1, 4), random.below(side));
    layer(random, Layer { kind, field, side, stride, padding, ..Layer::default() }, most_channels, longest)
}

/// Rows or columns to add: none in CONV.
pub(crate) fn added(random: &mut Random, layer: &Layer) -> usize {
    if layer.kind == CONV || random.once_in(2) {
        0
    } else {
        random.below(layer.stride)
    }
}

/// Mostly short.
fn length(random: &mut Random, longest: usize) -> usize {
    let most = random.pick(&[3, 12, 40, longest]).min(longest);
    random.between(1, most)
}

/// Adds rows and columns to the map until the full output has a row and a column.
pub fn lengthen(layer: &mut Layer) {
    while layer.full_rows() < 1 {
        layer.height += 1;
    }
    while layer.full_columns() < 1 {
        layer.width += 1;
    }
}

pub(crate) fn peak(random: &mut Random) -> usize {
    match random.below(5) {
        0 => 1,
        1 => 32_767,
        2 => 1 << random.below(15),
        3 => random.between(1, 100),
        _ => random.between(1, 32_767),
    }
}

/// The first place kept of a full output and how many: all, any part, the first or the last one.
pub(crate) fn part(random: &mut Random, full: usize) -> (usize, usize) {
    match random.below(8) {
        0..=3 => (0, full),
        4 => (0, 1),
        5 => (full - 1, 1),
        _ => {
            let first = random.below(full);
            (first, random.between(1, full - first))
        }
    }
}

/// Map values within the peak: constant at it, at it with any sign, few that are not 0, or any.
pub fn map(random: &mut Random, layer: &Layer) -> Vec<i16> {
    let peak = layer.peak as i16;
    let style = random.below(6);
    let mut value = || match style {
        0 => peak,
        1 => -peak,
        2 => random.pick(&[peak, -peak]),
        3 => random.pick(&[0, 0, 0, 0, 0, peak, -peak]),
        _ => (random.between(0, 2 * layer.peak) as i32 - layer.peak as i32) as i16,
    };
    (0..layer.map_length()).map(|_| value()).collect()
}

/// A kernel of which no output channel is blank and every load is within the limit, most groups as near to it as whole
/// weights come.
pub fn kernel(random: &mut Random, layer: &Layer) -> Vec<i16> {
    let most = load_limit(layer.field) as usize / layer.peak;
    let groups = groups(layer);
    let mut kernel = vec![0; layer.kernel_length() as usize];
    for channel in 0..layer.outputs {
        for group in &groups {
            let total = match random.below(4) {
                0 => random.between(0, most),
                1 => random.between(0, most.min(100)),
                _ => most,
            };
            set_group(layer, &mut kernel, channel, group, &weights(random, group.len(), total));
        }
    }
    reach_channels(random, layer, &mut kernel);
    kernel
}

/// Puts a weight of 1 or -1 at any place of each blank channel.
pub fn reach_channels(random: &mut Random, layer: &Layer, kernel: &mut [i16]) {
    for channel in 0..layer.outputs {
        if is_blank(layer, kernel, channel) {
            let place = random.below(layer.inputs * layer.side * layer.side);
            set_group(layer, kernel, channel, &[place], &[random.pick(&[1, -1])]);
        }
    }
}

/// Makes an output channel blank.
pub fn blank_channel(layer: &Layer, kernel: &mut [i16], channel: usize) {
    set_channel(layer, kernel, channel, &vec![0; layer.inputs * layer.side * layer.side]);
}

/// Weights of which the sizes add up to the total, or to as much as so many weights hold; of one sign or of any.
pub fn weights(random: &mut Random, count: usize, total: usize) -> Vec<i16> {
    let signs = random.pick(&[[1, 1], [-1, -1], [1, -1], [1, -1]]);
    let even = random.once_in(2);
    let mut weights = vec![0; count];
    let mut left = total;
    for (place, weight) in weights.iter_mut().enumerate() {
        let most = if even { 2 * left / (count - place) + 1 } else { left };
        let size = random.between(0, most.min(left).min(32_767));
        *weight = (random.pick(&signs) * size as i32) as i16;
        left -= size;
    }
    top_up(&mut weights, left);
    for place in 1..count {
        weights.swap(place, random.below(place + 1));
    }
    weights
}

/// Adds so much to the sizes of weights, from the first on, each as far as 16 bits go. A 0 counts as negative.
pub fn top_up(weights: &mut [i16], mut left: usize) {
    for weight in weights {
        let (sign, most) = if *weight > 0 { (1, 32_767) } else { (-1, 32_768) };
        let size = i32::from(weight.unsigned_abs());
        let more = left.min((most - size) as usize);
        *weight = (sign * (size + more as i32)) as i16;
        left -= more;
    }
}

/// Puts the weights that reach an output channel, map channel after map channel, into their places.
pub fn set_channel(layer: &Layer, kernel: &mut [i16], channel: usize, weights: &[i16]) {
    let square = layer.side * layer.side;
    for (input, plane) in weights.chunks(square).enumerate() {
        kernel[layer.plane(channel, input)..][..square].copy_from_slice(plane);
    }
}

/// A whole run of a layer by an engine, with a drawn map and kernel and a little more scratch than it asks for.
pub fn call(random: &mut Random, engine: Engine, layer: Layer) -> Call {
    Call {
        engine,
        layer,
        next: 0,
        budget: engine.total(&layer),
        map: map(random, &layer),
        kernel: kernel(random, &layer),
        output_length: layer.output_length() as usize,
        scratch_length: engine.scratch_words(&layer) + random.below(20),
    }
}

/// Buffers of the lengths that a call lends, of any words.
pub fn buffers(random: &mut Random, call: &Call) -> Buffers {
    Buffers {
        output: Buffer::of(call.output_length, || random.word() as i32),
        scratch: scratch(random, call.scratch_length),
    }
}

pub fn scratch(random: &mut Random, length: usize) -> Buffer<u64> {
    Buffer::of(length, || random.word())
}
