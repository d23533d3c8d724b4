//! The two product sums of paired layers: after two lists of calls whose budgets reach their totals, the sum of CONV's
//! outputs times TCONV's map equals the sum of CONV's map times TCONV's outputs.

use wemsteky_tests::call::Call;
use wemsteky_tests::damage::breakable;
use wemsteky_tests::engine::Engine::{self, Strips, Tiles};
use wemsteky_tests::layer::{Layer, CONV, TCONV};
use wemsteky_tests::list::List;
use wemsteky_tests::random::{seed, Random};
use wemsteky_tests::rules::{formerly_refused, load, load_limit};
use wemsteky_tests::{checked, draw};

/// An engine and a field for each layer of a pair: CONV, then TCONV.
type Engines = [(Engine, usize); 2];

/// A CONV layer and the TCONV layer that takes its output's shape and adds what the stride leaves, both not cropped.
/// Some are wide, so that rows are of several strips.
fn paired_layers(random: &mut Random, fields: [usize; 2]) -> [Layer; 2] {
    let (side, stride) = (random.between(1, 11), random.between(1, 4));
    let (tallest, widest) = if random.once_in(8) { (6, 496 / stride) } else { (40, 40) };
    let mut tconv = Layer {
        kind: TCONV,
        field: fields[1],
        inputs: random.between(1, 3),
        outputs: random.between(1, 3),
        height: random.between(1, tallest),
        width: random.between(1, widest),
        side,
        stride,
        padding: random.below(side),
        peak: 1,
        ..Layer::default()
    };
    (tconv.below, tconv.beside) = (random.below(tconv.stride), random.below(tconv.stride));
    draw::lengthen(&mut tconv);
    let tconv = tconv.uncropped();
    let conv = Layer {
        kind: CONV,
        field: fields[0],
        inputs: tconv.outputs,
        outputs: tconv.inputs,
        height: tconv.rows,
        width: tconv.columns,
        below: 0,
        beside: 0,
        ..tconv
    };
    let conv = conv.uncropped();
    assert_eq!((conv.rows, conv.columns), (tconv.height, tconv.width), "{conv:?}");
    let left = |length: usize| (length + 2 * conv.padding - conv.side) % conv.stride;
    assert_eq!((left(conv.height), left(conv.width)), (tconv.below, tconv.beside), "{conv:?}");
    [conv, tconv]
}

/// Paired layers on which a refused call can break any rule.
fn breakable_pair(random: &mut Random, fields: [usize; 2]) -> [Layer; 2] {
    loop {
        let pair = paired_layers(random, fields);
        if pair.iter().all(breakable) {
            return pair;
        }
    }
}

/// A kernel that both layers accept with some peak. A weight of 1 or -1 more in each plane leaves it so.
fn shared_kernel(random: &mut Random, conv: &Layer, tconv: &Layer) -> Vec<i16> {
    let limit = load_limit(conv.field).min(load_limit(tconv.field)) as usize;
    let most = (limit / conv.outputs - conv.inputs) / random.pick(&[1, 10, 100, 1_000]);
    let mut kernel = vec![0; conv.kernel_length() as usize];
    for channel in 0..conv.outputs {
        let weights = draw::weights(random, conv.inputs * conv.side * conv.side, most);
        draw::set_channel(conv, &mut kernel, channel, &weights);
    }
    draw::reach_channels(random, conv, &mut kernel);
    draw::reach_channels(random, tconv, &mut kernel);
    kernel
}

/// The layer with the shared kernel, a peak as high as its loads allow or lower, and a map of its own.
fn draw_call(random: &mut Random, engine: Engine, layer: Layer, kernel: &[i16]) -> Call {
    let mut call = draw::call(random, engine, layer);
    call.kernel = kernel.to_vec();
    let greatest = (0..layer.outputs).map(|channel| load(&call, channel)).max().unwrap();
    let highest = (load_limit(layer.field) / greatest.max(1)).min(32_767) as usize;
    call.layer.peak = if random.once_in(3) { random.between(1, highest) } else { highest };
    call.map = draw::map(random, &call.layer);
    call
}

/// The outputs after a list of calls in drawn budgets, refused ones among them, or after a whole run.
fn outputs(random: &mut Random, call: &Call) -> Vec<i32> {
    let mut list = List::new(random, call.clone());
    if random.once_in(4) {
        assert_eq!(checked::run(call, &mut list.buffers, None).done, 1, "{:?}", call.layer);
    } else {
        list.finish(random, None);
    }
    list.buffers.output.words().to_vec()
}

fn product_sum(outputs: &[i32], map: &[i16]) -> i128 {
    assert_eq!(outputs.len(), map.len());
    outputs.iter().zip(map).map(|(&output, &value)| i128::from(output) * i128::from(value)).sum()
}

/// The sum on both sides; whether the transposed call is one that only its groups' loads let in, whether it adds rows or
/// columns, and whether its rows are of several parts.
struct Agreed {
    sum: i128,
    by_groups: bool,
    adds: bool,
    several: bool,
}

fn agreed_sum(random: &mut Random, engines: Engines) -> Agreed {
    let [conv, tconv] = breakable_pair(random, engines.map(|(_, field)| field));
    let kernel = shared_kernel(random, &conv, &tconv);
    let conv = draw_call(random, engines[0].0, conv, &kernel);
    let tconv = draw_call(random, engines[1].0, tconv, &kernel);
    let (u, v) = (outputs(random, &conv), outputs(random, &tconv));
    let (sum, other) = (product_sum(&u, &tconv.map), product_sum(&v, &conv.map));
    assert_eq!(sum, other, "{:?} by {:?} and {:?} by {:?}", conv.layer, conv.engine, tconv.layer, tconv.engine);
    Agreed {
        sum,
        by_groups: formerly_refused(&tconv),
        adds: tconv.layer.below + tconv.layer.beside > 0,
        several: tconv.engine.parts_across(&tconv.layer) > 1,
    }
}

/// So many pairs, for which the engines take turns.
fn sums_agree(test: &'static str, pairs: usize, engines: &[Engines]) {
    let agreed = |trial: usize| agreed_sum(&mut Random::new(test, trial), engines[trial % engines.len()]);
    let sums: Vec<_> = (0..pairs).map(agreed).collect();
    let count = |holds: fn(&Agreed) -> bool| sums.iter().filter(|&agreed| holds(agreed)).count();
    let not_zero = count(|agreed| agreed.sum != 0);
    assert!(not_zero > pairs / 2, "{not_zero} sums are not 0, seed {}", seed());
    let adds = count(|agreed| agreed.adds);
    assert!(adds > pairs / 4 && adds < pairs, "{adds} strides leave something, seed {}", seed());
    let by_groups = count(|agreed| agreed.by_groups);
    assert!(by_groups > pairs / 10, "{by_groups} kernels are let in by their groups, seed {}", seed());
    let several = count(|agreed| agreed.several);
    assert!(several > pairs / 60, "rows of {several} pairs are of several parts, seed {}", seed());
}

#[test]
fn sums_agree_in_one_field() {
    sums_agree("products, one field", 1_000, &[[(Tiles, 4), (Tiles, 4)], [(Tiles, 5), (Tiles, 5)]]);
}

#[test]
fn sums_agree_across_the_fields() {
    sums_agree("products, across the fields", 1_000, &[[(Tiles, 4), (Tiles, 5)], [(Tiles, 5), (Tiles, 4)]]);
}

#[test]
fn sums_agree_by_strips() {
    sums_agree("products, strips", 300, &[[(Strips, 4), (Strips, 4)]]);
}

/// Each list keeps to the engine that it began in.
#[test]
fn sums_agree_across_the_engines() {
    let one_field = [[(Tiles, 4), (Strips, 4)], [(Strips, 4), (Tiles, 4)]];
    let two_fields = [[(Tiles, 5), (Strips, 4)], [(Strips, 4), (Tiles, 5)]];
    sums_agree("products, across the engines", 300, &[one_field, two_fields].concat());
}
