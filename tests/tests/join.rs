//! Two filters joined: the kernel against products added place by place, the engine on the joined kernel against the
//! direct sums of one layer over the other, every answer, and weights at both ends of 16 bits and one beyond.

use wemsteky_tests::call::{Buffer, Call};
use wemsteky_tests::direct::direct_sums;
use wemsteky_tests::engine::{self, Engine};
use wemsteky_tests::join::{joined_layer, joined_weights, number, Filter};
use wemsteky_tests::layer::{Layer, CONV};
use wemsteky_tests::random::{seed, Random};
use wemsteky_tests::rules::{is_blank, load_limit};
use wemsteky_tests::{checked, draw};

/// Makes a call whose buffer for the joined kernel has `room` places, holds everything that it returns and leaves, and
/// returns its answer and the kernel.
fn hold(first: Filter, second: Filter, room: usize) -> (usize, Vec<i16>) {
    let mut joined = Buffer::of(room, || -12_345i16);
    let mut expected = joined.clone();
    let given = (first.1.to_vec(), second.1.to_vec());
    let name = format!("{:?}, {:?}, room {room}", first.0, second.0);
    let answer = engine::join((&first.0.numbers(), first.1), (&second.0.numbers(), second.1), joined.lend(room));
    assert_eq!(answer, number(first, second, room), "{name}");
    if answer == 0 {
        let weights = joined_weights(first, second);
        expected.lend(room).iter_mut().zip(weights).for_each(|(place, weight)| *place = weight as i16);
    }
    if let Some((place, found, expected)) = joined.difference(&expected) {
        panic!("weight {place} is {found}, not {expected}: {name}");
    }
    assert!(first.1 == given.0 && second.1 == given.1, "kernel changed: {name}");
    (answer, joined.words().to_vec())
}

fn filter(inputs: usize, outputs: usize, side: usize) -> Layer {
    Layer { kind: CONV, field: 5, inputs, outputs, side, stride: 1, peak: 1, ..Layer::default() }
}

fn room(first: &Layer, second: &Layer) -> usize {
    joined_layer(first, second).kernel_length() as usize
}

/// Two sides of which the joined one is at most 11.
fn sides(random: &mut Random) -> (usize, usize) {
    let joined = random.between(1, 11);
    let first = random.between(1, joined);
    (first, joined + 1 - first)
}

/// A kernel of which the sizes of the weights that reach an output channel add up to the total, or as near as they come.
fn kernel(random: &mut Random, layer: &Layer, total: usize) -> Vec<i16> {
    let mut kernel = vec![0; layer.kernel_length() as usize];
    for channel in 0..layer.outputs {
        let weights = draw::weights(random, layer.inputs * layer.side * layer.side, total);
        draw::set_channel(layer, &mut kernel, channel, &weights);
    }
    kernel
}

/// Two layers, the second with the first one's full output as its map, neither cropped.
fn following_layers(random: &mut Random) -> (Layer, Layer) {
    let (side, other) = sides(random);
    let first = Layer {
        field: random.between(4, 5),
        height: random.between(side + other - 1, 50),
        width: random.between(side + other - 1, 50),
        peak: random.pick(&[1, 2, 100, 255, 32_767]),
        ..filter(random.between(1, 4), random.between(1, 4), side)
    };
    let first = first.uncropped();
    let second = Layer { inputs: first.outputs, outputs: random.between(1, 4), side: other, ..first };
    let second = Layer { height: first.rows, width: first.columns, ..second };
    (first, second.uncropped())
}

#[test]
fn the_engine_on_the_joined_kernel_does_what_both_layers_do() {
    let mut accepted = 0;
    for trial in 0..1_500 {
        let mut random = Random::new("join, both ways", trial);
        let (first, second) = following_layers(&mut random);
        // The two totals bound the load of the joined channel, so that the engine accepts it.
        let most = (load_limit(first.field) as usize / first.peak).min(32_767);
        let total = random.between(1, most).min(1 << random.below(16));
        let first_kernel = kernel(&mut random, &first, total);
        let second_kernel = kernel(&mut random, &second, most / total);
        let room = room(&first, &second);
        let (answer, joined) = hold((&first, &first_kernel), (&second, &second_kernel), room);
        assert_eq!(answer, 0, "{first:?}, {second:?}");
        let layer = joined_layer(&first, &second).uncropped();
        let call = Call { kernel: joined, ..draw::call(&mut random, Engine::Tiles, layer) };
        let middle = direct_sums(&first, &call.map, &first_kernel);
        let sums = direct_sums(&second, &middle, &second_kernel);
        let mut buffers = draw::buffers(&mut random, &call);
        // Products over the middle channels may cancel each other, so that a channel is blank.
        let blank = (0..layer.outputs).any(|channel| is_blank(&layer, &call.kernel, channel));
        let expected = if blank { 24 } else { 0 };
        assert_eq!(checked::run(&call, &mut buffers, Some(&sums)).number, expected, "{layer:?}");
        accepted += usize::from(!blank);
    }
    assert!(accepted > 1_400, "{accepted} joined kernels are accepted, seed {}", seed());
}

#[test]
fn drawn_kernels_of_any_weights() {
    let mut answers = [0; 2];
    for trial in 0..3_000 {
        let mut random = Random::new("join, drawn kernels", trial);
        let (side, other) = sides(&mut random);
        let [inputs, middle, outputs] = [0; 3].map(|_: usize| random.between(1, 6));
        let (first, second) = (filter(inputs, middle, side), filter(middle, outputs, other));
        // The products are about as large as 16 bits hold.
        let shift = random.below(16);
        let mut draw = |shift: usize| (random.word() as i16) >> shift;
        let first_kernel: Vec<i16> = (0..first.kernel_length()).map(|_| draw(shift)).collect();
        let second_kernel: Vec<i16> = (0..second.kernel_length()).map(|_| draw(15 - shift)).collect();
        let (answer, _) = hold((&first, &first_kernel), (&second, &second_kernel), room(&first, &second));
        answers[answer / 28] += 1;
    }
    assert!(answers.iter().all(|&count| count > 300), "accepted and refused {answers:?}");
}

#[test]
fn weights_at_the_ends_and_one_beyond() {
    let products: [(i16, i16, usize); 6] =
        [(7, 4_681, 0), (16_384, -2, 0), (-32_768, 1, 0), (16_384, 2, 28), (-32_768, -1, 28), (-3, 10_923, 28)];
    let (first, second) = (filter(2, 2, 2), filter(2, 2, 3));
    for place in 0..16 {
        for more in 0..36 {
            // They meet where the middle channel is the same.
            let meet = place / 8 == more / 9 % 2;
            for (weight, factor, answer) in products {
                let mut kernels = ([0; 16], [0; 36]);
                kernels.0[place] = weight;
                kernels.1[more] = factor;
                let (made, _) = hold((&first, &kernels.0), (&second, &kernels.1), room(&first, &second));
                assert_eq!(made, if meet { answer } else { 0 }, "{weight} at {place}, {factor} at {more}");
            }
        }
    }
}

#[test]
fn sums_at_the_ends_and_one_beyond() {
    // Over 64 middle channels, then over all 36 pairs of places that meet in the middle.
    for (last, sign, answer) in [(511, 1, 0), (512, -1, 0), (512, 1, 28), (513, -1, 28)] {
        let mut weights = [512; 64];
        weights[63] = last;
        assert_eq!(hold((&filter(1, 64, 1), &weights), (&filter(64, 1, 1), &[sign; 64]), 1).0, answer);
    }
    for (last, sign, answer) in [(917, 1, 0), (918, -1, 0), (918, 1, 28), (919, -1, 28)] {
        let mut weights = [910; 36];
        weights[35] = last;
        assert_eq!(hold((&filter(1, 1, 6), &weights), (&filter(1, 1, 6), &[sign; 36]), 121).0, answer);
    }
}

#[test]
fn the_largest_sums() {
    for (side, other) in [(6, 6), (11, 1), (1, 11)] {
        let (first, second) = (filter(2, 64, side), filter(64, 2, other));
        let kernels = [first, second].map(|layer| layer.kernel_length() as usize);
        for weights in [[-32_768, -32_768], [-32_768, 32_767], [32_767, 32_767]] {
            let kernels = [vec![weights[0]; kernels[0]], vec![weights[1]; kernels[1]]];
            let (answer, _) = hold((&first, &kernels[0]), (&second, &kernels[1]), room(&first, &second));
            assert_eq!(answer, 28);
        }
    }
}

/// Numbers that are in no range, in one range, or in a range when cut to 16 or 32 bits.
const NUMBERS: [usize; 16] = [
    0,
    1,
    2,
    3,
    4,
    11,
    12,
    64,
    65,
    (1 << 16) + 1,
    (1 << 32) + 1,
    1 << 32,
    1 << 63,
    (1 << 63) + 1,
    usize::MAX - 1,
    usize::MAX,
];

/// The layer with one of its sixteen numbers replaced, in every way.
fn damaged(layer: Layer) -> impl Iterator<Item = Layer> {
    (0..16).flat_map(move |place| NUMBERS.map(|number| layer.with(place, number)))
}

#[test]
fn every_answer_to_damaged_layers() {
    let mut answers = [0; 29];
    for (side, other) in [(2, 3), (6, 7), (11, 11), (1, 1)] {
        let (first, second) = (filter(2, 3, side), filter(3, 2, other));
        let room = room(&first, &second);
        for weight in [1, 32_767] {
            let kernels = [first, second].map(|layer| vec![weight; layer.kernel_length() as usize]);
            let mut count = |first, second| answers[hold((&first, &kernels[0]), (&second, &kernels[1]), room).0] += 1;
            damaged(first).for_each(|first| count(first, second));
            damaged(second).for_each(|second| count(first, second));
        }
    }
    assert!([0, 26, 27, 28].iter().all(|&answer| answers[answer] > 100), "{answers:?}");
}

#[test]
fn damaged_counts_with_the_lengths_that_they_ask_for() {
    let mut answers = [0; 29];
    for number in [0, 1, 3, 11, 12, 64, 65] {
        for (place, other) in (0..6).flat_map(|place| (place..6).map(move |other| (place, other))) {
            let mut counts = [2; 6];
            counts[place] = number;
            counts[other] = number;
            let [inputs, middle, side, channels, outputs, more] = counts;
            let (first, second) = (filter(inputs, middle, side), filter(channels, outputs, more));
            let kernels = [first, second].map(|layer| vec![1; layer.kernel_length() as usize]);
            let joined_side = (side + more).saturating_sub(1);
            let room = outputs * inputs * joined_side * joined_side;
            answers[hold((&first, &kernels[0]), (&second, &kernels[1]), room).0] += 1;
        }
    }
    assert!([0, 26, 27].iter().all(|&answer| answers[answer] > 5), "{answers:?}");
}

/// Lengths beside the right one, and far from it.
fn damaged_lengths(right: usize) -> [usize; 6] {
    [0, 1, right - 1, right, right + 1, 2 * right]
}

#[test]
fn every_answer_to_damaged_lengths() {
    let mut answers = [0; 29];
    for (side, other, weight) in [(2, 3, 1), (2, 3, 32_767), (6, 7, 1), (6, 7, 32_767)] {
        let (first, second) = (filter(2, 3, side), filter(3, 2, other));
        let right = [first.kernel_length() as usize, second.kernel_length() as usize, room(&first, &second)];
        for damaged in 0..3 {
            for length in damaged_lengths(right[damaged]) {
                let mut lengths = right;
                lengths[damaged] = length;
                let kernels = [vec![weight; lengths[0]], vec![weight; lengths[1]]];
                answers[hold((&first, &kernels[0]), (&second, &kernels[1]), lengths[2]).0] += 1;
            }
        }
    }
    // Of six lengths five are refused; the right one comes once for each buffer.
    assert_eq!([0, 26, 27, 28].map(|answer| answers[answer]), [3, 4 * 3 * 5, 6, 3]);
}
