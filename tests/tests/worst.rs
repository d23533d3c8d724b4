//! The map to show for a range refusal: the map and the answer against a search of windows one by one, the output that it
//! drives against direct sums, no output larger, and every map of tiny layers.

use wemsteky_tests::call::{Buffer, Call};
use wemsteky_tests::checked;
use wemsteky_tests::damage::{breakable_layer, damages, Damage};
use wemsteky_tests::direct::direct_sums;
use wemsteky_tests::draw::{self, blank_channel, set_channel};
use wemsteky_tests::engine::{self, Engine};
use wemsteky_tests::layer::{Layer, CONV, TCONV};
use wemsteky_tests::random::Random;
use wemsteky_tests::rules::{load_limit, place};
use wemsteky_tests::worst::{first_whole, greatest_load, number, worst_map};

/// Makes a call with a map of the call's length, and holds its answer, the map, the guard values around it and the kernel.
/// Returns the answer and the map.
fn hold(random: &mut Random, call: &Call) -> (usize, Vec<i16>) {
    let room = call.map.len();
    let mut map = Buffer::of(room, || random.word() as i16);
    let (mut expected, kernel) = (map.clone(), call.kernel.clone());
    let answer = engine::worst_map(&call.layer.numbers(), &call.kernel, map.lend(room));
    assert_eq!(answer, number(call), "{:?}", call.layer);
    if answer == 0 {
        expected.lend(room).copy_from_slice(&worst_map(call).0);
    }
    if let Some((place, found, expected)) = map.difference(&expected) {
        panic!("value {place} is {found}, not {expected}: {:?}", call.layer);
    }
    assert!(call.kernel == kernel, "kernel changed: {:?}", call.layer);
    (answer, map.words().to_vec())
}

/// Holds the map, and by direct sums that its output is the greatest load and that none is larger; then runs it: the answer
/// is 16 where that load is above the limit, and else the engine's outputs are the sums. Returns the greatest load.
fn shown(random: &mut Random, call: &Call) -> u128 {
    let (answer, map) = hold(random, call);
    assert_eq!(answer, 0, "{:?}", call.layer);
    let load = greatest_load(call).1;
    let run = Call { map, kernel: call.kernel.clone(), ..draw::call(random, Engine::Tiles, call.layer) };
    let sums = if load > load_limit(call.layer.field) {
        let mut buffers = draw::buffers(random, &run);
        assert_eq!(checked::run(&run, &mut buffers, None).number, 16, "{:?}", call.layer);
        direct_sums(&call.layer, &run.map, &call.kernel)
    } else {
        checked::whole_run(random, &run)
    };
    assert_eq!(sums[worst_map(call).1] as i128, load as i128, "{:?}", call.layer);
    assert!(sums.iter().all(|sum| u128::from(sum.unsigned_abs()) <= load), "{:?}", call.layer);
    load
}

/// A CONV layer of which some window lies whole inside the map.
fn windowed_layer(random: &mut Random, field: usize, most_channels: usize, longest: usize) -> Layer {
    loop {
        let layer = draw::any_layer(random, CONV, field, most_channels, longest);
        if first_whole(&layer).is_some() {
            return layer;
        }
    }
}

/// A kernel with weights of any size and sign, most of 0 in some; no channel is blank.
fn any_kernel(random: &mut Random, layer: &Layer) -> Vec<i16> {
    let few = random.once_in(2);
    let mut weight = || match random.below(8) {
        0 => i16::MIN,
        1 => i16::MAX,
        _ if few => 0,
        _ => random.word() as i16,
    };
    let mut kernel: Vec<i16> = (0..layer.kernel_length()).map(|_| weight()).collect();
    draw::reach_channels(random, layer, &mut kernel);
    kernel
}

/// Drawn layers of one to four map channels, every stride, padding and crop: kernels within the limit, most of them at it,
/// and kernels of any weights.
fn drawn_layers(test: &'static str, field: usize) {
    let mut refused = 0;
    for trial in 0..600 {
        let mut random = Random::new(test, trial);
        let layer = windowed_layer(&mut random, field, 4, 30);
        let mut call = draw::call(&mut random, Engine::Tiles, layer);
        assert!(shown(&mut random, &call) <= load_limit(field), "{layer:?}");
        call.kernel = any_kernel(&mut random, &layer);
        refused += usize::from(shown(&mut random, &call) > load_limit(field));
    }
    assert!(refused > 100, "{refused} refused by 16");
}

#[test]
fn drawn_layers_in_field_4() {
    drawn_layers("worst, drawn in field 4", 4);
}

#[test]
fn drawn_layers_in_field_5() {
    drawn_layers("worst, drawn in field 5", 5);
}

/// Every side up to 4, stride, padding, height up to 7 and crop of the rows, the columns of one shape; and the same with
/// rows and columns changed for each other. So windows half outside, at both borders and in no row at all.
#[test]
fn every_small_window() {
    let (mut random, mut whole, mut none) = (Random::new("worst, windows", 0), 0, 0);
    for (side, stride) in (1..=4).flat_map(|side| (1..=4).map(move |stride| (side, stride))) {
        for (padding, height) in (0..side).flat_map(|padding| (1..=7).map(move |height| (padding, height))) {
            let (inputs, outputs) = (random.between(1, 2), random.between(1, 2));
            let layer = Layer::of([CONV, 4, inputs, outputs, height, 6, side, stride, padding, 5, 0, 0, 1, 1]);
            for crop in crops(layer.full_rows()) {
                for layer in [cropped(layer, crop), turned(cropped(layer, crop))] {
                    let call =
                        Call { kernel: any_kernel(&mut random, &layer), map: zeros(&layer), layer, ..Call::default() };
                    if first_whole(&layer).is_some() {
                        shown(&mut random, &call);
                        whole += 1;
                    } else {
                        assert_eq!(hold(&mut random, &call).0, 29, "{layer:?}");
                        none += 1;
                    }
                }
            }
        }
    }
    assert!(whole > 500 && none > 500, "{whole} whole, {none} none");
}

/// Every part of so many rows; none where there is no row.
fn crops(full: i128) -> Vec<(usize, usize)> {
    (0..full).flat_map(|top| (1..=full - top).map(move |rows| (top as usize, rows as usize))).collect()
}

fn cropped(layer: Layer, (top, rows): (usize, usize)) -> Layer {
    let uncropped = layer.uncropped();
    Layer { top, rows, ..uncropped }
}

/// Rows and columns changed for each other.
fn turned(layer: Layer) -> Layer {
    Layer {
        height: layer.width,
        width: layer.height,
        top: layer.left,
        left: layer.top,
        rows: layer.columns,
        columns: layer.rows,
        ..layer
    }
}

fn zeros(layer: &Layer) -> Vec<i16> {
    vec![0; layer.map_length() as usize]
}

/// Channels with the greatest load in weights of their own, the first of them at any place, others between them.
#[test]
fn ties_between_channels() {
    for trial in 0..300 {
        let mut random = Random::new("worst, ties", trial);
        let layer = Layer { outputs: random.between(1, 6), ..windowed_layer(&mut random, 4 + trial % 2, 4, 12) };
        let mut call = draw::call(&mut random, Engine::Tiles, layer);
        let (first, most) = (random.below(layer.outputs), random.between(2, 500));
        for channel in 0..layer.outputs {
            let tied = channel == first || channel > first && random.once_in(2);
            let total = if tied { most } else { random.between(1, most - 1) };
            let weights = draw::weights(&mut random, layer.inputs * layer.side * layer.side, total);
            set_channel(&layer, &mut call.kernel, channel, &weights);
        }
        assert_eq!(shown(&mut random, &call), (layer.peak * most) as u128, "{layer:?}");
        assert_eq!(greatest_load(&call).0, first, "{layer:?}");
    }
}

/// The greatest load within the limit and the least one above it, by one weight: the map's output is that load.
#[test]
fn at_the_limit_and_one_above() {
    for (field, peak, kernel, above) in [
        (4, 1, [32_767, 0, -1], [32_767, 0, -2]),
        (4, 1, [0, -32_768, 0], [1, -32_768, 0]),
        (4, 2, [0, 0, -16_384], [0, 1, -16_384]),
        (4, 32_767, [0, 1, 0], [-1, 1, 0]),
        (5, 32_767, [-32_768, -3, 32_767], [-32_768, -4, 32_767]),
        (5, 32_767, [2, -32_768, -32_768], [3, -32_768, -32_768]),
    ] {
        let mut random = Random::new("worst, limit", peak);
        let layer = Layer::of([CONV, field, 3, 1, 3, 4, 1, 1, 0, peak, 1, 1, 2, 3]);
        let call = Call { kernel: kernel.to_vec(), ..draw::call(&mut random, Engine::Tiles, layer) };
        let load = shown(&mut random, &call);
        let load_above = shown(&mut random, &Call { kernel: above.to_vec(), ..call });
        assert!(load <= load_limit(field) && load_limit(field) < load_above, "{load}, {load_above}");
        assert_eq!(load_above - load, peak as u128);
    }
}

/// On tiny layers, every map within the peak: the largest output of all is the greatest load, so that a run is answered 16
/// exactly where one of these maps has an output above the limit.
#[test]
fn every_map_of_tiny_layers() {
    let (mut within, mut above) = (0, 0);
    for (trial, numbers) in [
        [CONV, 4, 1, 2, 2, 2, 2, 1, 0, 2, 0, 0, 1, 1],
        [CONV, 4, 1, 2, 2, 3, 2, 1, 1, 1, 0, 0, 3, 4],
        [CONV, 5, 2, 1, 2, 2, 2, 2, 0, 1, 0, 0, 1, 1],
        [CONV, 4, 1, 3, 3, 2, 1, 2, 0, 1, 0, 0, 2, 1],
        [CONV, 4, 3, 2, 1, 2, 1, 1, 0, 2, 0, 1, 1, 1],
    ]
    .into_iter()
    .enumerate()
    {
        let mut random = Random::new("worst, every map", trial);
        let layer = Layer::of(numbers);
        let least = vec![i16::MIN; layer.kernel_length() as usize];
        for kernel in [draw::kernel(&mut random, &layer), least, any_kernel(&mut random, &layer)] {
            let call = Call { kernel, ..draw::call(&mut random, Engine::Tiles, layer) };
            let sums = every_map(&layer).flat_map(|map| direct_sums(&layer, &map, &call.kernel));
            let largest = sums.map(|sum| u128::from(sum.unsigned_abs())).max().unwrap();
            assert_eq!(largest, shown(&mut random, &call), "{layer:?}");
            *(if largest > load_limit(layer.field) { &mut above } else { &mut within }) += 1;
        }
    }
    assert!(within >= 5 && above >= 3, "{within} within the limit, {above} above");
}

/// Every map of a layer within its peak.
fn every_map(layer: &Layer) -> impl Iterator<Item = Vec<i16>> {
    let (length, values) = (layer.map_length() as u32, 2 * layer.peak as u64 + 1);
    let peak = layer.peak as i16;
    (0..values.pow(length))
        .map(move |map| (0..length).map(|place| (map / values.pow(place) % values) as i16 - peak).collect())
}

/// The rules that `worst_map` checks.
const CHECKED: [usize; 14] = [1, 2, 3, 4, 5, 6, 7, 23, 8, 9, 10, 11, 14, 24];

/// The damages of these rules, and of 16, which is not checked. The other rules of a call are of what `worst_map` is not
/// lent: an output, scratch, map values and an index.
fn lent_damages() -> Vec<Damage> {
    damages(Engine::Tiles).into_iter().filter(|damage| CHECKED.contains(&damage.rule) || damage.rule == 16).collect()
}

/// Each damage alone and two at a time: the number of the first rule checked, and 29 where none is broken and the layer
/// is TCONV or has no whole window. A load above the limit counts for nothing.
#[test]
fn damaged_calls() {
    let damages = lent_damages();
    for trial in 0..12 {
        let mut random = Random::new("worst, damages", trial);
        let call = sound(&mut random, trial);
        let last = hold(&mut random, &call).0;
        for later in &damages {
            let mut damaged = call.clone();
            later.apply(&mut damaged);
            let answer = hold(&mut random, &damaged).0;
            assert_eq!(answer, if later.rule == 16 { last } else { later.rule }, "{}", later.name);
            for earlier in damages.iter().filter(|earlier| place(earlier.rule) < place(later.rule)) {
                let mut damaged = damaged.clone();
                earlier.apply(&mut damaged);
                assert_eq!(hold(&mut random, &damaged).0, earlier.rule, "{}, {}", earlier.name, later.name);
            }
        }
    }
    assert!(CHECKED.iter().all(|&rule| damages.iter().any(|damage| damage.rule == rule)));
}

/// A call that every rule of a run accepts: of a CONV layer with a whole window, of one without, or of a TCONV layer.
fn sound(random: &mut Random, trial: usize) -> Call {
    let kind = if trial % 3 == 2 { TCONV } else { CONV };
    loop {
        let layer = breakable_layer(random, kind, 4 + trial % 2, 3, 12);
        if kind == TCONV || first_whole(&layer).is_some() == (trial % 3 == 0) {
            return draw::call(random, Engine::Tiles, layer);
        }
    }
}

/// Several damages at once, up to six, each of another rule; later rules are damaged first.
#[test]
fn several_damages_at_once() {
    let damages = lent_damages();
    for trial in 0..3_000 {
        let mut random = Random::new("worst, several damages", trial);
        let mut call = sound(&mut random, trial);
        let mut chosen: Vec<_> = (0..random.between(3, 6)).map(|_| &damages[random.below(damages.len())]).collect();
        chosen.sort_by_key(|damage| std::cmp::Reverse(place(damage.rule)));
        chosen.dedup_by_key(|damage| place(damage.rule));
        chosen.iter().for_each(|damage| damage.apply(&mut call));
        hold(&mut random, &call);
    }
}

/// 24 comes before 29: a blank channel in a TCONV layer and in one without a whole window.
#[test]
fn blank_channel_before_no_window() {
    for trial in 0..60 {
        let mut random = Random::new("worst, blank", trial);
        let mut call = sound(&mut random, 1 + trial % 2);
        assert_eq!(hold(&mut random, &call).0, 29, "{:?}", call.layer);
        let channel = random.below(call.layer.outputs);
        blank_channel(&call.layer, &mut call.kernel, channel);
        assert_eq!(hold(&mut random, &call).0, 24, "{:?}", call.layer);
    }
}

/// The most channels, the largest map and the largest kernel, every weight -32,768 under the largest peak: the load is
/// 64 times 121 times 32,768 times 32,767. Then crops of the last whole window, of the one after it, and of rows before the
/// first.
#[test]
fn largest_layer() {
    let mut random = Random::new("worst, largest", 0);
    let layer = Layer::of([CONV, 5, 64, 64, 512, 512, 11, 4, 10, 32_767, 0, 0, 1, 1]);
    let full = layer.uncropped();
    let call = Call {
        kernel: vec![i16::MIN; layer.kernel_length() as usize],
        map: zeros(&layer),
        layer: full,
        ..Call::default()
    };
    let (answer, map) = hold(&mut random, &call);
    assert_eq!((answer, first_whole(&full)), (0, Some((3, 3))));
    let one = Layer { top: 3, left: 3, ..layer };
    let sums = direct_sums(&one, &map, &call.kernel);
    assert!(sums.iter().all(|&sum| sum == 64 * 121 * 32_768 * 32_767));
    let last = Layer { top: 127, left: 127, ..layer };
    assert_eq!(hold(&mut random, &Call { layer: last, ..call.clone() }).0, 0);
    for none in [Layer { top: 128, ..last }, Layer { left: 128, ..last }, Layer { rows: 3, ..full }] {
        assert_eq!(hold(&mut random, &Call { layer: none, ..call.clone() }).0, 29, "{none:?}");
    }
}
