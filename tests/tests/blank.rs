//! Blank output channels: each channel in turn, one weight at every place of one, planes and groups that are 0 in a channel
//! that is not, and 24 against the rules around it.

use wemsteky_tests::call::Call;
use wemsteky_tests::damage::{breakable_layer, damages};
use wemsteky_tests::draw::{blank_channel, set_channel};
use wemsteky_tests::engine::Engine;
use wemsteky_tests::groups::{channel_weights, groups, set_group};
use wemsteky_tests::kinds::in_turn;
use wemsteky_tests::layer::{Layer, CONV, TCONV};
use wemsteky_tests::parts::ENGINES;
use wemsteky_tests::random::Random;
use wemsteky_tests::rules::is_blank;
use wemsteky_tests::{checked, draw, for_kinds_and_engines};

/// Holds a plan, a run and a job call of no part to the number that they must answer with.
fn answered(random: &mut Random, call: &Call, number: usize) {
    let mut buffers = draw::buffers(random, call);
    let job = Call { budget: 0, ..call.clone() };
    assert_eq!(checked::plan(call.engine, &call.layer), 0, "{:?}", call.layer);
    assert_eq!(checked::job(&job, &mut buffers, None).number, number, "{:?}", call.layer);
    assert_eq!(checked::run(call, &mut buffers, None).number, number, "{:?}", call.layer);
}

/// A call of a drawn layer with so many channels on both sides.
fn drawn(random: &mut Random, (kind, engine, field): (usize, Engine, usize), inputs: usize, outputs: usize) -> Call {
    let layer = draw::any_layer(random, kind, field, 1, 12);
    draw::call(random, engine, Layer { inputs, outputs, ..layer })
}

/// Each channel blank in turn, first, middle and last among them: 24. With its own weights back: accepted.
fn each_channel_in_turn(test: &'static str, kind: usize, engine: Engine, field: usize) {
    for trial in 0..40 {
        let mut random = Random::new(test, trial);
        let (inputs, outputs) = (random.between(1, 4), random.between(1, 6));
        let mut call = drawn(&mut random, (kind, engine, field), inputs, outputs);
        for channel in 0..outputs {
            let weights = channel_weights(&call.layer, &call.kernel, channel);
            blank_channel(&call.layer, &mut call.kernel, channel);
            answered(&mut random, &call, 24);
            set_channel(&call.layer, &mut call.kernel, channel, &weights);
            answered(&mut random, &call, 0);
        }
        call.kernel.fill(0);
        answered(&mut random, &call, 24);
    }
}

for_kinds_and_engines!(each_channel_in_turn, "blank, each channel");

/// A channel with a weight of 1 or -1 at one place, every place in turn, is not blank; the outputs are the direct sums.
#[test]
fn one_weight_at_every_place() {
    for trial in 0..6 {
        let mut random = Random::new("blank, one weight", trial);
        let (kind, engine, field) = in_turn(trial);
        for (inputs, outputs, side, stride) in [(1, 1, 1, 1), (2, 3, 3, 2), (3, 2, 4, 3), (1, 2, 11, 4)] {
            let window = Layer { kind, field, side, stride, padding: random.below(side), ..Layer::default() };
            let layer = Layer { inputs, outputs, ..draw::layer(&mut random, window, 1, 4) };
            let mut call = draw::call(&mut random, engine, layer);
            for channel in 0..outputs {
                for place in 0..inputs * side * side {
                    blank_channel(&layer, &mut call.kernel, channel);
                    let weight = random.pick(&[1, -1]);
                    set_group(&layer, &mut call.kernel, channel, &[place], &[weight]);
                    checked::whole_run(&mut random, &call);
                }
            }
        }
    }
}

/// A channel whose weights lie in one plane, that of any map channel, or in one group, is not blank.
#[test]
fn blank_planes_and_groups_in_a_channel_that_is_not() {
    for trial in 0..120 {
        let mut random = Random::new("blank, planes", trial);
        let (inputs, outputs) = (random.between(2, 4), random.between(1, 3));
        let call = drawn(&mut random, in_turn(trial), inputs, outputs);
        let (layer, square) = (call.layer, call.layer.side * call.layer.side);
        let planes = (0..inputs).map(|input| (input * square..(input + 1) * square).collect());
        for part in planes.chain(groups(&layer)) {
            let channel = random.below(outputs);
            let mut damaged = call.clone();
            blank_channel(&layer, &mut damaged.kernel, channel);
            let place = part[random.below(part.len())];
            set_group(&layer, &mut damaged.kernel, channel, &[place], &[random.pick(&[1, -1])]);
            assert!(!is_blank(&layer, &damaged.kernel, channel));
            checked::whole_run(&mut random, &damaged);
        }
    }
}

/// 15 and 25 come before 24, and 24 before 16 and 17, whichever channel is blank and whichever is damaged.
#[test]
fn in_order() {
    for trial in 0..90 {
        let mut random = Random::new("blank, order", trial);
        let (kind, engine, field) = in_turn(trial);
        let layer = breakable_layer(&mut random, kind, field, 4, 12);
        let call = draw::call(&mut random, engine, Layer { outputs: layer.outputs.max(2), ..layer });
        for blank in 0..call.layer.outputs {
            for damage in damages(engine).iter().filter(|damage| [15, 25, 16, 17].contains(&damage.rule)) {
                let mut damaged = call.clone();
                damage.apply(&mut damaged);
                blank_channel(&damaged.layer, &mut damaged.kernel, blank);
                let number = if [15, 25].contains(&damage.rule) { damage.rule } else { 24 };
                let mut buffers = draw::buffers(&mut random, &damaged);
                assert_eq!(checked::job(&damaged, &mut buffers, None).number, number, "{}", damage.name);
            }
        }
    }
}

/// The most channels and the largest kernel: the last channel alone is blank, then its last weight is not 0.
#[test]
fn last_of_64_channels() {
    for (kind, engine) in [CONV, TCONV].into_iter().flat_map(|kind| ENGINES.map(|engine| (kind, engine))) {
        let mut random = Random::new("blank, many channels", kind);
        let layer = Layer::of([kind, 4, 64, 64, 3, 3, 11, 4, 5, 1, 0, 0, 1, 1]);
        let mut call = draw::call(&mut random, engine, layer);
        blank_channel(&layer, &mut call.kernel, 63);
        answered(&mut random, &call, 24);
        set_group(&layer, &mut call.kernel, 63, &[64 * 121 - 1], &[-1]);
        answered(&mut random, &call, 0);
    }
}
