//! Refused calls: every rule broken in every way, alone and two at a time. The number is that of the first broken rule
//! in the table's order, and output, scratch and transform words stay as lent.

use wemsteky_tests::call::{Buffer, Buffers, Call};
use wemsteky_tests::damage::{breakable_layer, damages};
use wemsteky_tests::engine::{self, Engine};
use wemsteky_tests::groups::{groups, set_group};
use wemsteky_tests::kinds::in_turn;
use wemsteky_tests::layer::{Layer, CONV, TCONV};
use wemsteky_tests::parts::ENGINES_AND_FIELDS;
use wemsteky_tests::random::Random;
use wemsteky_tests::rules::{is_up_to, load, load_limit, place, transform_number, LAST_OF_PLAN, LAST_OF_RUN};
use wemsteky_tests::transform::{modulus, points};
use wemsteky_tests::{checked, draw};

/// A small call that every rule accepts and on which every rule can be broken, and its buffers.
fn sound(random: &mut Random, trial: usize) -> (Call, Buffers) {
    let (kind, engine, field) = in_turn(trial);
    let layer = breakable_layer(random, kind, field, 3, 12);
    let call = draw::call(random, engine, layer);
    let buffers = draw::buffers(random, &call);
    (call, buffers)
}

/// Plans, runs and advances, each held to the rules; the number of the job call is returned.
fn number(call: &Call, buffers: &mut Buffers) -> usize {
    let plan = checked::plan(call.engine, &call.layer);
    let run = checked::run(call, buffers, None).number;
    let job = checked::job(call, buffers, None).number;
    assert_eq!(plan, if is_up_to(LAST_OF_PLAN, job) { job } else { 0 }, "plan of {:?}", call.layer);
    assert_eq!(run, if is_up_to(LAST_OF_RUN, job) { job } else { 0 }, "run of {:?}", call.layer);
    job
}

#[test]
fn each_damage_is_answered_by_its_number() {
    for trial in 0..90 {
        let mut random = Random::new("refusals, each damage", trial);
        let (call, mut buffers) = sound(&mut random, trial);
        let damages = damages(call.engine);
        for damage in &damages {
            let mut damaged = Call { budget: random.word() as usize, ..call.clone() };
            damage.apply(&mut damaged);
            assert_eq!(number(&damaged, &mut buffers), damage.rule, "{}", damage.name);
        }
        assert_eq!(number(&call, &mut buffers), 0, "{:?}", call.layer);
        assert!((1..=17).chain([23, 24, 25]).all(|rule| damages.iter().any(|damage| damage.rule == rule)));
    }
}

#[test]
fn of_two_damages_the_rule_earlier_in_the_table_answers() {
    for trial in 0..12 {
        let mut random = Random::new("refusals, two damages", trial);
        let (call, mut buffers) = sound(&mut random, trial);
        let damages = damages(call.engine);
        for later in &damages {
            for earlier in damages.iter().filter(|earlier| place(earlier.rule) < place(later.rule)) {
                let mut damaged = call.clone();
                later.apply(&mut damaged);
                earlier.apply(&mut damaged);
                let answer = checked::job(&damaged, &mut buffers, None);
                assert_eq!(answer.number, earlier.rule, "{}, {}", earlier.name, later.name);
            }
        }
    }
}

/// A number of its range mostly; else 0, next to the range, or far off.
fn any_number(random: &mut Random, (least, most): (usize, usize)) -> usize {
    match random.below(40) {
        0 => random.pick(&[0, most + 1, most + (1 << 32), 1 << 63]),
        1 => usize::MAX - random.below(4),
        _ => random.between(least, most),
    }
}

#[test]
fn any_sixteen_numbers_are_answered_by_the_rules() {
    any_layers(&mut Random::new("refusals, any numbers", 0), Engine::Tiles, 300_000);
    any_layers(&mut Random::new("refusals, any numbers by strips", 0), Engine::Strips, 150_000);
}

fn any_layers(random: &mut Random, engine: Engine, layers: usize) {
    let (mut seen, field) = ([0; 24], (4, engine.last_field()));
    for _ in 0..layers {
        let (channels, map) = ((1, 64), (1, random.pick(&[4, 30, 512])));
        let (side, stride, padding, peak) = ((1, 11), (1, 4), (0, 5), (1, 32_767));
        let (first, kept) = ((0, 12), (1, 12));
        let shape =
            [(0, 1), field, channels, channels, map, map, side, stride, padding, peak, first, first, kept, kept];
        let layer = Layer::of(shape.map(|range| any_number(random, range)));
        let most_added = if layer.kind == TCONV { 2 } else { 0 };
        let [below, beside] = [(0, most_added); 2].map(|range| any_number(random, range));
        seen[checked::plan(engine, &Layer { below, beside, ..layer })] += 1;
    }
    assert!((0..=9).chain([23]).all(|number| seen[number] > layers / 300), "{seen:?}");
}

/// Every number at its least and at its greatest, and an index equal to the total.
#[test]
fn numbers_at_both_ends_are_accepted() {
    for trial in 0..6 {
        let (kind, engine, field) = in_turn(trial);
        let least = Layer::of([kind, field, 1, 1, 1, 1, 1, 1, 0, 1, 0, 0, 1, 1]);
        let most = Layer::of([kind, field, 64, 64, 512, 512, 11, 4, 10, 32_767, 0, 0, 0, 0]);
        let most = Layer { below: 3 * kind, beside: 3 * kind, ..most }.uncropped();
        assert_eq!((checked::plan(engine, &least), checked::plan(engine, &most)), (0, 0));
        let mut random = Random::new("refusals, both ends", trial);
        let call = draw::call(&mut random, engine, least);
        let mut buffers = draw::buffers(&mut random, &call);
        assert_eq!(number(&call, &mut buffers), 0);
        let (call, mut buffers) = sound(&mut random, trial);
        let ended = Call { next: call.total(), budget: usize::MAX, ..call };
        assert_eq!(checked::job(&ended, &mut buffers, None).done, 1, "an index equal to the total is accepted");
    }
}

/// The field and a peak that has the number one above the limit as a multiple: 32,769 is 9 times 11 times 331, and
/// 2,147,483,648 is a power of 2.
const PEAKS: [(usize, usize); 14] = [
    (4, 1),
    (4, 3),
    (4, 9),
    (4, 11),
    (4, 33),
    (4, 99),
    (4, 331),
    (4, 993),
    (4, 2_979),
    (4, 3_641),
    (4, 10_923),
    (5, 4_096),
    (5, 8_192),
    (5, 16_384),
];

/// Gives a group of a channel a load one above the limit, spread over its map channels; then makes one of its weights
/// smaller by 1.
fn hold_load(random: &mut Random, engine: Engine, layer: Layer) {
    let mut call = draw::call(random, engine, layer);
    let mut buffers = draw::buffers(random, &call);
    let (channel, above) = (random.below(layer.outputs), load_limit(layer.field) + 1);
    let total = above as usize / layer.peak;
    let groups: Vec<_> = groups(&layer).into_iter().filter(|group| group.len() * 32_767 >= total).collect();
    let group = &groups[random.below(groups.len())];
    let mut weights = draw::weights(random, group.len(), total);
    set_group(&layer, &mut call.kernel, channel, group, &weights);
    assert_eq!(load(&call, channel), above, "{layer:?}");
    assert_eq!(number(&call, &mut buffers), 16, "{layer:?}");
    let weight = weights.iter_mut().find(|weight| **weight != 0).unwrap();
    *weight -= weight.signum();
    set_group(&layer, &mut call.kernel, channel, group, &weights);
    assert_eq!(number(&call, &mut buffers), 0, "{layer:?}");
}

#[test]
fn a_load_one_above_the_limit_is_refused() {
    for (trial, (field, peak)) in PEAKS.into_iter().enumerate() {
        for (engine, _) in ENGINES_AND_FIELDS.into_iter().filter(|&(_, accepted)| accepted == field) {
            for kind in [CONV, TCONV] {
                let layer = Layer::of([kind, field, 3, 3, 9, 9, 5, 2, 1, peak, 0, 0, 2, 3]);
                hold_load(&mut Random::new("refusals, loads", 2 * trial + kind), engine, layer);
            }
        }
    }
}

/// Holds the transform and its inverse to the number of the rules; refused words stay as they are.
fn refuse_words(random: &mut Random, field: usize, words: &[u64], expected: usize) {
    assert_eq!(transform_number(field, words), expected, "field {field}, {} words", words.len());
    for entry in [engine::transform, engine::inverse] {
        let mut buffer = Buffer::of(words.len(), || random.word());
        buffer.lend(words.len()).copy_from_slice(words);
        let before = buffer.clone();
        assert_eq!(entry(field, buffer.lend(words.len())), expected, "field {field}, {} words", words.len());
        assert_eq!(buffer.difference(&before), None, "field {field}, {} words", words.len());
    }
}

#[test]
fn transforms_are_refused_in_order() {
    let mut random = Random::new("refusals, transforms", 0);
    for field in [0, 1, 2, 3, 6, 7, 4 + (1 << 32), 1 << 63, usize::MAX] {
        for length in [0, 31, 32, 33, 63, 64, 65] {
            refuse_words(&mut random, field, &vec![0; length], 2);
            refuse_words(&mut random, field, &vec![u64::MAX; length], 2);
        }
    }
    for field in [4, 5] {
        for length in (0..200).filter(|&length| length != points(field)) {
            refuse_words(&mut random, field, &vec![0; length], 18);
            refuse_words(&mut random, field, &vec![modulus(field); length], 18);
        }
        for place in 0..points(field) {
            for word in [modulus(field), modulus(field) + 1, 2 * modulus(field), 1 << 33, 1 << 63, u64::MAX] {
                let mut words: Vec<u64> = (0..points(field)).map(|_| random.word() % modulus(field)).collect();
                words[place] = word;
                refuse_words(&mut random, field, &words, 19);
            }
        }
    }
}
