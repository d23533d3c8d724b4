//! Previews beside the calls that they try: every budget from every index, borders of parts, values counted as the places that a
//! call stores in buffers filled with marks, every number, and lists of previews and calls. That a preview changes nothing is
//! held with each of them.

use wemsteky_tests::call::Call;
use wemsteky_tests::damage::{breakable_layer, damages};
use wemsteky_tests::engine::{Answer, Engine, Preview};
use wemsteky_tests::kinds::in_turn;
use wemsteky_tests::layer::{Layer, CONV, TCONV};
use wemsteky_tests::list::List;
use wemsteky_tests::parts::ENGINES_AND_FIELDS;
use wemsteky_tests::random::{seed, Random};
use wemsteky_tests::rules::{place, Offender};
use wemsteky_tests::{checked, draw, for_kinds_and_engines};

/// The call on copies of which the output is filled with a mark: what it answers, and the output that it leaves.
fn marked(call: &Call, mark: i32) -> (Answer, Vec<i32>) {
    let mut output = vec![mark; call.output_length];
    let mut scratch = vec![0; call.scratch_length];
    let read = (&call.map[..], &call.kernel[..]);
    let answer = call.engine.job(&call.layer.numbers(), (call.next, call.budget), read, &mut output, &mut scratch);
    (answer, output)
}

/// How many values the call stores: a word that it stores is the same after both marks, any other is the mark.
fn stored(call: &Call) -> (Answer, usize) {
    let ((answer, one), (again, other)) = (marked(call, i32::MIN), marked(call, i32::MAX));
    assert_eq!(answer, again);
    (answer, one.iter().zip(&other).filter(|(one, other)| one == other).count())
}

/// Budgets from 0 to the greatest number, next to the parts left among them.
fn budgets(left: usize) -> [usize; 11] {
    [0, 1, 2, left / 2, left.saturating_sub(1), left, left + 1, 1 << 16, 1 << 32, 1 << 63, usize::MAX]
}

/// A layer of a few parts at least, now and then of any count.
fn some_parts(random: &mut Random, kind: usize, engine: Engine, field: usize) -> Layer {
    loop {
        let layer = draw::any_layer(random, kind, field, 4, 150);
        if engine.total(&layer) >= 4 || random.once_in(16) {
            return layer;
        }
    }
}

fn as_many_as_the_call_stores(test: &'static str, kind: usize, engine: Engine, field: usize) {
    let mut parts_left = 0;
    for trial in 0..60 {
        let mut random = Random::new(test, trial);
        let layer = some_parts(&mut random, kind, engine, field);
        let mut call = draw::call(&mut random, engine, layer);
        let buffers = draw::buffers(&mut random, &call);
        call.next = random.below(call.total() + 1);
        let left = call.total() - call.next;
        for budget in budgets(left) {
            call.budget = budget;
            let (answer, values) = stored(&call);
            assert_eq!(checked::preview(&call, &buffers), Preview { answer, values }, "{layer:?}, budget {budget}");
        }
        parts_left += usize::from(left > 2);
    }
    assert!(parts_left > 10, "{parts_left} layers with more than two parts left, seed {}", seed());
}

for_kinds_and_engines!(as_many_as_the_call_stores, "previews");

/// A layer of some parts, and not many.
fn few_parts(random: &mut Random, trial: usize) -> (Engine, Layer) {
    let (kind, engine, field) = in_turn(trial);
    loop {
        let layer = draw::any_layer(random, kind, field, 3, 60);
        if (2..24).contains(&engine.total(&layer)) {
            return (engine, layer);
        }
    }
}

/// Every index with every budget, one above the total among both.
#[test]
fn every_index_with_every_budget() {
    for trial in 0..60 {
        let mut random = Random::new("previews, every index", trial);
        let (engine, layer) = few_parts(&mut random, trial);
        let mut call = draw::call(&mut random, engine, layer);
        let buffers = draw::buffers(&mut random, &call);
        let most = call.total() + 1;
        for (next, budget) in (0..=most).flat_map(|next| (0..=most).map(move |budget| (next, budget))) {
            (call.next, call.budget) = (next, budget);
            checked::preview(&call, &buffers);
        }
    }
}

/// Crops of which the last row and column of parts hold one row or column, all but one, or all: each part alone.
#[test]
fn each_part_next_to_a_border() {
    let mut parts = 0;
    for (trial, (side, stride)) in (1..=11).flat_map(|side| (1..=4).map(move |stride| (side, stride))).enumerate() {
        for ((engine, field), kind) in
            ENGINES_AND_FIELDS.into_iter().flat_map(|of| [CONV, TCONV].map(|kind| (of, kind)))
        {
            let mut random = Random::new("previews, borders", trial);
            let map = Layer::of([kind, field, 1, 2, 200, 512, side, stride, 0, 9, 0, 0, 1, 1]);
            let length = engine.part_length(&map);
            let span = length + random.pick(&[0, 1, 2, length - 1, length, length + 1]);
            let columns = (span - 1) / map.step() + 1;
            let rows = if engine == Engine::Tiles { columns } else { 3 };
            if columns > map.full_columns() as usize || rows > map.full_rows() as usize {
                continue;
            }
            let layer = Layer { rows, columns, ..map };
            let mut call = draw::call(&mut random, engine, layer);
            let buffers = draw::buffers(&mut random, &call);
            let mut values = 0;
            call.budget = 1;
            for next in 0..call.total() {
                call.next = next;
                values += checked::preview(&call, &buffers).values;
            }
            assert_eq!(values, layer.outputs * rows * columns, "{layer:?}");
            parts += call.total();
        }
    }
    assert!(parts > 1_000, "{parts} parts, seed {}", seed());
}

/// A refused preview tells the number, and with 15 and 25 the place and the side; it counts nothing and moves nothing.
#[test]
fn every_number_alone_and_after_an_earlier_one() {
    for trial in 0..12 {
        let mut random = Random::new("previews, numbers", trial);
        let (kind, engine, field) = in_turn(trial);
        let layer = breakable_layer(&mut random, kind, field, 3, 12);
        let call = draw::call(&mut random, engine, layer);
        let buffers = draw::buffers(&mut random, &call);
        let damages = damages(engine);
        for later in &damages {
            let mut damaged = Call { budget: random.pick(&budgets(call.total())), ..call.clone() };
            later.apply(&mut damaged);
            refused(checked::preview(&damaged, &buffers), &damaged, later.rule);
            let earlier = &damages[random.below(damages.len())];
            if place(earlier.rule) < place(later.rule) {
                earlier.apply(&mut damaged);
                refused(checked::preview(&damaged, &buffers), &damaged, earlier.rule);
            }
        }
        assert!((1..=17).chain([23, 24, 25]).all(|rule| damages.iter().any(|damage| damage.rule == rule)));
    }
}

fn refused(preview: Preview, call: &Call, number: usize) {
    let Answer { offender, .. } = preview.answer;
    assert_eq!(offender == Offender::default(), number != 15 && number != 25, "{offender:?} with {number}");
    let answer = Answer { number, count: 0, next: call.next, done: 0, offender };
    assert_eq!(preview, Preview { answer, values: 0 });
}

/// Previews with budgets that are not taken, and calls, refused ones among them: what is counted for each call adds up to all
/// outputs.
fn list(test: &'static str, kind: usize, engine: Engine, field: usize) {
    for trial in 0..60 {
        let mut random = Random::new(test, trial);
        let layer = breakable_layer(&mut random, kind, field, 3, 100);
        let call = draw::call(&mut random, engine, layer);
        let mut list = List::new(&mut random, call);
        let (mut values, mut done) = (0, 0);
        while done == 0 {
            let tried = Call { budget: random.word() as usize, ..list.call.clone() };
            checked::preview(&tried, &list.buffers);
            if random.once_in(3) {
                list.refuse(&mut random);
            }
            let next = list.call.next;
            done = list.advance(&mut random, None).done;
            let made = Call { next, ..list.call.clone() };
            values += checked::preview(&made, &list.buffers).values;
        }
        assert_eq!(values, layer.outputs * layer.rows * layer.columns, "{layer:?}");
        list.call.budget = usize::MAX;
        assert_eq!(checked::preview(&list.call, &list.buffers).values, 0, "a job that is done stores nothing");
    }
}

mod lists {
    use super::*;

    for_kinds_and_engines!(list, "previews, lists");
}

/// 64 channels of 512 by 512: from drawn indices on, over the borders of channels, and whole.
#[test]
fn large_layers() {
    for (trial, (engine, field)) in ENGINES_AND_FIELDS.into_iter().enumerate() {
        let mut random = Random::new("previews, large layers", trial);
        let kind = trial % 2;
        let layer = Layer::of([kind, field, 64, 64, 512, 512, 3, 1, 1, 1, 0, 0, 0, 0]).uncropped();
        let mut call = draw::call(&mut random, engine, layer);
        let buffers = draw::buffers(&mut random, &call);
        for _ in 0..3 {
            call.next = random.below(call.total() + 1);
            call.budget = random.pick(&[1, call.total() / 64, call.total() / 3, usize::MAX]);
            checked::preview(&call, &buffers);
        }
        (call.next, call.budget) = (0, usize::MAX);
        assert_eq!(checked::preview(&call, &buffers).values, 64 * 512 * 512);
    }
}
