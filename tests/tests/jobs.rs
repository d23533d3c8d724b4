//! Jobs in drawn budgets. At every stop finished parts are the direct sums, every other output is as lent, and scratch,
//! index, count and done mark are what the request says; refused calls between change nothing.

use wemsteky_tests::call::Call;
use wemsteky_tests::damage::breakable_layer;
use wemsteky_tests::direct::direct_sums;
use wemsteky_tests::draw;
use wemsteky_tests::engine::Engine;
use wemsteky_tests::for_kinds_and_engines;
use wemsteky_tests::kinds::in_turn;
use wemsteky_tests::list::List;
use wemsteky_tests::random::{seed, Random};

/// Jobs in each test.
const TRIALS: usize = 400;

/// A call on a layer of a few parts at least, on which every rule can be broken.
fn draw_call(random: &mut Random, kind: usize, engine: Engine, field: usize) -> Call {
    loop {
        let layer = breakable_layer(random, kind, field, 4, 150);
        if engine.total(&layer) >= 4 || random.once_in(16) {
            return draw::call(random, engine, layer);
        }
    }
}

fn sums_of(call: &Call) -> Vec<i64> {
    direct_sums(&call.layer, &call.map, &call.kernel)
}

/// One map and kernel from part 0 to the end, then calls of the finished job.
fn to_the_end(test: &'static str, kind: usize, engine: Engine, field: usize) {
    let (mut accepted, mut refused) = (0, 0);
    for trial in 0..TRIALS {
        let mut random = Random::new(test, trial);
        let call = draw_call(&mut random, kind, engine, field);
        let sums = sums_of(&call);
        let mut list = List::new(&mut random, call);
        list.finish(&mut random, Some(&sums));
        let output = list.buffers.output.words().iter().map(|&word| i64::from(word));
        assert!(output.eq(sums.iter().copied()), "whole output of {:?}", list.call.layer);
        list.refuse(&mut random);
        assert_eq!(list.advance(&mut random, Some(&sums)).count, 0);
        accepted += list.accepted;
        refused += list.refused;
    }
    assert!(
        accepted > 3 * TRIALS && refused > TRIALS,
        "{accepted} accepted calls, {refused} refused ones, seed {}",
        seed()
    );
}

for_kinds_and_engines!(to_the_end, "jobs");

/// Each call finishes its parts from the map and kernel lent in it, from whatever index it is given.
#[test]
fn other_maps_and_indices_from_call_to_call() {
    for trial in 0..TRIALS + TRIALS / 2 {
        let mut random = Random::new("jobs, other maps and indices", trial);
        let (kind, engine, field) = in_turn(trial);
        let call = draw_call(&mut random, kind, engine, field);
        let mut list = List::new(&mut random, call);
        for _ in 0..8 {
            let fresh = draw::call(&mut random, list.call.engine, list.call.layer);
            (list.call.map, list.call.kernel) = (fresh.map, fresh.kernel);
            list.call.next = random.between(0, list.call.total());
            let sums = sums_of(&list.call);
            list.advance(&mut random, Some(&sums));
        }
    }
}
