//! Jobs in budgets. At every stop finished tiles hold the direct sums, and every other place what the output held first.

use super::{rows, Sequence};
use crate::call::Call;
use crate::checked::expected_answer;
use crate::direct::direct_sums;
use crate::engine::Engine;
use crate::layer::{Layer, CONV, TCONV};

/// What the output holds first.
const LENT: i64 = 7;

/// The answer to a call and the output that it leaves, with the index that it hands back.
fn stop(call: &Call, sums: &[i64], output: &mut [i64]) -> (String, usize) {
    let answer = expected_answer(call);
    for place in call.engine.places(&call.layer, call.next..answer.next) {
        output[place] = sums[place];
    }
    let line = format!(
        "budget {} code {} count {} next {} done {} \n",
        call.budget, answer.number, answer.count, answer.next, answer.done
    );
    (line + &rows(output, call.layer.columns), answer.next)
}

/// A whole job in budgets, with a call without a map among them, and then a call whose index is above the total.
fn in_budgets(mut call: Call) -> String {
    let sums = direct_sums(&call.layer, &call.map, &call.kernel);
    let mut output = vec![LENT; sums.len()];
    let mut text = String::new();
    for (budget, has_map) in [(0, true), (1, true), (1, false), (2, true), (usize::MAX, true), (1, true)] {
        call.budget = budget;
        let map = if has_map { call.map.clone() } else { Vec::new() };
        let (stopped, next) = stop(&Call { map, ..call.clone() }, &sums, &mut output);
        text += &stopped;
        call.next = next;
    }
    assert!(output == sums, "the budgets reach the total of {:?}", call.layer);
    text + &stop(&Call { next: usize::MAX, ..call }, &sums, &mut output).0
}

/// A job at tile 0 on drawn values and weights, with one word of scratch more than is asked for.
fn job(numbers: [usize; 14], weight: i16, seed: u64) -> Call {
    let (engine, layer) = (Engine::Tiles, Layer::of(numbers));
    let mut sequence = Sequence(seed);
    Call {
        engine,
        layer,
        next: 0,
        budget: 0,
        map: sequence.values(layer.map_length() as usize, layer.peak as i16),
        kernel: sequence.values(layer.kernel_length() as usize, weight),
        output_length: layer.output_length() as usize,
        scratch_length: engine.scratch_words(&layer) + 1,
    }
}

pub fn text() -> String {
    let conv = job([CONV, 4, 2, 2, 12, 130, 11, 4, 5, 100, 1, 3, 2, 8], 1, 1);
    let tconv = job([TCONV, 5, 2, 2, 3, 40, 5, 2, 1, 1000, 2, 5, 1, 70], 1000, 2);
    [in_budgets(conv), in_budgets(tconv)].concat()
}
