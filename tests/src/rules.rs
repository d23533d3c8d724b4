//! The number that a call returns, from the request's table: the rules in its order, sums taken in whole numbers.

use crate::call::Call;
use crate::engine::Engine;
use crate::groups::{channel_weights, groups};
use crate::layer::{Layer, CONV};
use crate::transform::{modulus, points};

/// A number and the test that a call must meet to pass it. A test is made only where those before hold.
type Rule = (usize, fn(&Call) -> bool);

/// The table. Rules are ordered by their place in it, not by their number.
static RULES: [Rule; 20] = [
    (1, |call| call.layer.kind == 0 || call.layer.kind == 1),
    (2, |call| inside(4, call.engine.last_field(), call.layer.field)),
    (3, |call| inside(1, 64, call.layer.inputs) && inside(1, 64, call.layer.outputs)),
    (4, |call| inside(1, 512, call.layer.height) && inside(1, 512, call.layer.width)),
    (5, |call| inside(1, 11, call.layer.side)),
    (6, |call| inside(1, 4, call.layer.stride)),
    (7, |call| call.layer.padding < call.layer.side),
    (23, |call| adds(&call.layer, call.layer.below) && adds(&call.layer, call.layer.beside)),
    (8, |call| has_output(&call.layer)),
    (9, |call| has_crop(&call.layer)),
    (10, |call| call.map.len() as u128 == call.layer.map_length()),
    (11, |call| call.kernel.len() as u128 == call.layer.kernel_length()),
    (12, |call| call.output_length as u128 == call.layer.output_length()),
    (13, |call| call.scratch_length >= call.scratch_words()),
    (14, |call| inside(1, 32_767, call.layer.peak)),
    (15, |call| offender(&call.layer, &call.map).side != ABOVE),
    (25, |call| offender(&call.layer, &call.map).side != BELOW),
    (24, |call| !(0..call.layer.outputs).any(|channel| is_blank(&call.layer, &call.kernel, channel))),
    (16, |call| (0..call.layer.outputs).all(|channel| load(call, channel) <= load_limit(call.layer.field))),
    (17, |call| call.next <= call.total()),
];

fn inside(least: usize, most: usize, number: usize) -> bool {
    least <= number && number <= most
}

fn size(value: i16) -> u128 {
    u128::from(value.unsigned_abs())
}

/// The place of a map value beyond the peak, and its side.
#[derive(Clone, Copy, Debug, Default, PartialEq, Eq)]
pub struct Offender {
    pub channel: usize,
    pub row: usize,
    pub column: usize,
    pub side: usize,
}

/// The sides of a map value beyond the peak: above it, and below its negative.
pub const ABOVE: usize = 1;
pub const BELOW: usize = 2;

/// The first map value beyond the peak, channel by channel and row by row; zeros where there is none.
pub fn offender(layer: &Layer, map: &[i16]) -> Offender {
    for channel in 0..layer.inputs {
        for row in 0..layer.height {
            for column in 0..layer.width {
                let value = i128::from(map[(channel * layer.height + row) * layer.width + column]);
                let peak = layer.peak as i128;
                if value > peak {
                    return Offender { channel, row, column, side: ABOVE };
                } else if value < -peak {
                    return Offender { channel, row, column, side: BELOW };
                }
            }
        }
    }
    Offender::default()
}

/// Whether so many rows or columns may be added.
fn adds(layer: &Layer, count: usize) -> bool {
    count < layer.stride && (layer.kind != CONV || count == 0)
}

fn has_output(layer: &Layer) -> bool {
    if layer.kind == CONV {
        let [height, width, side, padding] =
            [layer.height, layer.width, layer.side, layer.padding].map(|number| number as u128);
        height + 2 * padding >= side && width + 2 * padding >= side
    } else {
        layer.full_rows() >= 1 && layer.full_columns() >= 1
    }
}

fn has_crop(layer: &Layer) -> bool {
    let kept = |first: usize, count: usize, full: i128| count != 0 && first as i128 + count as i128 <= full;
    kept(layer.top, layer.rows, layer.full_rows()) && kept(layer.left, layer.columns, layer.full_columns())
}

/// Whether every weight that reaches an output channel is 0.
pub fn is_blank(layer: &Layer, kernel: &[i16], channel: usize) -> bool {
    channel_weights(layer, kernel, channel).iter().all(|&weight| weight == 0)
}

/// The peak times the greatest sum of sizes over the groups of weights that reach an output channel.
pub fn load(call: &Call, channel: usize) -> u128 {
    let weights = channel_weights(&call.layer, &call.kernel, channel);
    let sum = |group: Vec<usize>| group.into_iter().map(|place| size(weights[place])).sum::<u128>();
    call.layer.peak as u128 * groups(&call.layer).into_iter().map(sum).max().unwrap()
}

/// The load before the request's E2: the peak times the sum of the sizes of all weights that reach an output channel.
pub fn former_load(call: &Call, channel: usize) -> u128 {
    let weights = channel_weights(&call.layer, &call.kernel, channel);
    call.layer.peak as u128 * weights.into_iter().map(size).sum::<u128>()
}

/// Whether some load was above the limit before E2.
pub fn formerly_refused(call: &Call) -> bool {
    (0..call.layer.outputs).any(|channel| former_load(call, channel) > load_limit(call.layer.field))
}

pub fn load_limit(field: usize) -> u128 {
    match field {
        4 => 32_768,
        _ => 2_147_483_647,
    }
}

/// The numbers of the last rules that a plan, a run and a job are held to.
pub const LAST_OF_PLAN: usize = 9;
pub const LAST_OF_RUN: usize = 16;
pub const LAST_OF_JOB: usize = 17;

/// The place of a number in the table. That of 25 is that of 15: no call breaks both.
pub fn place(number: usize) -> usize {
    RULES.iter().position(|&(rule, _)| rule == if number == 25 { 15 } else { number }).unwrap()
}

/// Whether a number is 0 or that of a rule up to the last one given.
pub fn is_up_to(last: usize, number: usize) -> bool {
    number == 0 || place(number) <= place(last)
}

/// The number of the first broken rule up to the last one given, or 0.
fn first_broken(last: usize, call: &Call) -> usize {
    first_of(RULES[..=place(last)].iter(), call)
}

/// The number of the first of these rules that is broken, or 0.
fn first_of<'a>(mut rules: impl Iterator<Item = &'a Rule>, call: &Call) -> usize {
    rules.find(|(_, holds)| !holds(call)).map_or(0, |&(number, _)| number)
}

/// The number of the first broken rule among those with the numbers given, in the table's order, or 0.
pub fn first_broken_of(numbers: &[usize], call: &Call) -> usize {
    first_of(RULES.iter().filter(|(number, _)| numbers.contains(number)), call)
}

/// What the planner returns.
pub fn plan_number(engine: Engine, layer: &Layer) -> usize {
    first_broken(LAST_OF_PLAN, &Call { engine, layer: *layer, ..Call::default() })
}

/// What a job call returns. A run is the same with the index 0.
pub fn job_number(call: &Call) -> usize {
    first_broken(LAST_OF_JOB, call)
}

/// What a transform or its inverse returns.
pub fn transform_number(field: usize, words: &[u64]) -> usize {
    if field != 4 && field != 5 {
        2
    } else if words.len() != points(field) {
        18
    } else if words.iter().any(|&word| word >= modulus(field)) {
        19
    } else {
        0
    }
}
