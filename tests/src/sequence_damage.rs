//! Ways to break a rule of a sequence that every rule accepts.

use crate::call::Call;
use crate::damage::{self, breakable, set_above};
use crate::engine::Engine;
use crate::groups::set_group;
use crate::layer::Layer;
use crate::sequence::{Sequence, Step};

/// The number that answers, where its rule stands in the order of the checks, and how it is broken. Rules earlier in the
/// order stay as they are.
pub struct Damage {
    pub number: usize,
    pub place: Place,
    pub name: String,
    apply: Box<dyn Fn(&mut Sequence)>,
}

/// 0 for the count, one more than its index for each step, 9 for what comes after the steps; then the place in there.
pub type Place = (usize, usize);

/// The numbers of a step in their order.
const OF_A_STEP: [usize; 15] = [1, 2, 3, 4, 5, 6, 7, 23, 8, 9, 11, 14, 24, 16, 20];

/// The numbers after the steps in their order. That of 25 is that of 15: no call breaks both.
const AFTER_THE_STEPS: [usize; 5] = [22, 10, 12, 13, 15];

impl Damage {
    /// Damages a call that is sound, or damaged by later rules alone.
    pub fn apply(&self, call: &mut Sequence) {
        (self.apply)(call);
    }

    fn of_the_count(number: usize) -> Damage {
        let apply = move |call: &mut Sequence| call.count = number;
        Damage { number: 21, place: (0, 0), name: format!("count {number}"), apply: Box::new(apply) }
    }

    fn of_a_step(step: usize, number: usize, name: &str, apply: impl Fn(&mut Sequence) + 'static) -> Damage {
        let place = OF_A_STEP.iter().position(|&rule| rule == number).expect("a number of a step");
        Damage { number, place: (1 + step, place), name: format!("{name} in step {step}"), apply: Box::new(apply) }
    }

    fn after_the_steps(number: usize, name: &str, apply: impl Fn(&mut Sequence) + 'static) -> Damage {
        let rule = if number == 25 { 15 } else { number };
        let place = AFTER_THE_STEPS.iter().position(|&other| other == rule).expect("a number after the steps");
        Damage { number, place: (9, place), name: name.to_string(), apply: Box::new(apply) }
    }
}

/// Every damage of a sound call.
pub fn damages(call: &Sequence) -> Vec<Damage> {
    let mut damages: Vec<Damage> = COUNTS.into_iter().map(Damage::of_the_count).collect();
    for (step, Step { layer, .. }) in call.steps().iter().enumerate() {
        damages.extend(of_the_layer(step, layer));
        damages.extend(of_the_weights(step, step + 1 == call.count));
        damages.extend(of_the_levels(step));
    }
    damages.extend((1..call.count).flat_map(of_neighbours));
    let lent = LENT.into_iter().chain(VALUES);
    damages.extend(lent.map(|(number, name, apply)| Damage::after_the_steps(number, name, apply)));
    damages
}

/// Counts outside 1 to 8; some are inside when cut to 8, 16 or 32 bits.
pub const COUNTS: [usize; 8] = [0, 9, 10, 256 + 1, (1 << 16) + 1, (1 << 32) + 8, 1 << 63, usize::MAX];

/// The damages of a layer alone, but for those of lengths, map values and an index; of loads where they can be above the
/// limit.
fn of_the_layer(step: usize, layer: &Layer) -> Vec<Damage> {
    let wanted = |rule: usize| OF_A_STEP.contains(&rule) && rule != 11 && (rule != 16 || breakable(layer));
    let damages = damage::damages(Engine::Tiles).into_iter().filter(|damage| wanted(damage.rule));
    damages
        .map(|damage| {
            let (rule, name) = (damage.rule, damage.name.clone());
            Damage::of_a_step(step, rule, &name, move |call| on_a_layer(call, step, &damage))
        })
        .collect()
}

/// Applies a damage to a step's layer; 24 and 16 are damages of its weights too.
fn on_a_layer(call: &mut Sequence, step: usize, damage: &damage::Damage) {
    let part = if [24, 16].contains(&damage.rule) { call.part(step) } else { 0..0 };
    let kernel = call.kernels[part.clone()].to_vec();
    let mut alone = Call { layer: call.rows[step].layer, kernel, ..Call::default() };
    damage.apply(&mut alone);
    call.rows[step].layer = alone.layer;
    call.kernels[part].copy_from_slice(&alone.kernel);
}

/// Too few weights for a step's layer; some left over by the last one.
fn of_the_weights(step: usize, is_last: bool) -> Vec<Damage> {
    let mut damages = vec![
        Damage::of_a_step(step, 11, "one weight too few", move |call| call.kernels.truncate(call.part(step).end - 1)),
        Damage::of_a_step(step, 11, "one weight alone", move |call| one_weight_alone(call, step)),
        Damage::of_a_step(step, 11, "no weight", move |call| call.kernels.truncate(call.part(step).start)),
    ];
    if is_last {
        damages.push(Damage::of_a_step(step, 11, "one weight left over", |call| call.kernels.push(1)));
        damages.push(Damage::of_a_step(step, 11, "many weights left over", |call| call.kernels.extend([1; 300])));
    }
    damages
}

/// One weight for a step's layer, or none where it needs but one.
fn one_weight_alone(call: &mut Sequence, step: usize) {
    let part = call.part(step);
    call.kernels.truncate((part.start + 1).min(part.end - 1));
}

fn of_the_levels(step: usize) -> Vec<Damage> {
    let shifts = [32, 33, 64, 1 << 16, 1 << 32, 1 << 63, usize::MAX].map(|shift| (16, shift));
    let bounds = [0, 32_768, (1 << 16) + 1, (1 << 32) + 1, 1 << 63, usize::MAX].map(|bound| (17, bound));
    let damage = |(place, number): (usize, usize)| {
        let name = format!("number {place} is {number}");
        Damage::of_a_step(step, 20, &name, move |call| call.rows[step] = call.rows[step].with(place, number))
    };
    shifts.into_iter().chain(bounds).map(damage).collect()
}

/// A name, and a way to make a step's figure differ from that of the one before, given the step.
type Difference = (&'static str, fn(&mut Sequence, usize));

/// Each of the four figures, by either of the two steps.
const DIFFERENCES: [Difference; 8] = [
    ("M one more", |call, next| one_more_channel(call, next - 1, |layer| layer.outputs += 1)),
    ("C one more", |call, next| one_more_channel(call, next, |layer| layer.inputs += 1)),
    ("h one less, or H one more", |call, next| match call.rows[next - 1].layer.rows {
        1 => call.rows[next].layer.height += 1,
        _ => call.rows[next - 1].layer.rows -= 1,
    }),
    ("w one less, or W one more", |call, next| match call.rows[next - 1].layer.columns {
        1 => call.rows[next].layer.width += 1,
        _ => call.rows[next - 1].layer.columns -= 1,
    }),
    ("H one more", |call, next| call.rows[next].layer.height += 1),
    ("W one more", |call, next| call.rows[next].layer.width += 1),
    ("B one less, or one more", |call, next| match call.rows[next - 1].bound {
        1 => call.rows[next - 1].bound = 2,
        _ => call.rows[next - 1].bound -= 1,
    }),
    ("A one less, or B one more", |call, next| match call.rows[next].layer.peak {
        1 => call.rows[next - 1].bound = 2,
        _ => call.rows[next].layer.peak -= 1,
    }),
];

/// A step, of index 1 or more, and the one before it.
fn of_neighbours(next: usize) -> Vec<Damage> {
    let damage = |(name, apply): Difference| {
        Damage::after_the_steps(22, &format!("{name}, step {next} and the one before"), move |call| apply(call, next))
    };
    DIFFERENCES.into_iter().map(damage).collect()
}

/// Gives a step's layer one more channel, and weights for it: to each output channel one weight of 1.
fn one_more_channel(call: &mut Sequence, step: usize, more: fn(&mut Layer)) {
    let part = call.part(step);
    let layer = &mut call.rows[step].layer;
    more(layer);
    let mut kernel = vec![0; layer.kernel_length() as usize];
    (0..layer.outputs).for_each(|channel| set_group(layer, &mut kernel, channel, &[0], &[1]));
    call.kernels.splice(part, kernel);
}

/// A number, a name and a way to get the number.
type Entry = (usize, &'static str, fn(&mut Sequence));

const LENT: [Entry; 14] = [
    (10, "map one short", |call| call.map.truncate(call.map.len() - 1)),
    (10, "map one long", |call| call.map.push(0)),
    (10, "no map", |call| call.map = Vec::new()),
    (12, "final one short", |call| call.lengths.final_map = call.last().layer.output_length() as usize - 1),
    (12, "final one long", |call| call.lengths.final_map = call.last().layer.output_length() as usize + 1),
    (12, "no final", |call| call.lengths.final_map = 0),
    (12, "first work map one short", |call| call.lengths.first_work = call.greatest_output() as usize - 1),
    (12, "no first work map", |call| call.lengths.first_work = 0),
    (12, "second work map one short", |call| call.lengths.second_work = call.greatest_output() as usize - 1),
    (12, "no second work map", |call| call.lengths.second_work = 0),
    (12, "output one short", |call| call.lengths.output = call.greatest_output() as usize - 1),
    (12, "no output", |call| call.lengths.output = 0),
    (13, "scratch one short", |call| call.lengths.scratch = call.greatest_scratch() - 1),
    (13, "no scratch", |call| call.lengths.scratch = 0),
];

const VALUES: [Entry; 4] = [
    (15, "first value one above the peak", |call| above(call, 0)),
    (15, "last value one above the peak", |call| above(call, call.map.len() - 1)),
    (25, "middle value one below the peak's negative", |call| {
        let middle = call.map.len() / 2;
        call.map[middle] = -(call.rows[0].layer.peak as i16) - 1;
    }),
    (25, "last value is -32,768", |call| *call.map.last_mut().expect("a map has a value") = i16::MIN),
];

/// Sets a value of the first map one above the peak, which is made smaller where it is the greatest.
fn above(call: &mut Sequence, place: usize) {
    let mut alone = Call { layer: call.rows[0].layer, map: call.map.clone(), ..Call::default() };
    set_above(&mut alone, place);
    (call.rows[0].layer, call.map) = (alone.layer, alone.map);
}
