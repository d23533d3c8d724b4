//! Ways to break a rule of a call that every rule accepts.

use crate::call::Call;
use crate::draw::{any_layer, blank_channel, top_up};
use crate::engine::Engine;
use crate::groups::{groups, set_group};
use crate::layer::{Layer, CONV};
use crate::random::Random;
use crate::rules::load_limit;

/// The rule that is broken, and how. Rules earlier in the table stay as they are.
pub struct Damage {
    pub rule: usize,
    pub name: String,
    apply: Box<dyn Fn(&mut Call)>,
}

impl Damage {
    /// Damages a call that is sound, or damaged by later rules alone.
    pub fn apply(&self, call: &mut Call) {
        (self.apply)(call);
    }
}

/// The rule, the place among the sixteen numbers, and the range.
fn limits(engine: Engine) -> [(usize, usize, usize, usize); 9] {
    [
        (1, 0, 0, 1),
        (2, 1, 4, engine.last_field()),
        (3, 2, 1, 64),
        (3, 3, 1, 64),
        (4, 4, 1, 512),
        (4, 5, 1, 512),
        (5, 6, 1, 11),
        (6, 7, 1, 4),
        (14, 9, 1, 32_767),
    ]
}

/// Values outside a range: next to both ends, far off, and those that are inside it when cut to 16 or 32 bits.
fn outside(least: usize, most: usize) -> Vec<usize> {
    let mut values = vec![most + 1, most + (1 << 16), most + (1 << 32), 1 << 63, usize::MAX];
    values.extend(least.checked_sub(1));
    values
}

fn ranges(engine: Engine) -> Vec<Damage> {
    let mut damages = Vec::new();
    for (rule, place, least, most) in limits(engine) {
        for value in outside(least, most) {
            let apply = move |call: &mut Call| call.layer = call.layer.with(place, value);
            damages.push(Damage { rule, name: format!("number {place} is {value}"), apply: Box::new(apply) });
        }
    }
    damages
}

/// A rule, a name and a way to break the rule.
type Entry = (usize, &'static str, fn(&mut Call));

const SIZES: [Entry; 29] = [
    (7, "padding is the side", |call| call.layer.padding = call.layer.side),
    (7, "padding is 65,536", |call| call.layer.padding = 1 << 16),
    (7, "padding is 2 to the power 32", |call| call.layer.padding = 1 << 32),
    (7, "padding is 2 to the power 63", |call| call.layer.padding = 1 << 63),
    (7, "padding is the greatest number", |call| call.layer.padding = usize::MAX),
    (23, "as many rows added as the stride", |call| call.layer.below = call.layer.stride),
    (23, "as many columns added as the stride", |call| call.layer.beside = call.layer.stride),
    (23, "a row added too many for the kind", |call| call.layer.below = too_many(&call.layer)),
    (23, "a column added too many for the kind", |call| call.layer.beside = too_many(&call.layer)),
    (23, "65,536 rows added", |call| call.layer.below = 1 << 16),
    (23, "2 to the power 32 columns added", |call| call.layer.beside = 1 << 32),
    (23, "2 to the power 63 rows added", |call| call.layer.below = 1 << 63),
    (23, "the greatest number of columns added", |call| call.layer.beside = usize::MAX),
    (8, "one row too few", |call| {
        let (height, window) = one_too_few(call.layer);
        call.layer = Layer { height, ..window };
    }),
    (8, "one column too few", |call| {
        let (width, window) = one_too_few(call.layer);
        call.layer = Layer { width, ..window };
    }),
    (8, "many rows too few", |call| {
        let padding = if call.layer.kind == CONV { 0 } else { 10 };
        call.layer = Layer { height: 1, side: 11, padding, ..call.layer };
    }),
    (9, "no row kept", |call| call.layer.rows = 0),
    (9, "no column kept", |call| call.layer.columns = 0),
    (9, "one row too many", |call| call.layer.rows = call.layer.full_rows() as usize - call.layer.top + 1),
    (9, "one column too many", |call| call.layer.columns = call.layer.full_columns() as usize - call.layer.left + 1),
    (9, "first row one too far", |call| call.layer.top = call.layer.full_rows() as usize - call.layer.rows + 1),
    (9, "first column one too far", |call| {
        call.layer.left = call.layer.full_columns() as usize - call.layer.columns + 1
    }),
    (9, "top and rows wrap to 0", |call| call.layer.top = usize::MAX - call.layer.rows + 1),
    (9, "left and columns wrap to 0", |call| call.layer.left = usize::MAX - call.layer.columns + 1),
    (9, "top and rows wrap to 1", |call| (call.layer.top, call.layer.rows) = (2, usize::MAX)),
    (9, "top is the greatest number", |call| call.layer.top = usize::MAX),
    (9, "left is the greatest number", |call| call.layer.left = usize::MAX),
    (9, "rows is the greatest number", |call| call.layer.rows = usize::MAX),
    (9, "columns is the greatest number", |call| call.layer.columns = usize::MAX),
];

/// The least count of rows or columns that may not be added: in CONV none may.
fn too_many(layer: &Layer) -> usize {
    if layer.kind == CONV {
        1
    } else {
        layer.stride
    }
}

/// A map length that is one short of an output, and the layer with the window that makes it so.
/// CONV: 6 + 2·2 is one below 11. TCONV: (1 − 1)S + 2 − 2·1 is 0, with nothing added.
fn one_too_few(layer: Layer) -> (usize, Layer) {
    if layer.kind == CONV {
        (6, Layer { side: 11, padding: 2, ..layer })
    } else {
        (1, Layer { side: 2, padding: 1, below: 0, beside: 0, ..layer })
    }
}

const LENT: [Entry; 24] = [
    (10, "map one short", |call| call.map.truncate(call.map.len() - 1)),
    (10, "map one long", |call| call.map.push(0)),
    (10, "no map", |call| call.map = Vec::new()),
    (11, "kernel one short", |call| call.kernel.truncate(call.kernel.len() - 1)),
    (11, "kernel one long", |call| call.kernel.push(0)),
    (11, "no kernel", |call| call.kernel = Vec::new()),
    (12, "output one short", |call| call.output_length -= 1),
    (12, "output one long", |call| call.output_length += 1),
    (12, "no output", |call| call.output_length = 0),
    (13, "scratch one short", |call| call.scratch_length = call.scratch_words() - 1),
    (13, "no scratch", |call| call.scratch_length = 0),
    (15, "first value one above the peak", |call| set_above(call, 0)),
    (25, "last value one below the peak's negative", |call| {
        *call.map.last_mut().unwrap() = -(call.layer.peak as i16) - 1
    }),
    (25, "some value is -32,768", |call| {
        let middle = call.map.len() / 2;
        call.map[middle] = i16::MIN;
    }),
    (24, "first channel blank", |call| blank_channel(&call.layer, &mut call.kernel, 0)),
    (24, "middle channel blank", |call| blank_channel(&call.layer, &mut call.kernel, call.layer.outputs / 2)),
    (24, "last channel blank", |call| blank_channel(&call.layer, &mut call.kernel, call.layer.outputs - 1)),
    (24, "every channel blank", |call| call.kernel.fill(0)),
    (16, "load of the first channel above the limit", |call| overload(call, 0, &groups(&call.layer)[0])),
    (16, "load of the last channel above the limit", |call| {
        overload(call, call.layer.outputs - 1, &last_of_the_greatest(&call.layer))
    }),
    (17, "index one above the total", |call| call.next = call.total() + 1),
    (17, "index is 2 to the power 32", |call| call.next = 1 << 32),
    (17, "index is 2 to the power 63", |call| call.next = 1 << 63),
    (17, "index is the greatest number", |call| call.next = usize::MAX),
];

/// Sets a value one above the peak. No value is above 32,767, so that this peak is first made smaller by 1, and with it
/// the values that were at it.
pub fn set_above(call: &mut Call, place: usize) {
    if call.layer.peak == 32_767 {
        call.layer.peak = 32_766;
        call.map.iter_mut().for_each(|value| *value = (*value).clamp(-32_766, 32_766));
    }
    call.map[place] = call.layer.peak as i16 + 1;
}

/// Gives a group of a channel the least load above the limit. The peak is raised where 16-bit weights would not reach
/// that.
fn overload(call: &mut Call, channel: usize, group: &[usize]) {
    let limit = load_limit(call.layer.field) as usize;
    if group.len() * 32_768 * call.layer.peak <= limit {
        call.layer.peak = 32_767;
    }
    let mut weights = vec![0; group.len()];
    top_up(&mut weights, limit / call.layer.peak + 1);
    set_group(&call.layer, &mut call.kernel, channel, group, &weights);
}

/// The last of the groups that have the most weights. The first group is one of them too.
fn last_of_the_greatest(layer: &Layer) -> Vec<usize> {
    groups(layer).into_iter().max_by_key(Vec::len).unwrap()
}

/// Whether every rule can be broken: in F_5 no load of two weights is above the limit.
pub fn breakable(layer: &Layer) -> bool {
    layer.field == 4 || groups(layer)[0].len() >= 3
}

/// A drawn layer on which every rule can be broken.
pub fn breakable_layer(random: &mut Random, kind: usize, field: usize, most_channels: usize, longest: usize) -> Layer {
    loop {
        let layer = any_layer(random, kind, field, most_channels, longest);
        if breakable(&layer) {
            return layer;
        }
    }
}

/// Every damage of a call of an engine, the rules in order within each group.
pub fn damages(engine: Engine) -> Vec<Damage> {
    let mut damages = ranges(engine);
    for (rule, name, apply) in SIZES.into_iter().chain(LENT) {
        damages.push(Damage { rule, name: name.to_string(), apply: Box::new(apply) });
    }
    damages
}
