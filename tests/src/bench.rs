//! What the bench program prints for an input, from the request's rules alone: the header and the checks 1 to 9, then
//! map and kernel, then the run.

use crate::call::Call;
use crate::direct::direct_sums;
use crate::engine::Engine;
use crate::layer::Layer;
use crate::rules;

/// 16 KiB: a header is read from so many first bytes, and a longer input has no map and kernel.
pub const LONGEST: usize = 16_384;

pub const MOST_VALUES: usize = 1_024;
pub const MOST_WEIGHTS: usize = 512;
pub const MOST_OUTPUTS: usize = 1_024;

/// What is printed for an input that cannot be read.
pub const UNREADABLE: &str = "unreadable\n";

/// Numbers of a header: those of a layer but for the rows and columns that are added, of which there are none.
pub const FIGURES: usize = 14;

/// Every byte that must be printed.
pub fn printed(input: &[u8]) -> String {
    let Some(layer) = header(input) else {
        return UNREADABLE.to_string();
    };
    let number = rules::plan_number(Engine::Tiles, &layer);
    if number != 0 {
        return refused(number);
    }
    match lent(layer, input) {
        None => UNREADABLE.to_string(),
        Some(call) => ran(&call),
    }
}

fn refused(number: usize) -> String {
    format!("refused {number}\n")
}

fn separates(byte: &u8) -> bool {
    *byte == b' ' || *byte == b'\n'
}

/// What stands between separators.
fn words(text: &[u8]) -> impl Iterator<Item = &[u8]> {
    text.split(separates).filter(|word| !word.is_empty())
}

/// The layer of the first fourteen words. What comes after them is not looked at.
fn header(input: &[u8]) -> Option<Layer> {
    let numbers: Option<Vec<usize>> = words(header_text(input)?).take(FIGURES).map(figure).collect();
    Some(Layer::of(numbers?.try_into().ok()?))
}

/// The bytes that a header may come from. Of a longer input they are the first 16 KiB up to their last separator: a word
/// that touches their end may go on beyond it.
fn header_text(input: &[u8]) -> Option<&[u8]> {
    if input.len() <= LONGEST {
        return Some(input);
    }
    let first = &input[..LONGEST];
    Some(&first[..first.iter().rposition(separates)?])
}

/// The number of one digit or more. Digits of a number beyond 64 bits are none: no place of an input has room for it.
fn whole(word: &[u8]) -> Option<i64> {
    if !word.iter().all(u8::is_ascii_digit) {
        return None;
    }
    std::str::from_utf8(word).ok()?.parse().ok()
}

/// A number of the header: 0 to 65,535.
fn figure(word: &[u8]) -> Option<usize> {
    u16::try_from(whole(word)?).ok().map(usize::from)
}

/// A number of map or kernel: at most one minus sign, then digits; it fits 16 signed bits.
fn value(word: &[u8]) -> Option<i16> {
    let number = match word.strip_prefix(b"-") {
        Some(digits) => -whole(digits)?,
        None => whole(word)?,
    };
    i16::try_from(number).ok()
}

/// Whether the program takes a layer of this shape, which the checks 1 to 9 accept.
pub fn small(layer: &Layer) -> bool {
    layer.field == 4
        && layer.map_length() <= MOST_VALUES as u128
        && layer.kernel_length() <= MOST_WEIGHTS as u128
        && layer.output_length() <= MOST_OUTPUTS as u128
}

/// The run of a layer with the map and kernel that come after its header.
fn lent(layer: Layer, input: &[u8]) -> Option<Call> {
    if !small(&layer) || input.len() > LONGEST {
        return None;
    }
    let values: Option<Vec<i16>> = words(input).skip(FIGURES).map(value).collect();
    let mut map = values?;
    if map.len() as u128 != layer.map_length() + layer.kernel_length() {
        return None;
    }
    let kernel = map.split_off(layer.map_length() as usize);
    let engine = Engine::Tiles;
    let (output_length, scratch_length) = (layer.output_length() as usize, engine.scratch_words(&layer));
    Some(Call { engine, layer, next: 0, budget: engine.total(&layer), map, kernel, output_length, scratch_length })
}

/// The run's refusal; else its tiles, then its output, a line for each row.
fn ran(call: &Call) -> String {
    let number = rules::job_number(call);
    if number != 0 {
        return refused(number);
    }
    let mut text = format!("tiles {}\n", call.total());
    for row in direct_sums(&call.layer, &call.map, &call.kernel).chunks(call.layer.columns) {
        let numbers: Vec<String> = row.iter().map(i64::to_string).collect();
        text += &numbers.join(" ");
        text.push('\n');
    }
    text
}
