//! Calls of the engine of which everything that they return and leave is held to the request: the number, the figures,
//! the output, the scratch, the guard values, and what was lent to read. Each run and job call is tried by a preview first.
//! So are sequences, with their work maps and the final map.

use crate::call::{Buffer, Buffers, Call};
use crate::direct::direct_sums;
use crate::draw;
use crate::engine::{self, Answer, Engine, Lent, Preview};
use crate::layer::Layer;
use crate::parts::ENGINES;
use crate::random::Random;
use crate::rules::{self, Offender};
use crate::sequence::{self, Sequence, SequenceBuffers, Stage};
use std::fmt::Debug;
use std::ops::Range;

/// Plans, and holds the number and the figures to the rules and formulas. Returns the number.
pub fn plan(engine: Engine, layer: &Layer) -> usize {
    let number = rules::plan_number(engine, layer);
    let figures = match number {
        0 => {
            let (rows, columns) = (layer.full_rows() as usize, layer.full_columns() as usize);
            [rows, columns, engine.total(layer), engine.scratch_words(layer)]
        }
        _ => [0; 4],
    };
    assert_eq!(engine.plan(&layer.numbers()), (number, figures), "plan by {engine:?} of {layer:?}");
    number
}

/// Plans a layer by both engines, which must answer alike in field 4. Returns the number.
pub fn plan_by_both(layer: &Layer) -> usize {
    assert_eq!(layer.field, 4, "{layer:?}");
    let [tiles, strips] = ENGINES.map(|engine| plan(engine, layer));
    assert_eq!(tiles, strips, "{layer:?}");
    tiles
}

/// Makes a job call. Parts that it finishes are held to the sums where they are given; every other word, always.
pub fn job(call: &Call, buffers: &mut Buffers, sums: Option<&[i64]>) -> Answer {
    held(call, buffers, sums, |output, scratch| {
        call.engine.job(&call.layer.numbers(), (call.next, call.budget), (&call.map, &call.kernel), output, scratch)
    })
}

/// Makes a run: the job from part 0 with a budget that reaches the total. The call's own index and budget are not used.
pub fn run(call: &Call, buffers: &mut Buffers, sums: Option<&[i64]>) -> Answer {
    let whole = Call { next: 0, budget: usize::MAX, ..call.clone() };
    held(&whole, buffers, sums, |output, scratch| {
        whole.engine.run(&whole.layer.numbers(), &whole.map, &whole.kernel, output, scratch)
    })
}

/// Plans and runs a call with buffers of any contents, and holds its whole output to the direct sums, which are returned.
pub fn whole_run(random: &mut Random, call: &Call) -> Vec<i64> {
    let mut buffers = draw::buffers(random, call);
    let sums = direct_sums(&call.layer, &call.map, &call.kernel);
    assert_eq!(plan(call.engine, &call.layer), 0, "plan of {:?}", call.layer);
    let answer = run(call, &mut buffers, Some(&sums));
    assert_eq!((answer.number, answer.done), (0, 1), "run of {:?}", call.layer);
    assert!(buffers.output.words().iter().map(|&word| i64::from(word)).eq(sums.iter().copied()), "{:?}", call.layer);
    sums
}

/// Tries a job call. It must answer as the call would, count the outputs that the finished parts hold, and change nothing.
pub fn preview(call: &Call, buffers: &Buffers) -> Preview {
    let (given, lent) = (call.clone(), buffers.clone());
    let preview = call.engine.preview(
        &call.layer.numbers(),
        (call.next, call.budget),
        (&call.map, &call.kernel),
        buffers.output.show(call.output_length),
        buffers.scratch.show(call.scratch_length),
    );
    assert_eq!(preview, expected_preview(call), "preview of {}", name(call));
    same("output", &buffers.output, &lent.output, || name(call));
    same("scratch", &buffers.scratch, &lent.scratch, || name(call));
    assert!(*call == given, "map or kernel changed by a preview of {}", name(call));
    preview
}

fn held(
    call: &Call,
    buffers: &mut Buffers,
    sums: Option<&[i64]>,
    made: impl FnOnce(&mut [i32], &mut [u64]) -> Answer,
) -> Answer {
    let preview = preview(call, buffers);
    let (given, mut expected) = (call.clone(), buffers.clone());
    let answer = made(buffers.output.lend(call.output_length), buffers.scratch.lend(call.scratch_length));
    assert_eq!(answer, expected_answer(call), "answer to {}", name(call));
    assert_eq!(answer, preview.answer, "answer to {} after its preview", name(call));
    if answer.number == 0 {
        expected.scratch.lend(call.scratch_words()).fill(0);
        finish(call, call.next..answer.next, sums, &buffers.output, &mut expected.output);
    }
    same("output", &buffers.output, &expected.output, || name(call));
    same("scratch", &buffers.scratch, &expected.scratch, || name(call));
    assert!(*call == given, "map or kernel changed by {}", name(call));
    answer
}

/// What a job call must answer. A refused one finishes nothing, hands its index back and is not done; 15 and 25 come with
/// the first map value beyond the peak, any other number with zeros.
pub fn expected_answer(call: &Call) -> Answer {
    let number = rules::job_number(call);
    if number != 0 {
        let offender = match number {
            15 | 25 => rules::offender(&call.layer, &call.map),
            _ => Offender::default(),
        };
        return Answer { number, count: 0, next: call.next, done: 0, offender };
    }
    let total = call.total();
    let count = call.budget.min(total - call.next);
    let next = call.next + count;
    Answer { number, count, next, done: usize::from(next == total), offender: Offender::default() }
}

/// What a preview must return: the count of values is that of the outputs, one by one, in the parts that the call finishes.
pub fn expected_preview(call: &Call) -> Preview {
    let answer = expected_answer(call);
    let values = match answer.number {
        0 => call.engine.places(&call.layer, call.next..answer.next).count(),
        _ => 0,
    };
    Preview { answer, values }
}

/// Writes what the outputs of some parts must be: their sums, or what was found where no sums are given.
fn finish(call: &Call, parts: Range<usize>, sums: Option<&[i64]>, found: &Buffer<i32>, expected: &mut Buffer<i32>) {
    let words = expected.lend(call.output_length);
    for place in call.engine.places(&call.layer, parts) {
        words[place] = match sums {
            Some(sums) => i32::try_from(sums[place]).expect("an accepted sum fits 32 bits"),
            None => found.words()[place],
        };
    }
}

fn same<T: Copy + PartialEq + Debug>(
    what: &str,
    found: &Buffer<T>,
    expected: &Buffer<T>,
    name: impl FnOnce() -> String,
) {
    if let Some((place, found, expected)) = found.difference(expected) {
        panic!("{what} word {place} is {found:?} instead of {expected:?} after {}", name());
    }
}

/// A call without its map and kernel, for a message.
fn name(call: &Call) -> String {
    format!("index {}, budget {}, {:?}, {:?}", call.next, call.budget, call.engine, call.layer)
}

/// Makes a call of a sequence. An accepted one must leave the last map in the final buffer, and work maps, output and scratch
/// all zero, every word of them; a refused one leaves all as lent. Returns the number and the place with its side, and what
/// each step makes, nothing where the call is refused.
pub fn sequence(
    random: &mut Random,
    call: &Sequence,
    buffers: &mut SequenceBuffers,
) -> ((usize, Offender), Vec<Stage>) {
    let number = sequence::number(call);
    let stages = if number == 0 { sequence::stages(call) } else { Vec::new() };
    let mut expected = buffers.clone();
    if let Some(stage) = stages.last() {
        let lent = lend(call, &mut expected);
        lent.first_work.fill(0);
        lent.second_work.fill(0);
        lent.output.fill(0);
        lent.scratch.fill(0);
        lent.final_map.copy_from_slice(&stage.map);
    }
    let answer = made(random, call, buffers);
    assert_eq!(answer, (number, sequence::told(call, number)), "answer to {}", sequence_name(call));
    same("first work map", &buffers.first_work, &expected.first_work, || sequence_name(call));
    same("second work map", &buffers.second_work, &expected.second_work, || sequence_name(call));
    same("output", &buffers.output, &expected.output, || sequence_name(call));
    same("scratch", &buffers.scratch, &expected.scratch, || sequence_name(call));
    same("final", &buffers.final_map, &expected.final_map, || sequence_name(call));
    (answer, stages)
}

/// Makes the call with guard values around what it reads as well, which must all stay.
fn made(random: &mut Random, call: &Sequence, buffers: &mut SequenceBuffers) -> (usize, Offender) {
    let map = Buffer::around(&call.map, || random.word() as i16);
    let kernels = Buffer::around(&call.kernels, || random.word() as i16);
    let rows = Buffer::around(&call.numbers(), || random.word() as usize);
    let given = (map.clone(), kernels.clone(), rows.clone());
    let steps = rows.words().try_into().expect("eight rows of eighteen numbers");
    let answer = engine::sequence(call.count, steps, (map.words(), kernels.words()), lend(call, buffers));
    same("first map", &map, &given.0, || sequence_name(call));
    same("kernels", &kernels, &given.1, || sequence_name(call));
    same("steps", &rows, &given.2, || sequence_name(call));
    answer
}

/// As much of each buffer as the call lends.
fn lend<'a>(call: &Sequence, buffers: &'a mut SequenceBuffers) -> Lent<'a> {
    let lengths = call.lengths;
    Lent {
        first_work: buffers.first_work.lend(lengths.first_work),
        second_work: buffers.second_work.lend(lengths.second_work),
        output: buffers.output.lend(lengths.output),
        scratch: buffers.scratch.lend(lengths.scratch),
        final_map: buffers.final_map.lend(lengths.final_map),
    }
}

/// The count and the rows of a sequence, for a message.
fn sequence_name(call: &Sequence) -> String {
    format!("a sequence of {}, {:?}", call.count, call.rows)
}
