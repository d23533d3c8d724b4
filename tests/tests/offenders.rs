//! Map values beyond the peak: one at every place of small maps, on both sides; several, of which the first in stored order
//! is told; every peak; and the numbers that come with no place.

use wemsteky_tests::call::Call;
use wemsteky_tests::damage::{breakable_layer, damages, set_above};
use wemsteky_tests::engine::{Answer, Engine};
use wemsteky_tests::kinds::in_turn;
use wemsteky_tests::layer::{Layer, CONV, TCONV};
use wemsteky_tests::parts::ENGINES;
use wemsteky_tests::random::Random;
use wemsteky_tests::rules::{place, Offender, ABOVE, BELOW};
use wemsteky_tests::{checked, draw, for_kinds_and_engines};

/// A run and a job call from any part, which must answer alike but for the index handed back.
fn answered(random: &mut Random, call: &Call) -> Answer {
    let mut buffers = draw::buffers(random, call);
    let later = Call { next: random.below(call.total() + 1), budget: random.word() as usize, ..call.clone() };
    let run = checked::run(call, &mut buffers, None);
    let job = checked::job(&later, &mut buffers, None);
    assert_eq!((run.number, run.offender), (job.number, job.offender), "{:?}", call.layer);
    run
}

/// The number that stands with a side.
fn number(side: usize) -> usize {
    [0, 15, 25][side]
}

/// The values that are tried on each side of a peak: next to it, and the last of 16 bits.
fn beyond(peak: usize) -> Vec<(i16, usize)> {
    let above = [peak + 1, 32_767].into_iter().filter(|&value| value > peak && value <= 32_767);
    let values = above.map(|value| (value as i16, ABOVE));
    values.chain([(-(peak as i32) - 1, BELOW), (-32_768, BELOW)].map(|(value, side)| (value as i16, side))).collect()
}

/// Channels, rows and columns of a map.
const MAPS: [(usize, usize, usize); 8] =
    [(1, 1, 1), (1, 1, 5), (1, 4, 1), (3, 1, 1), (2, 2, 3), (2, 3, 2), (3, 1, 4), (4, 5, 1)];

fn one_at_every_place(test: &'static str, kind: usize, engine: Engine, field: usize) {
    for (trial, (inputs, height, width)) in MAPS.into_iter().enumerate() {
        let mut random = Random::new(test, trial);
        let peak = random.pick(&[1, 2, 127, 128, 255, 32_766, 32_767]);
        let layer =
            Layer { inputs, ..Layer::of([kind, field, 1, 2, height, width, 1, 1, 0, peak, 0, 0, height, width]) };
        let call = draw::call(&mut random, engine, layer);
        for (place, (value, side)) in
            (0..call.map.len()).flat_map(|place| beyond(peak).into_iter().map(move |v| (place, v)))
        {
            let mut damaged = call.clone();
            damaged.map[place] = value;
            let (channel, row, column) = (place / width / height, place / width % height, place % width);
            let answer = answered(&mut random, &damaged);
            assert_eq!(answer.offender, Offender { channel, row, column, side }, "{value} at {place} of {layer:?}");
            assert_eq!(answer.number, number(side), "{value} at {place} of {layer:?}");
        }
        assert_eq!(answered(&mut random, &call).number, 0, "{layer:?}");
    }
}

for_kinds_and_engines!(one_at_every_place, "offenders, every place");

/// Two to many values beyond the peak, on sides that are drawn: the first in stored order is told, whichever its side.
#[test]
fn the_first_of_several() {
    let mut seen = [0; 3];
    for trial in 0..900 {
        let mut random = Random::new("offenders, several", trial);
        let (kind, engine, field) = in_turn(trial);
        let layer = draw::any_layer(&mut random, kind, field, 4, 12);
        let layer = Layer { peak: layer.peak.min(32_766), ..layer };
        let mut call = draw::call(&mut random, engine, layer);
        let (mut first, mut first_side) = (usize::MAX, 0);
        for _ in 0..random.between(2, 9) {
            let place = random.below(call.map.len());
            let (value, side) = random.pick(&beyond(layer.peak));
            call.map[place] = value;
            if place <= first {
                (first, first_side) = (place, side);
            }
        }
        let answer = answered(&mut random, &call);
        let offender = answer.offender;
        let told = (offender.channel * layer.height + offender.row) * layer.width + offender.column;
        assert!(offender.row < layer.height && offender.column < layer.width, "{answer:?} of {layer:?}");
        assert_eq!((told, offender.side, answer.number), (first, first_side, number(first_side)), "{layer:?}");
        seen[first_side] += 1;
    }
    assert!(seen[ABOVE] > 100 && seen[BELOW] > 100, "{seen:?}");
}

/// Every peak with the values at it, next to it and at the ends of 16 bits. Of A 32,767 only −32,768 is beyond.
#[test]
fn every_peak() {
    ENGINES.into_iter().for_each(every_peak_of);
}

fn every_peak_of(engine: Engine) {
    let mut random = Random::new("offenders, every peak", 0);
    let mut call = draw::call(&mut random, engine, Layer::of([CONV, 4, 1, 1, 1, 1, 1, 1, 0, 1, 0, 0, 1, 1]));
    call.kernel = vec![1];
    let mut buffers = draw::buffers(&mut random, &call);
    let mut side_of = |peak: usize, value: i16| {
        (call.layer.peak, call.map[0]) = (peak, value);
        let answer = checked::run(&call, &mut buffers, None);
        assert_eq!(answer.number, number(answer.offender.side), "{value} under {peak}");
        answer.offender.side
    };
    for peak in 1..=32_767 {
        assert_eq!((side_of(peak, peak as i16), side_of(peak, -(peak as i16))), (0, 0), "peak {peak}");
        for (value, side) in beyond(peak) {
            assert_eq!(side_of(peak, value), side, "{value} under {peak}");
        }
    }
}

/// A value beyond the peak with a breach of every other rule: rules before 15 answer with zeros, those after it are not
/// reached.
#[test]
fn in_order() {
    for trial in 0..60 {
        let mut random = Random::new("offenders, order", trial);
        let (kind, engine, field) = in_turn(trial);
        let layer = breakable_layer(&mut random, kind, field, 3, 12);
        let call = draw::call(&mut random, engine, layer);
        for damage in damages(engine).iter().filter(|damage| place(damage.rule) != place(15)) {
            let mut damaged = call.clone();
            let later = place(damage.rule) > place(15);
            if later {
                damage.apply(&mut damaged);
            }
            let somewhere = random.below(call.map.len());
            let side = random.pick(&[ABOVE, BELOW]);
            match side {
                ABOVE => set_above(&mut damaged, somewhere),
                _ => damaged.map[somewhere] = -(damaged.layer.peak as i16) - 1,
            }
            if !later {
                damage.apply(&mut damaged);
            }
            let answer = checked::job(&damaged, &mut draw::buffers(&mut random, &damaged), None);
            let expected = if later { (number(side), side) } else { (damage.rule, 0) };
            assert_eq!((answer.number, answer.offender.side), expected, "{}", damage.name);
            assert!(later || answer.offender == Offender::default(), "{}: {answer:?}", damage.name);
        }
    }
}

/// The greatest map: its last value, then the first of its last channel as well.
#[test]
fn the_greatest_map() {
    for (kind, engine, side) in
        [(CONV, Engine::Tiles, ABOVE), (TCONV, Engine::Tiles, BELOW), (TCONV, Engine::Strips, ABOVE)]
    {
        let mut random = Random::new("offenders, the greatest map", kind);
        let layer = Layer::of([kind, 4, 64, 1, 512, 512, 1, 1, 0, 100, 0, 0, 1, 1]);
        let mut call = draw::call(&mut random, engine, layer);
        let value = if side == ABOVE { 101 } else { -101 };
        *call.map.last_mut().unwrap() = value;
        let mut buffers = draw::buffers(&mut random, &call);
        let last = checked::run(&call, &mut buffers, None);
        assert_eq!(last.offender, Offender { channel: 63, row: 511, column: 511, side });
        call.map[63 * 512 * 512] = -value;
        let first = checked::run(&call, &mut buffers, None);
        assert_eq!(first.offender, Offender { channel: 63, row: 0, column: 0, side: 3 - side });
        assert_eq!((last.number, first.number), (number(side), number(3 - side)));
    }
}
