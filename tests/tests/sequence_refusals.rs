//! Whole sequences that are refused: every rule broken in every way and in every step, alone, two at a time and several at
//! once; weights, buffers and scratch of every length that decides; and the place of the first map value beyond the peak. The
//! number is that of the first broken rule in the request's order, and every buffer stays as lent.

use std::collections::BTreeSet;
use wemsteky_tests::checked;
use wemsteky_tests::layer::{Layer, CONV, TCONV};
use wemsteky_tests::random::{seed, Random};
use wemsteky_tests::rules::{Offender, ABOVE, BELOW};
use wemsteky_tests::sequence::{Lengths, Sequence, Step, MOST, NUMBERS};
use wemsteky_tests::sequence_damage::{damages, Damage, COUNTS};
use wemsteky_tests::sequence_draw::{self as draw, count_in_turn, least_lengths, Size, SMALL};

/// Makes a call with buffers of any contents, and holds all that it returns and leaves.
fn answered(random: &mut Random, call: &Sequence) -> (usize, Offender) {
    let mut buffers = draw::buffers(random, call);
    checked::sequence(random, call, &mut buffers).0
}

fn number(random: &mut Random, call: &Sequence) -> usize {
    answered(random, call).0
}

fn damaged(call: &Sequence, damages: &[&Damage]) -> Sequence {
    let mut call = call.clone();
    damages.iter().for_each(|damage| damage.apply(&mut call));
    call
}

/// Every number, and those of a step in each of the eight.
#[test]
fn each_damage_is_answered_by_its_number() {
    let mut seen = BTreeSet::new();
    for trial in 0..48 {
        let mut random = Random::new("sequence refusals, each damage", trial);
        let call = draw::sequence(&mut random, count_in_turn(trial), SMALL);
        for damage in damages(&call) {
            let answer = number(&mut random, &damaged(&call, &[&damage]));
            assert_eq!(answer, damage.number, "{}", damage.name);
            seen.insert((damage.place.0, answer));
        }
        assert_eq!(number(&mut random, &call), 0, "{:?}", call.steps());
    }
    let of_a_step = (1..=9).chain([11, 14, 16, 20, 23, 24]);
    let steps = (1..=MOST).flat_map(|step| of_a_step.clone().map(move |number| (step, number)));
    let all: BTreeSet<_> = steps.chain([22, 10, 12, 13, 15, 25].map(|number| (9, number))).chain([(0, 21)]).collect();
    assert_eq!(seen, all);
}

/// All pairs of damages of a sequence of up to three steps. A number of one step comes before every number of the next step,
/// whichever of them comes first in one step.
#[test]
fn of_two_damages_the_earlier_answers() {
    let mut against_the_order_of_one_step = 0;
    for trial in 0..6 {
        let mut random = Random::new("sequence refusals, two damages", trial);
        let call = draw::sequence(&mut random, 1 + trial % 3, Size { channels: 2, longest: 6 });
        let damages = damages(&call);
        for later in &damages {
            for earlier in damages.iter().filter(|earlier| earlier.place < later.place) {
                let answer = number(&mut random, &damaged(&call, &[later, earlier]));
                assert_eq!(answer, earlier.number, "{}, {}", earlier.name, later.name);
                let of_steps = earlier.place.0 > 0 && later.place.0 <= MOST;
                against_the_order_of_one_step += usize::from(of_steps && earlier.place.1 > later.place.1);
            }
        }
    }
    assert!(against_the_order_of_one_step > 1_000, "{against_the_order_of_one_step}");
}

/// Pairs of damages of sequences of every count, drawn among them.
#[test]
fn of_two_damages_in_any_steps_the_earlier_answers() {
    for trial in 0..160 {
        let mut random = Random::new("sequence refusals, any two damages", trial);
        let call = draw::sequence(&mut random, count_in_turn(trial), SMALL);
        let damages = damages(&call);
        for _ in 0..200 {
            let [one, other] = [(); 2].map(|_| &damages[random.below(damages.len())]);
            let (earlier, later) = if one.place < other.place { (one, other) } else { (other, one) };
            if earlier.place < later.place {
                let answer = number(&mut random, &damaged(&call, &[later, earlier]));
                assert_eq!(answer, earlier.number, "{}, {}", earlier.name, later.name);
            }
        }
    }
}

/// Three to ten damages, each of another rule or step; later ones are made first.
#[test]
fn several_damages_at_once() {
    for trial in 0..4_000 {
        let mut random = Random::new("sequence refusals, several damages", trial);
        let call = draw::sequence(&mut random, count_in_turn(trial), Size { channels: 2, longest: 6 });
        let damages = damages(&call);
        let mut chosen: Vec<_> = (0..random.between(3, 10)).map(|_| &damages[random.below(damages.len())]).collect();
        chosen.sort_by_key(|damage| std::cmp::Reverse(damage.place));
        chosen.dedup_by_key(|damage| damage.place);
        let first = chosen.last().unwrap();
        assert_eq!(number(&mut random, &damaged(&call, &chosen)), first.number, "{}", first.name);
    }
}

/// Counts outside 1 to 8 come first, whatever the rows hold and however little is lent.
#[test]
fn counts() {
    let mut random = Random::new("sequence refusals, counts", 0);
    for count in COUNTS {
        let mut call = draw::sequence(&mut random, MOST, SMALL);
        call.count = count;
        assert_eq!(number(&mut random, &call), 21, "count {count}");
        for row in [Step::filled(0), Step::filled(usize::MAX)] {
            let empty = Sequence { count, rows: [row; MOST], ..Sequence::default() };
            assert_eq!(number(&mut random, &empty), 21, "count {count}");
        }
    }
}

/// Numbers at the ends of every range and of 8 to 64 bits.
const ENDS: [usize; 17] =
    [0, 1, 2, 3, 4, 5, 11, 12, 64, 65, 512, 513, 32_767, 32_768, 1 << 32, usize::MAX - 1, usize::MAX];

/// Every number of every step replaced by each of these, one at a time.
#[test]
fn every_number_at_its_ends() {
    let mut seen = BTreeSet::new();
    for trial in 0..24 {
        let mut random = Random::new("sequence refusals, ends", trial);
        let call = draw::sequence(&mut random, count_in_turn(trial), Size { channels: 2, longest: 6 });
        for (step, place) in (0..call.count).flat_map(|step| (0..NUMBERS).map(move |place| (step, place))) {
            for end in ENDS {
                let mut changed = call.clone();
                changed.rows[step] = changed.rows[step].with(place, end);
                seen.insert(number(&mut random, &changed));
            }
        }
    }
    let all = (0..=12).chain([14, 16, 20, 22, 23, 25]);
    assert!(all.clone().all(|number| seen.contains(&number)), "{seen:?}, seed {}", seed());
}

/// Any numbers in a few places of the rows, those from the count on among them, which count for nothing.
#[test]
fn any_numbers_in_any_places() {
    let (mut seen, mut spared) = (BTreeSet::new(), 0);
    for trial in 0..12_000 {
        let mut random = Random::new("sequence refusals, any numbers", trial);
        let mut call = draw::sequence(&mut random, count_in_turn(trial), Size { channels: 2, longest: 5 });
        let mut least = MOST;
        for _ in 0..random.between(1, 4) {
            let (step, place) = (random.below(MOST), random.below(NUMBERS));
            let any = random.word() as usize >> random.below(64);
            let number = if random.once_in(2) { random.pick(&ENDS) } else { any };
            call.rows[step] = call.rows[step].with(place, number);
            least = least.min(step);
        }
        let answer = number(&mut random, &call);
        if least >= call.count {
            assert_eq!(answer, 0, "{:?}", call.rows);
            spared += 1;
        }
        seen.insert(answer);
    }
    assert!(spared > 1_000 && seen.len() > 15, "{spared}, {seen:?}, seed {}", seed());
}

/// Layers of side 1 over 3 by 3 places, one after the other, with so many output channels and in these fields.
fn of_channels(random: &mut Random, layers: &[(usize, usize)]) -> Sequence {
    let mut steps: Vec<Step> = Vec::new();
    for (place, &(outputs, field)) in layers.iter().enumerate() {
        let inputs = steps.last().map_or(2, |step| step.layer.outputs);
        let layer = Layer::of([place % 2, field, inputs, outputs, 3, 3, 1, 1, 0, 20, 0, 0, 3, 3]);
        steps.push(Step { layer, shift: 4, bound: 20 });
    }
    draw::sequence_of(random, &steps)
}

/// Every count of weights from none to a few too many. A wrong bound in a step comes after the weights of that step and before
/// those of the next one, a wrong kind before both.
#[test]
fn weights_of_every_count() {
    for count in 1..=MOST {
        let mut random = Random::new("sequence refusals, weights", count);
        let layers: Vec<_> = (0..count).map(|_| (random.between(1, 3), random.between(4, 5))).collect();
        let mut call = of_channels(&mut random, &layers);
        let (all, kernels) = (call.kernels.len(), [&call.kernels[..], &[1, -1, 1]].concat());
        for weights in 0..=kernels.len() {
            call.kernels = kernels[..weights].to_vec();
            let expected = if weights == all { 0 } else { 11 };
            assert_eq!(number(&mut random, &call), expected, "{weights} of {all}");
            for step in 0..count {
                let mut wrong = call.clone();
                wrong.rows[step].bound = 0;
                let too_few = weights < call.part(step).end;
                let left_over = step + 1 == count && weights > all;
                let expected = if too_few || left_over { 11 } else { 20 };
                assert_eq!(number(&mut random, &wrong), expected, "{weights} of {all}, bound of step {step}");
                wrong.rows[step].layer.kind = 2;
                let expected = if weights < call.part(step).start { 11 } else { 1 };
                assert_eq!(number(&mut random, &wrong), expected, "{weights} of {all}, kind of step {step}");
            }
        }
    }
}

/// The weights of more layers than the count: some are left over at the last one of the count, though the rows after it
/// would need them. Without these weights the call is accepted.
#[test]
fn weights_of_rows_after_the_count() {
    for trial in 0..70 {
        let mut random = Random::new("sequence refusals, rows after the count", trial);
        let call = draw::sequence(&mut random, 2 + trial % (MOST - 1), SMALL);
        for count in 1..call.count {
            let mut fewer = Sequence { count, ..call.clone() };
            fewer.lengths = least_lengths(&fewer);
            assert_eq!(number(&mut random, &fewer), 11, "{count} of {:?}", call.steps());
            fewer.kernels.truncate(call.part(count).start);
            assert_eq!(number(&mut random, &fewer), 0, "{count} of {:?}", call.steps());
        }
    }
}

/// For sequences of every count, a list that is true at one layer, each in its turn, or at none.
fn one_in_turn() -> impl Iterator<Item = Vec<bool>> {
    (1..=MOST).flat_map(|count| (0..=count).map(move |one| (0..count).map(|place| place == one).collect()))
}

/// Buffers as long as the greatest layer asks for, wherever it stands, with one layer too; each of them one shorter, and as
/// short as another layer would allow; the final buffer one longer, and as long as the work maps.
#[test]
fn rooms_of_every_length() {
    for one in one_in_turn() {
        let channels: Vec<usize> = one.iter().map(|&has_more| if has_more { 3 } else { 2 }).collect();
        let mut random = Random::new("sequence refusals, rooms", channels.len());
        let call = of_channels(&mut random, &channels.iter().map(|&outputs| (outputs, 4)).collect::<Vec<_>>());
        let (greatest, last) = (call.greatest_output() as usize, call.lengths.final_map);
        let mut with = |lengths: Lengths| number(&mut random, &Sequence { lengths, ..call.clone() });
        let exact = call.lengths;
        assert_eq!((exact.first_work, exact.second_work, exact.output), (greatest, greatest, greatest));
        assert_eq!(with(exact), 0, "{channels:?}");
        for room in [0, 1, 9, 18, 26, greatest - 1, greatest, greatest + 1, 2 * greatest, 1_000] {
            let expected = if room < greatest { 12 } else { 0 };
            assert_eq!(with(Lengths { first_work: room, ..exact }), expected, "first {room} of {channels:?}");
            assert_eq!(with(Lengths { second_work: room, ..exact }), expected, "second {room} of {channels:?}");
            assert_eq!(with(Lengths { output: room, ..exact }), expected, "output {room} of {channels:?}");
            let expected = if room == last { 0 } else { 12 };
            assert_eq!(with(Lengths { final_map: room, ..exact }), expected, "final {room} of {channels:?}");
        }
        assert_eq!(with(Lengths { final_map: last - 1, ..exact }), 12, "{channels:?}");
        assert_eq!(with(Lengths { final_map: last + 1, ..exact }), 12, "{channels:?}");
    }
}

/// Scratch exactly enough and one short, with one layer in field 5 wherever it stands, with none or with all.
#[test]
fn scratch_of_every_length() {
    for one in one_in_turn() {
        let mut random = Random::new("sequence refusals, scratch", one.len());
        for field in [4, 5] {
            let layers: Vec<_> = one.iter().map(|&is_5| (2, if is_5 { 5 } else { field })).collect();
            let call = of_channels(&mut random, &layers);
            let words = if layers.iter().any(|&(_, field)| field == 5) { 12_288 } else { 3_072 };
            for scratch in [0, 1, 768, 3_071, 3_072, 3_073, 12_287, 12_288, 12_289, 20_000] {
                let lengths = Lengths { scratch, ..call.lengths };
                let expected = if scratch < words { 13 } else { 0 };
                let answer = number(&mut random, &Sequence { lengths, ..call.clone() });
                assert_eq!(answer, expected, "{scratch} words for {layers:?}");
            }
        }
    }
}

/// The channels, rows and columns of the map that a layer takes, all of the same length; B is the peak, or one more or less.
#[test]
fn neighbours_of_the_same_length() {
    let mut random = Random::new("sequence refusals, neighbours", 0);
    let shapes = [[2, 3, 4], [2, 4, 3], [3, 2, 4], [3, 4, 2], [4, 2, 3], [4, 3, 2], [1, 6, 4], [24, 1, 1], [1, 1, 24]];
    for (from, to) in shapes.iter().flat_map(|from| shapes.iter().map(move |to| (from, to))) {
        for (bound, peak) in [(7, 7), (7, 6), (6, 7), (32_767, 32_767), (32_767, 1)] {
            let call = neighbours(&mut random, *from, bound, *to, peak);
            let expected = if from == to && bound == peak { 0 } else { 22 };
            assert_eq!(number(&mut random, &call), expected, "{from:?}, {bound}, {to:?}, {peak}");
        }
    }
}

/// Two steps: the first leaves a map of a shape and a bound, the second takes a shape and a peak.
fn neighbours(random: &mut Random, from: [usize; 3], bound: usize, to: [usize; 3], peak: usize) -> Sequence {
    let first = Layer::of([CONV, 4, 1, from[0], from[1], from[2], 1, 1, 0, 9, 0, 0, from[1], from[2]]);
    let second = Layer::of([TCONV, 5, to[0], 1, to[1], to[2], 1, 1, 0, peak, 0, 0, to[1], to[2]]);
    let steps = [Step { layer: first, shift: 0, bound }, Step { layer: second, shift: 16, bound: 100 }];
    draw::sequence_of(random, &steps)
}

/// Values beyond the peak of the first layer: next to it and at the ends of 16 bits.
fn beyond(peak: usize) -> [(i16, usize); 4] {
    [(peak as i16 + 1, ABOVE), (32_767, ABOVE), (-(peak as i16) - 1, BELOW), (-32_768, BELOW)]
}

/// One value beyond the peak at every place of a small map; then others after it as well, on sides that are drawn.
#[test]
fn places_and_sides() {
    let mut seen = [0; 3];
    for trial in 0..80 {
        let mut random = Random::new("sequence refusals, places", trial);
        let mut call = draw::sequence(&mut random, count_in_turn(trial), SMALL);
        let peak = call.rows[0].layer.peak.min(32_766);
        call.rows[0].layer.peak = peak;
        call.map.iter_mut().for_each(|value| *value = (*value).clamp(-(peak as i16), peak as i16));
        let Layer { height, width, .. } = call.rows[0].layer;
        for place in 0..call.map.len() {
            let (mut refused, (value, side)) = (call.clone(), random.pick(&beyond(peak)));
            refused.map[place] = value;
            let (channel, row, column) = (place / width / height, place / width % height, place % width);
            let expected = ([0, 15, 25][side], Offender { channel, row, column, side });
            assert_eq!(answered(&mut random, &refused), expected, "{value} at {place} of {:?}", call.steps());
            for later in place + 1..call.map.len() {
                if random.once_in(3) {
                    refused.map[later] = random.pick(&beyond(peak)).0;
                }
            }
            assert_eq!(answered(&mut random, &refused), expected, "{value} at {place} of {:?}", call.steps());
            seen[side] += 1;
        }
    }
    assert!(seen[ABOVE] > 500 && seen[BELOW] > 500, "{seen:?}, seed {}", seed());
}

/// −32,768 is below the negative of every peak, the greatest one too, and no value is above that one.
#[test]
fn the_least_value_under_any_peak() {
    let mut random = Random::new("sequence refusals, least value", 0);
    let mut call = of_channels(&mut random, &[(1, 5), (1, 4)]);
    call.kernels.fill(1);
    for peak in [1, 2, 127, 128, 255, 256, 32_766, 32_767] {
        call.rows[0].layer.peak = peak;
        call.map.fill(peak as i16);
        assert_eq!(number(&mut random, &call), 0, "peak {peak}");
        call.map[10] = i16::MIN;
        let place = Offender { channel: 1, row: 0, column: 1, side: BELOW };
        assert_eq!(answered(&mut random, &call), (25, place), "peak {peak}");
    }
}
