//! Rows and columns that are added at the bottom and right of a full transposed output: every count with every window, the
//! sizes at which the first output appears, and what stands at the added places.

use wemsteky_tests::call::Call;
use wemsteky_tests::checked::{self, whole_run};
use wemsteky_tests::draw;
use wemsteky_tests::engine::Engine;
use wemsteky_tests::layer::{Layer, CONV, TCONV};
use wemsteky_tests::list::List;
use wemsteky_tests::parts::ENGINES_AND_FIELDS;
use wemsteky_tests::random::Random;

/// Every K, P and S with every count of rows and of columns.
fn windows() -> impl Iterator<Item = Layer> {
    let paddings = (1..=11).flat_map(|side| (0..side).map(move |padding| (side, padding)));
    let windows = paddings.flat_map(|(side, padding)| (1..=4).map(move |stride| (side, padding, stride)));
    windows.flat_map(|(side, padding, stride)| {
        let counts = (0..stride).flat_map(move |below| (0..stride).map(move |beside| (below, beside)));
        counts.map(move |(below, beside)| Layer {
            kind: TCONV,
            side,
            stride,
            padding,
            below,
            beside,
            ..Layer::default()
        })
    })
}

/// A layer of a few map values that is not cropped. With three map channels a refused call can break any rule.
fn whole_layer(random: &mut Random, window: Layer, field: usize) -> Layer {
    let (height, width) = (random.between(1, 8), random.between(1, 8));
    let mut layer = Layer { field, inputs: 3, outputs: 1, height, width, peak: random.between(1, 100), ..window };
    draw::lengthen(&mut layer);
    layer.uncropped()
}

fn every_window(test: &'static str, engine: Engine, field: usize) {
    for (trial, window) in windows().enumerate() {
        let mut random = Random::new(test, trial);
        let layer = whole_layer(&mut random, window, field);
        let call = draw::call(&mut random, engine, layer);
        let sums = whole_run(&mut random, &call);
        if trial % 8 == 0 {
            List::new(&mut random, call).finish(&mut random, Some(&sums));
        }
    }
}

#[test]
fn every_window_in_field_4() {
    every_window("added, every window in field 4", Engine::Tiles, 4);
}

#[test]
fn every_window_in_field_5() {
    every_window("added, every window in field 5", Engine::Tiles, 5);
}

#[test]
fn every_window_by_strips() {
    every_window("added, every window by strips", Engine::Strips, 4);
}

/// Without padding the kernel of the last map value ends before the added places, so that they are 0; and the places before
/// them are those of the layer that adds nothing.
#[test]
fn added_places_are_0_without_padding() {
    for (trial, window) in windows().filter(|window| window.padding == 0).enumerate() {
        let mut random = Random::new("added, no padding", trial);
        let (engine, field) = ENGINES_AND_FIELDS[trial % ENGINES_AND_FIELDS.len()];
        let layer = whole_layer(&mut random, window, field);
        let call = draw::call(&mut random, engine, layer);
        let sums = whole_run(&mut random, &call);
        let (rows, columns) = (layer.rows - layer.below, layer.columns - layer.beside);
        let smaller = Layer { below: 0, beside: 0, rows, columns, ..layer };
        let mut kept =
            whole_run(&mut random, &Call { layer: smaller, output_length: rows * columns, ..call }).into_iter();
        for (place, &sum) in sums.iter().enumerate() {
            let inside = place / layer.columns < rows && place % layer.columns < columns;
            assert_eq!(sum, if inside { kept.next().unwrap() } else { 0 }, "place {place} of {layer:?}");
        }
    }
}

/// With padding an added place may be met by a weight: map 1, kernel 1 to 9, P 1, S 2. Of the full 3 by 3 sums, which are the
/// kernel, one row and one column are cut at the top and left, and the added ones bring back those cut at the other ends.
#[test]
fn added_places_with_padding() {
    let layer = Layer::of([TCONV, 4, 1, 1, 1, 1, 3, 2, 1, 1, 0, 0, 0, 0]);
    for (below, beside, sums) in [(0, 0, vec![5]), (1, 0, vec![5, 8]), (0, 1, vec![5, 6]), (1, 1, vec![5, 6, 8, 9])] {
        let mut random = Random::new("added, with padding", 2 * below + beside);
        for (engine, field) in ENGINES_AND_FIELDS {
            let layer = Layer { field, below, beside, ..layer }.uncropped();
            let mut call = draw::call(&mut random, engine, layer);
            (call.map, call.kernel) = (vec![1], (1..=9).collect());
            assert_eq!(whole_run(&mut random, &call), sums);
        }
    }
}

/// The sum is taken before it is held to 1: H 1, K 3 and P 2 come to −1, with a row added to 0, with two to 1.
#[test]
fn the_first_output_comes_with_the_added_rows() {
    for (stride, added, number) in [(2, 0, 8), (2, 1, 8), (3, 0, 8), (3, 1, 8), (3, 2, 0), (4, 2, 0), (4, 3, 0)] {
        let layer = Layer::of([TCONV, 4, 1, 1, 1, 9, 3, stride, 2, 1, 0, 0, 1, 1]);
        assert_eq!(checked::plan_by_both(&Layer { below: added, ..layer }), number, "rows, S {stride}, {added} added");
        let layer = Layer { height: 9, width: 1, ..layer };
        assert_eq!(
            checked::plan_by_both(&Layer { beside: added, ..layer }),
            number,
            "columns, S {stride}, {added} added"
        );
    }
}

/// 23 stands between 7 and 8, and is asked of both numbers whatever they are.
#[test]
fn what_is_added_is_refused_in_order() {
    for (kind, stride) in [CONV, TCONV].into_iter().flat_map(|kind| (1..=4).map(move |stride| (kind, stride))) {
        let layer = Layer::of([kind, 4, 1, 1, 9, 9, 3, stride, 0, 1, 0, 0, 1, 1]);
        let most = if kind == CONV { 0 } else { stride - 1 };
        for count in (0..8).chain([1 << 16, 1 << 32, (1 << 32) + 1, 1 << 63, usize::MAX]) {
            let number = if count <= most { 0 } else { 23 };
            for (below, beside) in [(count, 0), (0, count), (count, count)] {
                let added = Layer { below, beside, ..layer };
                assert_eq!(checked::plan_by_both(&added), number, "{added:?}");
                assert_eq!(checked::plan_by_both(&Layer { padding: 3, ..added }), 7, "7 before 23: {added:?}");
            }
            let none = Layer { below: count, ..layer };
            let none = if kind == CONV { Layer { height: 1, ..none } } else { Layer { height: 1, padding: 2, ..none } };
            let expected = match number {
                23 => 23,
                _ if kind == TCONV && count >= 2 => 0,
                _ => 8,
            };
            assert_eq!(checked::plan_by_both(&none), expected, "23 before 8: {none:?}");
        }
    }
}
