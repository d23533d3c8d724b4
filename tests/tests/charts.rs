//! The chart cases of the request, run by both engines where the field is 4. Cases 1 to 12 are proved of the definitions;
//! case 13 is only run.

use wemsteky_tests::call::Call;
use wemsteky_tests::engine::{self, Engine};
use wemsteky_tests::example::Example;
use wemsteky_tests::layer::{Layer, CONV, TCONV};
use wemsteky_tests::parts::{ENGINES, ENGINES_AND_FIELDS};
use wemsteky_tests::random::Random;
use wemsteky_tests::{checked, draw};

const X: [i16; 9] = [1, 2, 3, 4, 5, 6, 7, 8, 9];
const Y: [i16; 4] = [1, 2, 3, 4];
const G: [i16; 4] = [1, 2, 3, 4];

/// One channel of each, a square map, the crop's far end at the full output.
fn layer(kind: usize, length: usize, side: usize, stride: usize, padding: usize) -> Layer {
    Layer::of([kind, 4, 1, 1, length, length, side, stride, padding, 1, 0, 0, 0, 0]).uncropped()
}

/// A name, a layer, its map, its kernel and its output.
type Case = (&'static str, Layer, &'static [i16], [i16; 4], &'static [i32]);

#[test]
fn cases_1_to_4_and_6() {
    let cases: [Case; 5] = [
        ("case 1", layer(CONV, 3, 2, 1, 0), &X, G, &[37, 47, 67, 77]),
        ("case 2", layer(TCONV, 2, 2, 2, 0), &Y, G, &[1, 2, 2, 4, 3, 4, 6, 8, 3, 6, 4, 8, 9, 12, 12, 16]),
        ("case 3", layer(TCONV, 2, 2, 1, 0), &Y, G, &[1, 4, 4, 6, 20, 16, 9, 24, 16]),
        ("case 4", layer(TCONV, 2, 2, 1, 1), &Y, G, &[20]),
        ("case 6", layer(CONV, 3, 2, 1, 0), &X, [1, 0, 0, -1], &[-4, -4, -4, -4]),
    ];
    for (name, layer, map, kernel, output) in cases {
        Example { name, layer, map, kernel: &kernel, output }.hold();
    }
}

#[test]
fn case_5() {
    for engine in ENGINES {
        let u = output(&lent(engine, layer(CONV, 3, 2, 1, 0), &X, &G, 9));
        let v = output(&lent(engine, layer(TCONV, 2, 2, 1, 0), &Y, &G, 4));
        let sum = |outputs: &[i32], map: &[i16]| outputs.iter().zip(map).map(|(u, &y)| u * i32::from(y)).sum::<i32>();
        assert_eq!((sum(&u, &Y), sum(&v, &X)), (640, 640), "{engine:?}");
    }
}

/// A whole run of a layer.
fn lent(engine: Engine, layer: Layer, map: &[i16], kernel: &[i16], peak: usize) -> Call {
    let mut call = draw::call(&mut Random::new("charts", 0), engine, Layer { peak, ..layer });
    (call.map, call.kernel) = (map.to_vec(), kernel.to_vec());
    call
}

fn output(call: &Call) -> Vec<i32> {
    let mut buffers = draw::buffers(&mut Random::new("charts", 1), call);
    assert_eq!(checked::run(call, &mut buffers, None).number, 0, "{:?}", call.layer);
    buffers.output.words().to_vec()
}

fn refused(call: &Call) -> usize {
    checked::run(call, &mut draw::buffers(&mut Random::new("charts", 2), call), None).number
}

#[test]
fn cases_7_and_8() {
    let single = layer(CONV, 1, 1, 1, 0);
    for engine in ENGINES {
        assert_eq!(output(&lent(engine, single, &[16_384], &[2], 16_384)), [32_768], "{engine:?}");
        assert_eq!(output(&lent(engine, single, &[16_384], &[-2], 16_384)), [-32_768], "{engine:?}");
        assert_eq!(refused(&lent(engine, single, &[1], &[3], 10_923)), 16, "{engine:?}");
        assert_eq!(output(&lent(engine, single, &[1], &[3], 10_922)), [3], "{engine:?}");
    }
}

#[test]
fn case_9() {
    let wide = Layer { field: 5, ..layer(CONV, 2, 2, 1, 0) };
    let lent = |map, kernel| lent(Engine::Tiles, wide, map, kernel, 32_767);
    assert_eq!(output(&lent(&[32_767; 4], &[32_767, 32_767, 4, 0])), [2_147_483_646]);
    assert_eq!(refused(&lent(&[1; 4], &[32_767, 32_767, 5, 0])), 16);
}

#[test]
fn cases_10_to_12() {
    let none = Layer { rows: 1, columns: 1, ..layer(TCONV, 1, 3, 1, 2) };
    ENGINES.into_iter().for_each(|engine| assert_eq!(engine.plan(&none.numbers()), (8, [0; 4]), "{engine:?}"));
    let tiles = |height| Engine::Tiles.plan(&Layer { height, ..layer(CONV, 32, 3, 1, 0) }.uncropped().numbers());
    assert_eq!(tiles(32), (0, [30, 30, 1, 3_072]));
    assert_eq!(tiles(33), (0, [31, 30, 2, 3_072]));
    let mut words = [0; 32];
    words[1] = 1;
    assert_eq!((engine::transform(4, &mut words), words[16]), (0, 65_536));
}

#[test]
fn case_13() {
    for (engine, field) in ENGINES_AND_FIELDS {
        let mut call = lent(engine, Layer { field, ..layer(CONV, 1, 1, 1, 0) }, &[i16::MIN], &[0], 1);
        let mut buffers = draw::buffers(&mut Random::new("charts", 3), &call);
        for peak in 1..=32_767 {
            call.layer.peak = peak;
            assert_eq!(checked::run(&call, &mut buffers, None).number, 25, "peak {peak}");
        }
    }
    for kind in [CONV, TCONV] {
        assert_eq!(checked::plan_by_both(&layer(kind, 512, 3, 1, 0)), 0);
        assert_eq!(checked::plan_by_both(&layer(kind, 513, 3, 1, 0)), 4);
    }
}
