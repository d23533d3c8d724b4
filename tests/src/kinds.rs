//! Every kind with every engine and field: a test for each, or each in its turn.

use crate::engine::Engine;
use crate::parts::ENGINES_AND_FIELDS;

/// The kind, engine and field of a trial: six trials one after the other take every one of them.
pub fn in_turn(trial: usize) -> (usize, Engine, usize) {
    let (engine, field) = ENGINES_AND_FIELDS[trial / 2 % ENGINES_AND_FIELDS.len()];
    (trial % 2, engine, field)
}

/// Six tests of a function that takes a test's name, a kind, an engine and a field.
#[macro_export]
macro_rules! for_kinds_and_engines {
    ($held:ident, $file:literal) => {
        #[test]
        fn conv_in_field_4() {
            $held(concat!($file, ", conv in field 4"), $crate::layer::CONV, $crate::engine::Engine::Tiles, 4);
        }

        #[test]
        fn conv_in_field_5() {
            $held(concat!($file, ", conv in field 5"), $crate::layer::CONV, $crate::engine::Engine::Tiles, 5);
        }

        #[test]
        fn conv_by_strips() {
            $held(concat!($file, ", conv by strips"), $crate::layer::CONV, $crate::engine::Engine::Strips, 4);
        }

        #[test]
        fn tconv_in_field_4() {
            $held(concat!($file, ", tconv in field 4"), $crate::layer::TCONV, $crate::engine::Engine::Tiles, 4);
        }

        #[test]
        fn tconv_in_field_5() {
            $held(concat!($file, ", tconv in field 5"), $crate::layer::TCONV, $crate::engine::Engine::Tiles, 5);
        }

        #[test]
        fn tconv_by_strips() {
            $held(concat!($file, ", tconv by strips"), $crate::layer::TCONV, $crate::engine::Engine::Strips, 4);
        }
    };
}
