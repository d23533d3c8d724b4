//! The bench program, run on inputs of every kind: each byte that it prints is held to the request's rules.

use std::time::Duration;
use wemsteky_tests::bench::{printed, small, LONGEST, UNREADABLE};
use wemsteky_tests::bench_input::{call, joined, spoiled, text, words};
use wemsteky_tests::bench_program::{hold, hold_known, run, Answer, Seen};
use wemsteky_tests::draw;
use wemsteky_tests::engine::Engine;
use wemsteky_tests::layer::{Layer, CONV, TCONV};
use wemsteky_tests::random::{seed, Random};
use wemsteky_tests::rules::plan_number;

/// The request's example.
const HEADER: &str = "0 4 1 1 3 3 2 1 0 9 0 0 2 2";
const BODY: &str = "1 2 3 4 5 6 7 8 9 1 2 3 4";
const FRAME: &str = "tiles 1\n37 47\n67 77\n";

#[test]
fn the_example_of_the_request() {
    hold_known(format!("{HEADER} {BODY}"), FRAME);
}

#[test]
fn separators_are_spaces_and_newlines() {
    let example = format!("{HEADER} {BODY}");
    for separator in ["\n", "  ", " \n", "\n ", "\n\n", " \n \n   "] {
        let spread = example.replace(' ', separator);
        for text in [spread.clone(), format!("{separator}{spread}"), format!("{spread}{separator}"), spread + "\n"] {
            hold_known(text, FRAME);
        }
    }
    for other in ["\t", "\r", "\r\n", "\0", "\x0b", "\x0c", "\u{a0}", "\u{85}", ",", ";", "_", "\x7f"] {
        hold_known(example.replace(' ', other), UNREADABLE);
        hold_known(example.replacen(' ', other, 1), UNREADABLE);
        hold_known(format!("{HEADER}{other}{BODY}"), UNREADABLE);
        hold_known(format!("{HEADER} {other}{BODY}"), UNREADABLE);
        hold_known(format!("{HEADER} {BODY}{other}"), UNREADABLE);
        hold_known(format!("{HEADER} {BODY} {other}"), UNREADABLE);
    }
}

/// Every byte after the first number, after the header's last, before the first map value, and at the end.
#[test]
fn every_byte_next_to_a_number() {
    for byte in 0..=u8::MAX {
        for place in [1, HEADER.len(), HEADER.len() + 1, HEADER.len() + 1 + BODY.len()] {
            let mut input = format!("{HEADER} {BODY}").into_bytes();
            input.insert(place, byte);
            hold(&input);
        }
    }
}

#[test]
fn counts_too_short_or_long() {
    let all: Vec<String> = format!("{HEADER} {BODY}").split(' ').map(String::from).collect();
    for count in 0..all.len() {
        hold_known(joined(&all[..count]), UNREADABLE);
    }
    for more in ["0", "0 0", "9 9 9 9 9", "x", "-"] {
        hold_known(format!("{HEADER} {BODY} {more}"), UNREADABLE);
    }
    hold_known(format!("{HEADER} {BODY} {HEADER} {BODY}"), UNREADABLE);
    hold_known(format!("{HEADER} {BODY}{HEADER} {BODY}"), UNREADABLE);
}

/// A peak, a map value and a weight of a layer with one output.
fn single(peak: &str, value: &str, weight: &str) -> String {
    format!("0 4 1 1 1 1 1 1 0 {peak} 0 0 1 1 {value} {weight}")
}

/// A peak, a map value, a weight, and the output or the number of the refusal.
type Single = (&'static str, &'static str, &'static str, Result<i32, usize>);

const SINGLES: &[Single] = &[
    ("9", "007", "2", Ok(14)),
    ("0009", "-007", "2", Ok(-14)),
    ("9", "-0", "5", Ok(0)),
    ("9", "-000", "5", Ok(0)),
    ("9", "5", "0", Err(24)),
    ("9", "5", "-0", Err(24)),
    ("9", "-000", "-000", Err(24)),
    ("9", "10", "-0", Err(15)),
    ("1", "1", "-32768", Ok(-32_768)),
    ("1", "-1", "-32768", Ok(32_768)),
    ("1", "-1", "32767", Ok(-32_767)),
    ("16384", "16384", "-2", Ok(-32_768)),
    ("32767", "-32767", "1", Ok(-32_767)),
    ("10922", "1", "3", Ok(3)),
    ("10923", "1", "3", Err(16)),
    ("32767", "1", "-32768", Err(16)),
    ("9", "10", "1", Err(15)),
    ("9", "-10", "1", Err(25)),
    ("32767", "-32768", "0", Err(25)),
    ("32766", "32767", "0", Err(15)),
    ("1", "-32768", "1", Err(25)),
    ("9", "10", "32767", Err(15)),
    ("0", "0", "0", Err(14)),
    ("32768", "1", "1", Err(14)),
    ("65535", "9", "32767", Err(14)),
];

#[test]
fn numbers_that_can_be_read() {
    for &(peak, value, weight, outcome) in SINGLES {
        let answer = match outcome {
            Ok(output) => format!("tiles 1\n{output}\n"),
            Err(number) => format!("refused {number}\n"),
        };
        hold_known(single(peak, value, weight), &answer);
    }
    for zeros in [1, 5, 10, 20, 40, 1_000, 5_000].map(|count| "0".repeat(count)) {
        hold_known(single(&format!("{zeros}9"), &format!("-{zeros}7"), &format!("{zeros}2")), "tiles 1\n-14\n");
        hold_known(single("9", &format!("{zeros}32768"), "1"), UNREADABLE);
    }
}

/// No number stands in a place that is too small for it, whatever it is when cut to 16, 32 or 64 bits, and whatever the
/// run would say.
#[test]
fn words_that_cannot_be_read() {
    let thousand = "1".repeat(1_000);
    let wrapped = format!("18446744073709551616{}", "0".repeat(980));
    let common = ["-", "--1", "+1", "1-2", "1-", "-1-", "- 1", "-+1", "0x1", "1.0", "1e0", "1,", "/", ":", "65536"];
    let large = ["65537", "4294967297", "18446744073709551617", "36893488147419103233", &thousand, &wrapped];
    for word in common.into_iter().chain(large) {
        for peak in ["9", "0", "65535"] {
            hold_known(single(peak, word, "1"), UNREADABLE);
            hold_known(single(peak, "1", word), UNREADABLE);
            hold_known(single(peak, &format!("-{word}"), "1"), UNREADABLE);
        }
        hold_known(single(word, "1", "1"), UNREADABLE);
    }
    for word in ["32768", "-32769", "65535", "-65535", "-4294967295"] {
        hold_known(single("9", word, "1"), UNREADABLE);
        hold_known(single("9", "1", word), UNREADABLE);
    }
    for place in 0..14 {
        for word in ["-0", "-1", "-", "65536", "65537", "4294967296", "18446744073709551616", "1x", "+0", &thousand] {
            let mut numbers: Vec<&str> = HEADER.split(' ').collect();
            numbers[place] = word;
            hold_known(format!("{} {BODY}", numbers.join(" ")), UNREADABLE);
        }
    }
}

/// Headers that the checks 1 to 9 refuse, each with its number.
const REFUSED: [(&str, &str); 12] = [
    ("2 4 1 1 3 3 2 1 0 9 0 0 2 2", "refused 1\n"),
    ("0 6 1 1 3 3 2 1 0 9 0 0 2 2", "refused 2\n"),
    ("0 4 0 1 3 3 2 1 0 9 0 0 2 2", "refused 3\n"),
    ("0 4 1 65 3 3 2 1 0 9 0 0 2 2", "refused 3\n"),
    ("0 5 1 1 3 513 2 1 0 9 0 0 2 2", "refused 4\n"),
    ("0 4 1 1 3 3 12 1 0 9 0 0 2 2", "refused 5\n"),
    ("0 4 1 1 3 3 2 65535 0 9 0 0 2 2", "refused 6\n"),
    ("0 4 1 1 3 3 2 1 2 9 0 0 2 2", "refused 7\n"),
    ("1 5 1 1 1 1 3 1 2 0 0 0 2 2", "refused 8\n"),
    ("0 4 64 64 3 3 2 1 0 0 0 0 0 2", "refused 9\n"),
    ("0 5 1 1 3 3 2 1 0 65535 0 0 3 2", "refused 9\n"),
    ("65535 65535 65535 65535 65535 65535 65535 65535 65535 65535 65535 65535 65535 65535", "refused 1\n"),
];

#[test]
fn after_a_refused_header_the_rest_is_unread() {
    let megabyte = |bytes: &str| bytes.repeat(1_000_000 / bytes.len());
    let tails = ["", " ", BODY, "x", "\0", "-", "99999999999999999999", "\t\r\u{ff}"].map(String::from);
    for (header, answer) in REFUSED {
        for tail in tails.iter().cloned().chain(["0", " ", "x\n", "7 \0"].map(megabyte)) {
            hold_known(format!("{header} {tail}"), answer);
            hold_known(format!("\n{header}\n{tail}"), answer);
        }
        hold_known(header, answer);
        hold_known(format!("{header}x"), UNREADABLE);
    }
}

/// An input that the run accepts but for its size, its values 0 and its weights 1.
fn blank(numbers: [usize; 14]) -> Vec<u8> {
    let layer = Layer::of(numbers);
    let body = [vec!["0"; layer.map_length() as usize], vec!["1"; layer.kernel_length() as usize]].concat();
    format!("{} {}", numbers.map(|number| number.to_string()).join(" "), body.join(" ")).into_bytes()
}

/// 1,024 and 1,025 map values; 512 and 513 weights; 1,024 and 1,025 outputs; field 5.
#[test]
fn sizes_at_and_above_the_limits() {
    let accepted = [
        [0, 4, 1, 1, 32, 32, 1, 1, 0, 1, 0, 0, 1, 1],
        [0, 4, 64, 1, 4, 4, 1, 1, 0, 1, 0, 0, 4, 4],
        [0, 4, 16, 32, 1, 1, 1, 1, 0, 1, 0, 0, 1, 1],
        [1, 4, 2, 64, 1, 1, 2, 1, 0, 1, 0, 0, 2, 2],
        [1, 4, 1, 1, 16, 16, 2, 2, 0, 1, 0, 0, 32, 32],
        [0, 4, 1, 64, 4, 4, 1, 1, 0, 1, 0, 0, 4, 4],
        [1, 4, 1, 1, 2, 512, 1, 1, 0, 1, 0, 0, 2, 512],
    ];
    let unreadable = [
        [0, 4, 1, 1, 25, 41, 1, 1, 0, 1, 0, 0, 1, 1],
        [0, 4, 41, 1, 5, 5, 1, 1, 0, 1, 0, 0, 1, 1],
        [0, 4, 3, 19, 3, 3, 3, 1, 0, 1, 0, 0, 1, 1],
        [1, 4, 19, 27, 1, 1, 1, 1, 0, 1, 0, 0, 1, 1],
        [1, 4, 1, 1, 21, 13, 2, 2, 0, 1, 0, 0, 41, 25],
        [1, 4, 1, 41, 3, 3, 3, 1, 0, 1, 0, 0, 5, 5],
        [0, 5, 1, 1, 3, 3, 2, 1, 0, 9, 0, 0, 2, 2],
        [1, 5, 1, 1, 1, 1, 1, 1, 0, 0, 0, 0, 1, 1],
    ];
    for numbers in accepted {
        assert_eq!(hold(&blank(numbers)), Answer::Frame, "{numbers:?}");
    }
    for numbers in unreadable {
        hold_known(blank(numbers), UNREADABLE);
    }
    for (header, answer) in
        [("0 4 64 64 512 512 11 1 0 9 0 0 1 1", UNREADABLE), ("0 4 64 64 512 512 11 1 0 9 0 0 503 1", "refused 9\n")]
    {
        hold_known(header, answer);
        hold_known(format!("{header} 1 2 3"), answer);
    }
}

/// A text moved by spaces so that its last byte is the byte of this number, counted from 1.
fn ending_at(text: &str, last: usize) -> String {
    format!("{text:>last$}")
}

#[test]
fn headers_at_the_end_of_the_first_16_kib() {
    let (header, refused) = REFUSED[0];
    let known = [
        (16_383, "", refused),
        (16_383, " ", refused),
        (16_383, "\nx", refused),
        (16_383, "5", refused),
        (16_383, "5 ", UNREADABLE),
        (16_383, "x", UNREADABLE),
        (16_384, "", refused),
        (16_384, " ", UNREADABLE),
        (16_384, "\n1", UNREADABLE),
        (16_384, "5", UNREADABLE),
        (16_385, "", UNREADABLE),
        (16_386, " 1", UNREADABLE),
    ];
    for (last, tail, answer) in known {
        hold_known(ending_at(header, last) + tail, answer);
    }
    let tails =
        ["", " ", "\n", "5", "5 ", " 5", "x", " x", "  ", " \0 ", BODY, &" ".repeat(100_000), &"\n7".repeat(100_000)];
    for last in LONGEST - 30..LONGEST + 5 {
        for tail in tails {
            for header in [HEADER, header, REFUSED[11].0] {
                hold(format!("{}{tail}", ending_at(header, last)).as_bytes());
            }
        }
    }
}

/// The same with zeros before the digits of the last number, or of the first.
#[test]
fn long_numbers_at_the_end_of_the_first_16_kib() {
    let (before, after) = ("2 4 1 1 3 3 2 1 0 9 0 0 2 ", " 4 1 1 3 3 2 1 0 9 0 0 2 2");
    for length in LONGEST - 3..LONGEST + 4 {
        for tail in ["", " ", " 1", "  ", "x"] {
            hold(format!("{before}{:0>width$}{tail}", 2, width = length - before.len()).as_bytes());
            hold(format!("{:0>width$}{after}{tail}", 2, width = length - after.len()).as_bytes());
        }
    }
}

/// Spaces before, between and after, up to 16 KiB and beyond.
#[test]
fn whole_inputs_at_the_end_of_16_kib() {
    for (length, answer) in
        [(16_383, FRAME), (16_384, FRAME), (16_385, UNREADABLE), (16_386, UNREADABLE), (70_000, UNREADABLE)]
    {
        let spaces = " ".repeat(length - HEADER.len() - BODY.len() - 1);
        hold_known(format!("{spaces}{HEADER} {BODY}"), answer);
        hold_known(format!("{HEADER} {spaces}{BODY}"), answer);
        hold_known(format!("{HEADER} {BODY}{spaces}"), answer);
    }
}

#[test]
fn inputs_that_come_in_pieces() {
    let refused = ending_at(REFUSED[0].0, 16_384);
    let whole = ending_at(&format!("{HEADER} {BODY}"), 16_384);
    let inputs = [(format!("{HEADER} {BODY}"), 1), (refused, 1_000), (whole.clone(), 999), (whole + "\n", 4_096)];
    for (input, length) in inputs {
        let found = run(input.as_bytes().chunks(length), Duration::from_millis(1));
        assert_eq!(found, printed(input.as_bytes()), "pieces of {length}");
    }
}

/// Runs of each kind.
const RUNS: usize = 800;

fn drawn_runs(test: &'static str, kind: usize) {
    for trial in 0..RUNS {
        let mut random = Random::new(test, trial);
        let call = call(&mut random, kind);
        let input = text(&mut random, &call);
        assert_eq!(hold(&input), Answer::Frame, "{:?}", call.layer);
    }
}

#[test]
fn drawn_runs_in_conv() {
    drawn_runs("bench, conv", CONV);
}

#[test]
fn drawn_runs_in_tconv() {
    drawn_runs("bench, tconv", TCONV);
}

/// A number of its range, now and then another: next to it, the greatest of a header, or one beyond that.
fn figure(random: &mut Random, (least, most): (usize, usize)) -> usize {
    let others = [0, most + 1, 65_535, 65_536, 65_537, 1 << 32, usize::MAX];
    if random.once_in(25) {
        random.pick(&others)
    } else {
        random.between(least, most)
    }
}

/// Ranges of a header's numbers that make many layers small.
#[rustfmt::skip]
const RANGES: [(usize, usize); 14] = [
    (0, 1), (4, 4), (1, 3), (1, 3), (1, 12), (1, 12), (1, 4), (1, 4), (0, 1), (1, 40_000), (0, 3), (0, 3), (1, 6), (1, 6),
];

/// A header, and a map and kernel where the program gets as far as to read them.
fn drawn_header(random: &mut Random) -> Vec<u8> {
    let layer = Layer::of(RANGES.map(|range| figure(random, range)));
    let header = joined(&layer.numbers()[..14].iter().map(usize::to_string).collect::<Vec<_>>());
    if plan_number(Engine::Tiles, &layer) != 0 || !small(&layer) {
        return header;
    }
    let call = draw::call(random, Engine::Tiles, Layer { peak: layer.peak.clamp(1, 32_767), ..layer });
    [header, joined(&words(&call)[14..])].join(&b' ')
}

#[test]
fn drawn_headers() {
    let mut seen = Seen::default();
    for trial in 0..2 * RUNS {
        seen.count(hold(&drawn_header(&mut Random::new("bench, drawn headers", trial))));
    }
    assert!(seen.frames > RUNS / 4 && seen.unreadable > RUNS / 4, "{seen:?}, seed {}", seed());
    assert!((1..=9).chain([14]).all(|number| seen.refused[number] > 3), "{seen:?}, seed {}", seed());
}

/// Values beyond the peak, blank channels and loads above the limit.
#[test]
fn drawn_refusals_of_the_run() {
    let mut seen = Seen::default();
    for trial in 0..RUNS {
        let mut random = Random::new("bench, refusals of the run", trial);
        let mut call = call(&mut random, trial % 2);
        let (value, weight) = (random.below(call.map.len()), random.below(call.kernel.len()));
        match random.below(4) {
            0 => call.map[value] = random.word() as i16,
            1 => call.kernel[weight] = random.word() as i16,
            2 => draw::blank_channel(&call.layer, &mut call.kernel, random.below(call.layer.outputs)),
            _ => call.layer.peak = random.between(0, 65_535),
        }
        seen.count(hold(&text(&mut random, &call)));
    }
    assert!(
        seen.frames > 20 && [14, 15, 16, 24, 25].iter().all(|&number| seen.refused[number] > 20),
        "{seen:?}, seed {}",
        seed()
    );
}

/// Inputs of drawn runs, changed in one to three ways.
#[test]
fn spoiled_inputs() {
    let mut seen = Seen::default();
    for trial in 0..5 * RUNS {
        let mut random = Random::new("bench, spoiled inputs", trial);
        let call = call(&mut random, trial % 2);
        let mut input = text(&mut random, &call);
        for _ in 0..random.pick(&[1, 1, 1, 2, 3]) {
            input = spoiled(&mut random, &input);
        }
        seen.count(hold(&input));
    }
    let refused: usize = seen.refused.iter().sum();
    assert!(seen.frames > RUNS / 4 && refused > RUNS / 4 && seen.unreadable > RUNS, "{seen:?}, seed {}", seed());
}
