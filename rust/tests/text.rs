//! Texts: the images that good ones make, and what is said of bad ones.

use filzaod::{open, text, Refusal, MAX_WORDS};
use std::path::{Path, PathBuf};

fn example_texts() -> Vec<PathBuf> {
    let directory = Path::new(env!("CARGO_MANIFEST_DIR")).join("../examples");
    let entries = std::fs::read_dir(directory).expect("the examples");
    entries
        .map(|entry| entry.expect("an entry").path())
        .filter(|path| path.extension().is_some_and(|extension| extension == "txt"))
        .collect()
}

#[test]
fn every_example_text_makes_its_image() {
    let texts = example_texts();
    assert!(texts.len() >= 5, "{texts:?}");
    for path in texts {
        let written = std::fs::read_to_string(&path).expect("the text");
        let image = std::fs::read(path.with_extension("image")).expect("the image");
        assert_eq!(text::read(&written).expect("a good text").image, image, "{path:?}");
    }
}

#[test]
fn an_image_byte_by_byte() {
    let module =
        text::read("heading hi you\ninputs 1\ngate a 9 pins 0 0 chance 0.5\noutput a\noutput 0");
    let gate = [2, 1, 9, 0, 0, 0, 0, 0, 0, 0, 0, 0, 0, 0, 0, 0, 0, 0, 0xE0, 0x3F];
    let trailer = [1, 0, 1, 0, 2, 0, 1, 0, 24, 0, 0, 0, 46, 0, 0, 0];
    let expected = [&b"hi you"[..], &gate, &[1, 0, 0, 0], &trailer].concat();
    assert_eq!(module.expect("a good text").image, expected);
}

#[test]
fn names_and_numbers_make_the_same_image() {
    let by_name = "\ninputs 1 # one\r\ngate a 0x2 pins 0 strike 0.5 0.25\n\
                   gate b 1 pins a chance 1e-3\ngate c 1 pins never\noutput b\noutput 0\n";
    let by_number = "inputs 1\ngate x 2 pins 0 raw 2 0000003f0000803e\n\
                     gate y 1 pins 1 chance 0.001\ngate z 1 pins never\noutput 2\noutput 0";
    let [first, second] = [by_name, by_number].map(|text| text::read(text).expect("a good text"));
    assert_eq!(first.image, second.image);
    assert_eq!(open(&mut [0; MAX_WORDS], &first.image), Ok(2));
}

#[test]
fn faults_are_told_with_their_line() {
    let cases = [
        ("", "line 1: `inputs COUNT` must come first: the numbers of sources depend on it"),
        ("inputs 1\n", "line 1: the text ends without an output"),
        ("inputs 13\n", "line 1: 13 inputs are more than 12"),
        ("inputs a b\n", "line 1: `inputs` takes one number: how many there are"),
        ("inputs a\n", "line 1: `a` is no count of inputs"),
        ("inputs 1\ninputs 1\n", "line 2: the inputs are counted twice"),
        ("inputs 1\nheading x\n", "line 2: the heading comes once, before everything else"),
        (
            "output 0\n",
            "line 1: `inputs COUNT` must come first: the numbers of sources depend on it",
        ),
        ("inputs 1\n\n# remark\noutput 1\n", "line 4: no source 1: up to here there are 1, from 0"),
        (
            "inputs 1\noutput 0 0\n",
            "line 2: `output` takes one source; a further one is a line more",
        ),
        ("inputs 1\nwire a\n", "line 2: `wire` is none of heading, inputs, gate, output"),
    ];
    for (text, said) in cases {
        assert_eq!(text::read(text).expect_err(text).to_string(), said, "{text:?}");
    }
}

#[test]
fn faults_in_a_gate_are_told_with_their_line() {
    let flips = "never, chance X, strike X WINDOW or raw KIND HEX";
    let cases = [
        ("a 2 pins b never", "no gate `b` above this line"),
        ("a 2 pins 2 never", "no source 2: up to here there are 2, from 0"),
        ("a 16 pins 0 x never", "table 16 has a bit past the 4 rows of 2 pins"),
        ("a 65536 pins 0 0 0 0 never", "table 65536 has a bit past the 16 rows of 4 pins"),
        (
            "a and pins 0 0 never",
            "`and` is no table: write its bits as a number, such as 8 for AND of two pins",
        ),
        ("a 0 pins 0 0 0 0 0 never", "5 pins are more than 4"),
        ("a 2 0 never", "expected: gate NAME TABLE pins SOURCE... FLIP"),
        ("a 2 pins 0", &format!("the gate ends without its flip: {flips}")),
        ("a 2 pins 0 strike 0.5", &format!("`strike 0.5` is no flip: {flips}")),
        ("a 2 pins 0 chance 0.5 0.5", &format!("`chance 0.5 0.5` is no flip: {flips}")),
        ("a 2 pins 0 chance 5%", "`5%` is no number: write a chance like 0.05"),
        ("a 2 pins 0 chance 0,05", "`0,05` is no number: write a chance like 0.05"),
        ("a 2 pins 0 chance 1.5", "`1.5` is no chance from 0 to 1"),
        ("a 2 pins 0 chance nan", "`nan` is no chance from 0 to 1"),
        ("a 2 pins 0 chance -1e-9", "`-1e-9` is no chance from 0 to 1"),
        ("a 2 pins 0 strike 0.5 inf", "`inf` is no chance from 0 to 1"),
        ("a 2 pins 0 strike 1.00000001 1", "`1.00000001` is no chance from 0 to 1"),
        ("a 2 pins 0 raw 1 00", "`00` is not sixteen hexadecimal digits"),
        (
            "a 2 pins 0 raw 1 +000000000000000",
            "`+000000000000000` is not sixteen hexadecimal digits",
        ),
        ("a 2 pins 0 raw 256 0000000000000000", "`256` is no flip kind, 0 to 255"),
        ("x 2 pins 0 never", "there is a gate `x` already, in line 2"),
        ("7 2 pins 0 never", "`7` cannot name a gate: it would be read as something else"),
        ("raw 2 pins 0 never", "`raw` cannot name a gate: it would be read as something else"),
    ];
    for (gate, said) in cases {
        let text = format!("inputs 1\ngate x 2 pins 0 never\n\ngate {gate}\n output x\n");
        assert_eq!(text::read(&text).expect_err(gate).to_string(), format!("line 4: {said}"));
    }
}

#[test]
fn the_limits_of_a_text() {
    let text = |gates: usize, outputs: usize| {
        let gates: String = (0..gates).map(|gate| format!("gate g{gate} 1 pins never\n")).collect();
        format!("inputs 12\n{gates}{}", "output 0\n".repeat(outputs))
    };
    let largest = text::read(&text(1024, 64)).expect("the largest");
    assert_eq!(open(&mut [0; MAX_WORDS], &largest.image), Ok(0));
    assert_eq!(
        text::read(&text(1025, 1)).unwrap_err().to_string(),
        "line 1026: more than 1024 gates"
    );
    assert_eq!(text::read(&text(0, 65)).unwrap_err().to_string(), "line 66: more than 64 outputs");
    let heading = |length| format!("heading {}\ninputs 1\noutput 0\n", "h".repeat(length));
    assert_eq!(text::read(&heading(32_750)).expect("32,768 bytes").image.len(), 32_768);
    let error = text::read(&heading(32_751)).unwrap_err();
    assert_eq!(error.to_string(), "line 3: the image has 32769 bytes, more than 32768");
}

#[test]
fn a_refusal_has_the_line_of_its_gate_or_output() {
    let module =
        text::read("inputs 1\ngate a 2 pins 0 never\n\ngate b 8 pins a a never\noutput b\n");
    let module = module.expect("a good text");
    let refusal = open(&mut [0; MAX_WORDS], &module.image).unwrap_err();
    assert_eq!((refusal, module.line_of(refusal)), (Refusal { number: 9, place: 0 }, Some(2)));
    assert_eq!(module.line_of(Refusal { number: 7, place: 1 }), Some(4));
    assert_eq!(module.line_of(Refusal { number: 22, place: 1 }), Some(4));
    assert_eq!(module.line_of(Refusal { number: 8, place: 0 }), Some(5));
    assert_eq!(module.line_of(Refusal { number: 5, place: 2 }), None);
    assert_eq!(module.line_of(Refusal { number: 13, place: 0 }), None);
}
