//! Reading BLIF: a case for each line of refusals 18, 19 and 20 and for each rule of the text, with the
//! answer written down here and not taken from the second reader.

use second::answer::Answer;
use second::blif::MAX_TEXT;
use second::compare::compare_blif;
use second::images::{Draft, Record, NEVER};

fn refused(text: impl AsRef<[u8]>, number: u8, place: u32) {
    let (answer, _) = compare_blif(text.as_ref(), &[0xA5; 21_000]);
    let shown: String = String::from_utf8_lossy(text.as_ref()).chars().take(300).collect();
    assert_eq!(answer, Answer::Refused { number, place }, "{shown:?}");
}

/// Accepted with this many inputs, these tables and pins, these outputs.
fn accepted(text: impl AsRef<[u8]>, inputs: u16, gates: &[(u16, &[u16])], outputs: &[u16]) {
    let gates = gates.iter().map(|(table, pins)| Record::new(*table, pins, NEVER)).collect();
    let draft = Draft { inputs, gates, outputs: outputs.to_vec(), ..Draft::default() };
    let image = draft.bytes();
    let (answer, slice) = compare_blif(text.as_ref(), &[0xA5; 21_000]);
    assert_eq!(answer, Answer::Done(image.len() as u32));
    assert_eq!(slice[..image.len()], image);
    assert!(slice[image.len()..].iter().all(|byte| *byte == 0xA5));
}

const HEAD: &str = ".model m\n.inputs a b\n.outputs z\n";

/// A text with the usual head, whose gates begin in line 4.
fn gates(rest: &str) -> String {
    format!("{HEAD}{rest}")
}

#[test]
fn the_order_of_the_statements() {
    refused("", 18, 1);
    refused("\n\n# only a comment", 18, 3);
    refused(".inputs a\n.model m\n.outputs a\n.end\n", 18, 1);
    refused("\n.model\n.end\n", 18, 2);
    refused(".model a b\n.end\n", 18, 1);
    refused(".model m\n.model m\n.outputs a\n.end\n", 18, 2);
    refused(gates(".names z\n.inputs c\n.end\n"), 18, 5);
    refused(gates(".names z\n1\n.outputs c\n.end\n"), 18, 6);
    refused(gates(".names\n.end\n"), 18, 4);
    refused(gates(".names a b a b a z\n.end\n"), 18, 4);
    refused(gates("11 1\n.names z\n.end\n"), 18, 4);
    refused(gates(".latch a z\n.end\n"), 18, 4);
    refused(gates(".NAMES z\n.end\n"), 18, 4);
    refused(gates(".names z\n.end z\n"), 18, 5);
    refused(gates(".names z\n.end\n\n# free\n .end\n"), 18, 8);
    refused(gates(".names z\n.end\nz"), 18, 6);
    accepted(gates(".names z\n.end\n \t\r\n# free \\\n#\0\n\\\n"), 2, &[(0, &[])], &[2]);
}

#[test]
fn a_missing_end() {
    refused(HEAD, 18, 4);
    refused(".model m", 18, 1);
    refused(gates(".names z"), 18, 4);
    refused(gates(".names z\n"), 18, 5);
    refused(gates(".names \\\n\\\nz\n1 # .end\n"), 18, 8);
    // Joined on, `.end` is a gate's name.
    refused(gates(".names z\\\n.end\n"), 18, 6);
    accepted(gates(".names z\n.end"), 2, &[(0, &[])], &[2]);
}

#[test]
fn the_length_of_a_text() {
    let sound = gates(".names z\n.end\n#");
    let filled = |length: usize| sound.clone() + &"x".repeat(length - sound.len());
    accepted(filled(MAX_TEXT), 2, &[(0, &[])], &[2]);
    refused(filled(MAX_TEXT + 1), 18, 0);
    refused("#".repeat(MAX_TEXT), 18, 1);
    refused("\n".repeat(MAX_TEXT), 18, 32_769);
    refused("\n".repeat(MAX_TEXT + 1), 18, 0);
    refused("?".repeat(100_000), 18, 0);
}

#[test]
fn covers() {
    for cover in ["1 1", "111 1", "11", "1", "11 1 1", "12 1", "11 2", "11 -", "11 10", "11 01"] {
        refused(gates(&format!(".names a b z\n{cover}\n.end\n")), 18, 5);
    }
    refused(gates(".names a b z\n11 1\n1- 1\n\n00 0\n.end\n"), 18, 8);
    refused(gates(".names a b z\n11 0\n00 1\n.end\n"), 18, 6);
    refused(gates(".names z\n1\n0\n.end\n"), 18, 6);
    refused(gates(".names z\n- 1\n.end\n"), 18, 5);
    refused(gates(".names z\n-\n.end\n"), 18, 5);
    let table = |cover: &str, table: u16, pins: &[u16]| {
        let names = &["", "a ", "a b ", "a b a ", "a b a b "][pins.len()];
        let text = gates(&format!(".names {names}z\n{cover}.end\n"));
        accepted(text, 2, &[(table, pins)], &[2]);
    };
    // Constants.
    table("", 0, &[]);
    table("1\n", 1, &[]);
    table("1\n1\n", 1, &[]);
    table("0\n", 0, &[]);
    table("", 0, &[0, 1, 0, 1]);
    table("---- 1\n", 0xFFFF, &[0, 1, 0, 1]);
    table("---- 0\n", 0, &[0, 1, 0, 1]);
    // Pin 0 is the first source; a cover that only says 0 gives 1 in the rows that it does not meet.
    table("1 1\n", 2, &[0]);
    table("0 1\n", 1, &[0]);
    table("10 1\n", 2, &[0, 1]);
    table("01 1\n", 4, &[0, 1]);
    table("11 1\n", 8, &[0, 1]);
    table("11 0\n", 7, &[0, 1]);
    table("1- 0\n\n# blank lines stay in a cover\n-1 0\n", 1, &[0, 1]);
    table("1-0 1\n01- 1\n", 0b0100_1110, &[0, 1, 0]);
    table("1--- 1\n", 0xAAAA, &[0, 1, 0, 1]);
    table("---1 1\n", 0xFF00, &[0, 1, 0, 1]);
}

#[test]
fn names_as_words() {
    let with = |name: &str| format!(".model m\n.inputs {name}\n.outputs {name}\n.end\n");
    for name in ["!", "~", ".end", ".names", "0", "-", "a=b", "\"", "(x)[3]", &"q".repeat(32)] {
        accepted(with(name), 1, &[], &[0]);
    }
    for name in ["\0", "a\0", "\u{b}", "\u{c}", "\u{7f}", "\u{80}", "a\\b", "\\x", &"q".repeat(33)]
    {
        refused(with(name), 18, 2);
        refused(format!(".model {name}\n.outputs a\n.end\n"), 18, 1);
    }
    refused(b".model m\n.outputs \xFF\n.end", 18, 2);
    accepted(b".model m#\xFF\0\n.inputs a\n.outputs a\n.end", 1, &[], &[0]);
    // The model's name defines nothing, and may be a name of the text.
    accepted(".model a\n.inputs a\n.outputs a\n.end", 1, &[], &[0]);
    refused(".model a\n.outputs a\n.end", 19, 2);
    // Names that differ in case or in their last byte are different.
    let long = "q".repeat(31);
    accepted(
        format!(".model m\n.inputs {long}a {long}b {long}A\n.outputs {long}A\n.end"),
        3,
        &[],
        &[2],
    );
}

#[test]
fn blanks_comments_and_joined_lines() {
    let and: &[(u16, &[u16])] = &[(8, &[0, 1])];
    accepted(
        "#\n\n.model m\r\n.inputs a b\r\n.outputs z\r\n.names a b z\r\n11 1\r\n.end\r\n",
        2,
        and,
        &[2],
    );
    accepted(gates("\t.names\ta\r\rb  z \n\t11\t1\n  .end"), 2, and, &[2]);
    accepted(gates(".names a b z#\n11 1# 1\n.end#x"), 2, and, &[2]);
    accepted(gates(".names a\\\nb\\\n\\\n z \\\n\n11\\\n1\n.end\\\n"), 2, and, &[2]);
    // A comment begins inside a word, and is never joined on.
    accepted(gates(".names a b z#z \\\n11 1\n.end"), 2, and, &[2]);
    refused(gates(".names a b z #\\\n\\\n11 1 1\n.end"), 18, 5);
    // A backslash that joins nothing belongs to a word.
    refused(gates(".names a b z \\ \n11 1\n.end"), 18, 4);
    refused(gates(".names a b z\\\t\n11 1\n.end"), 18, 4);
    refused(gates(".names a b z \\\r\n11 1\n.end"), 18, 4);
    refused(gates(".names a b z\\# \n11 1\n.end"), 18, 4);
    refused(gates(".names a b z\\\\\n11 1\n.end"), 18, 4);
    refused(gates(".names a b z\n11 1\n.end\\"), 18, 6);
    refused(gates(".names a b z\n11 1\n.end\n\\"), 18, 7);
    // Joining parts words.
    refused(gates(".na\\\nmes a b z\n11 1\n.end"), 18, 4);
    refused(gates(".names a b z\n1\\\n1 1\n.end"), 18, 5);
    // Joined lines are told by the first of them, and the line after them by its own number.
    refused(".model\\\nm\n\\\n\\\n.latch\n", 18, 3);
    refused(".model\\\nm\n.inputs\\\na\\\nb\n\n.latch\n", 18, 7);
    refused(".model\\\nm\n.inputs a\n.outputs \\\n\\\n q\n.end", 19, 4);
}

#[test]
fn long_lines() {
    let joined = format!(".model m\n.inputs {}a\n.outputs a\n.end", "\\\n".repeat(1000));
    accepted(&joined, 1, &[], &[0]);
    refused(joined.replace(".outputs a\n", ".outputs a b\n"), 19, 1003);
    refused(joined.replace(".end", ".ende"), 18, 1004);
    refused(format!(".model m\n.inputs {}", "\\\na".repeat(1000)), 18, 1002);
    // As many words as a text can have.
    let words = "a ".repeat(16_384);
    refused(&words, 18, 1);
    refused(words.replace(' ', "\n"), 18, 1);
    let listed = |count: usize| format!(".model m\n.outputs {}\n.end", "a ".repeat(count));
    refused(listed(16_370), 19, 2);
    refused(listed(16_380), 18, 0);
    let lines = ".model m\n".to_string() + &".inputs\n".repeat(4000) + ".outputs a\n.end";
    refused(lines, 19, 4002);
}

#[test]
fn counts() {
    let names = |prefix: &str, count: usize| -> String {
        (0..count).map(|at| format!(" {prefix}{at}")).collect()
    };
    let inputs = |count: usize| names("i", count);
    let text = |count: usize| format!(".model m\n.inputs{}\n.outputs i0\n.end", inputs(count));
    accepted(text(12), 12, &[], &[0]);
    refused(text(13), 19, 2);
    // The line with the thirteenth, repeats counted; before any test on names.
    let split = format!(".model m\n.inputs{}\n.outputs q\n.inputs\n.inputs i0\n.end", inputs(12));
    refused(&split, 19, 5);
    let outputs = |count: usize| {
        format!(".model m\n.inputs a\n.outputs{}\n.outputs a\n.end", " a".repeat(count - 1))
    };
    accepted(outputs(64), 1, &[], &[0; 64]);
    refused(outputs(65), 19, 4);
    let gates = |count: usize| {
        let lines: String = (0..count).map(|at| format!(".names g{at}\n1\n")).collect();
        format!(".model m\n.outputs g0\n{lines}.end")
    };
    accepted(gates(1024), 0, &[(1, &[][..]); 1024], &[0]);
    refused(gates(1025), 19, 3 + 2 * 1024);
    // Gates of one name are gates too.
    let same = format!(".model m\n.outputs g\n{}.end", ".names g\n".repeat(1025));
    refused(same, 19, 3 + 1024);
    // Lowest line of several: outputs in 2, inputs in 3.
    refused(format!(".model m\n.outputs{}\n.inputs{}\n.end", " q".repeat(65), inputs(13)), 19, 2);
    refused(format!(".model m\n.inputs{}\n.outputs{}\n.end", inputs(13), " q".repeat(65)), 19, 2);
    // No output: the line of `.end`, unless a lower line passes a count.
    refused(".model m\n.end", 19, 2);
    refused(".model m\n.inputs a a\n.outputs\n.names b b\n\\\n.end\n\n", 19, 5);
    refused(format!(".model m\n.inputs{}\n.end", inputs(13)), 19, 2);
}

#[test]
fn names_defined_twice() {
    refused(".model m\n.inputs a b\n.outputs a\n.inputs c b\n.end", 19, 4);
    refused(".model m\n.outputs a\n.inputs a b a\n.end", 19, 3);
    refused(".model m\n.inputs a a\n.outputs a\n.inputs a\n.end", 19, 2);
    refused(gates(".names z\n.names a\n.end"), 19, 5);
    refused(gates(".names z\n.names y\n.names z\n.names y\n.end"), 19, 6);
    // Before undefined names and loops in lower lines.
    refused(gates(".names q z\n.names z z\n.names a\n.end"), 19, 5);
    refused(gates(".names z z\n.names a\n.end"), 19, 5);
    // Outputs define nothing, and may be listed twice.
    accepted(".model m\n.outputs a a\n.inputs a\n.outputs a\n.end", 1, &[], &[0, 0, 0]);
}

#[test]
fn undefined_names() {
    refused(gates(".end"), 19, 3);
    refused(gates(".names q z\n.end"), 19, 4);
    refused(gates(".names a z\n.names a b q y\n.names q x\n.end"), 19, 5);
    refused(".model m\n.inputs a\n.outputs a\n.outputs a q\n.names q2 r\n.end", 19, 4);
    // Before loops in lower lines.
    refused(gates(".names z z\n.names q y\n.end"), 19, 5);
    // `.inputs` without a name gives none.
    refused(".model m\n.inputs\n.outputs a\n.end", 19, 3);
}

#[test]
fn loops() {
    refused(gates(".names z z\n.end"), 19, 4);
    refused(gates(".names y z\n.names z y\n.end"), 19, 4);
    refused(gates(".names x z\n.names a x\n.names v w\n.names w v\n.end"), 19, 6);
    // A gate that only depends on a loop is on none, and neither is one that a loop depends on.
    refused(gates(".names y z\n.names y y\n.end"), 19, 5);
    refused(gates(".names x z\n.names y x\n.names w y\n.names a y w\n.end"), 19, 6);
    refused(gates(".names a z\n.names z w\n.names w x y\n.names y x\n.end"), 19, 6);
    // A loop of dead gates is a loop; one of a thousand gates is found at its first line.
    refused(gates(".names z\n.names y y\n.end"), 19, 5);
    let ring: String = (0..1000).map(|at| format!(".names g{} g{at}\n", (at + 1) % 1000)).collect();
    refused(gates(&format!(".names g5 z\n{ring}.end")), 19, 5);
}

#[test]
fn placing() {
    // Always the earliest that is ready: z waits for y, y for x; w is ready at once.
    let text = gates(".names y z\n.names x y\n.names a x\n1 1\n.names b w\n0 1\n.end");
    accepted(text, 2, &[(2, &[0]), (0, &[2]), (0, &[3]), (1, &[1])], &[4]);
    // After x the gates before it have become ready, and come before those after it.
    let text = gates(".names x z\n1 1\n.names x y\n0 1\n.names x\n.names v\n1\n.names z y u\n.end");
    accepted(text, 2, &[(0, &[]), (2, &[2]), (1, &[2]), (1, &[]), (0, &[3, 4])], &[3]);
    // A thousand gates in falling order.
    let lines: String = (0..999).map(|at| format!(".names g{} g{at}\n1 1\n", at + 1)).collect();
    let pins: Vec<[u16; 1]> = (0..1000).map(|at| [at]).collect();
    let mut chain: Vec<(u16, &[u16])> = pins.iter().map(|pin| (2, &pin[..])).collect();
    chain[0] = (1, &[]);
    let text = format!(".model m\n.inputs a\n.outputs a g0\n{lines}.names g999\n1\n.end");
    accepted(text, 1, &chain, &[0, 1000]);
}

#[test]
fn a_short_slice() {
    let text = gates(".names a b z\n11 1\n.end");
    let needed = 20 + 2 + 16;
    for room in 0..=needed + 1 {
        let (answer, slice) = compare_blif(text.as_bytes(), &vec![0xA5; room]);
        let done = Answer::Done(needed as u32);
        let short = Answer::Refused { number: 20, place: 0 };
        assert_eq!(answer, if room < needed { short } else { done });
        assert!(slice
            .iter()
            .skip(if room < needed { 0 } else { needed })
            .all(|byte| *byte == 0xA5));
    }
    // 18 and 19 come first.
    for (text, number, place) in [(".model", 18, 1), (".model m\n.end", 19, 2)] {
        assert_eq!(compare_blif(text.as_bytes(), &[]).0, Answer::Refused { number, place });
    }
}
