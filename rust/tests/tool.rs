//! The tool make_image as it is run.

use std::io::Write;
use std::process::{Command, Output, Stdio};

fn make_image(words: &[&str], text: &[u8]) -> Output {
    let mut child = Command::new(env!("CARGO_BIN_EXE_make_image"))
        .args(words)
        .stdin(Stdio::piped())
        .stdout(Stdio::piped())
        .stderr(Stdio::piped())
        .spawn()
        .expect("make_image");
    // A tool that ends before it has read all is no fault here.
    let _ = child.stdin.take().expect("a pipe").write_all(text);
    child.wait_with_output().expect("its output")
}

/// What was said, and the status and length of the image that came with it.
fn outcome(output: &Output) -> (String, Option<i32>, usize) {
    let said = String::from_utf8(output.stderr.clone()).expect("a text");
    (said, output.status.code(), output.stdout.len())
}

#[test]
fn a_good_text_makes_an_image_and_no_word() {
    let output = make_image(&[], b"inputs 1\noutput 0\n");
    assert_eq!(outcome(&output), (String::new(), Some(0), 18));
}

#[test]
fn a_faulty_text_makes_no_image() {
    let output = make_image(&[], b"inputs 1\noutput 1\n");
    let said = "make_image: line 2: no source 1: up to here there are 1, from 0\n";
    assert_eq!(outcome(&output), (said.into(), Some(1), 0));
    let output = make_image(&[], b"inputs 1\n# \xFF\noutput 0\n");
    assert_eq!(
        outcome(&output),
        ("make_image: line 2: not a text (no UTF-8)\n".into(), Some(1), 0)
    );
}

#[test]
fn an_image_that_is_refused_comes_with_a_warning() {
    let text = b"inputs 1\ngate a 2 pins 0 never\noutput a\noutput a\n";
    let said = "make_image: warning: line 2: the image is refused 9 0: gate 0 is read more than once by live gates \
                and outputs\n";
    assert_eq!(outcome(&make_image(&[], text)), (said.into(), Some(0), 40));
    let text = b"inputs 1\ngate a 2 pins 0 chance 0.5\ngate b 2 pins a chance 0.95\noutput b\n";
    let said = "make_image: warning: line 3: the image is refused 22 1: the flip for gate 1 has \
                a chance above 0.5\n";
    assert_eq!(outcome(&make_image(&[], text)), (said.into(), Some(0), 58));
}

#[test]
fn words_after_the_command_are_not_taken() {
    let said = "make_image: usage: make_image < TEXT > IMAGE\n";
    assert_eq!(outcome(&make_image(&["mine.txt"], b"")), (said.into(), Some(2), 0));
}

#[test]
fn an_image_that_cannot_be_written_is_told() {
    let full = std::fs::OpenOptions::new().write(true).open("/dev/full").expect("/dev/full");
    let mut child = Command::new(env!("CARGO_BIN_EXE_make_image"))
        .stdin(Stdio::piped())
        .stdout(full)
        .stderr(Stdio::piped())
        .spawn()
        .expect("make_image");
    child.stdin.take().expect("a pipe").write_all(b"inputs 1\noutput 0\n").expect("a short text");
    let (said, status, _) = outcome(&child.wait_with_output().expect("its output"));
    assert!(said.starts_with("make_image: writing: "), "{said}");
    assert_eq!(status, Some(2));
}
