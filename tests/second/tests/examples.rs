//! The examples at the repository root: each image makes its sheet. With `SHEET=/path/to/sheet` in the
//! environment the program itself is run as well.

use second::arguments::image;
use second::ffi::Library;
use second::images::Size;
use second::model::Model;
use second::random::{seed, Random};
use second::sheet::sheet;
use std::io::Write;
use std::path::PathBuf;
use std::process::{Command, Stdio};

fn examples() -> Vec<PathBuf> {
    let directory = PathBuf::from(env!("CARGO_MANIFEST_DIR")).join("../../examples");
    let entries = std::fs::read_dir(directory).expect("the examples");
    let mut images: Vec<PathBuf> = entries
        .map(|entry| entry.expect("an entry").path())
        .filter(|path| path.extension().is_some_and(|extension| extension == "image"))
        .collect();
    images.sort();
    images
}

/// What the program `sheet` prints for an image, if there is a program to run.
fn program_sheet(image: &[u8]) -> Option<String> {
    let program = std::env::var_os("SHEET")?;
    let mut child = Command::new(program)
        .stdin(Stdio::piped())
        .stdout(Stdio::piped())
        .spawn()
        .expect("the program named by SHEET");
    // A program that refuses a long image may stop reading early; that is its right.
    let _ = child.stdin.take().expect("a pipe").write_all(image);
    let output = child.wait_with_output().expect("the program's output");
    Some(String::from_utf8(output.stdout).expect("plain text"))
}

#[test]
fn every_example_has_its_sheet() {
    let images = examples();
    assert!(images.len() >= 5, "{images:?}");
    for path in images {
        let image = std::fs::read(&path).expect("the image");
        let expected = std::fs::read_to_string(path.with_extension("expected")).expect("the sheet");
        assert_eq!(sheet(&Model::DOCUMENT, &image), expected, "{path:?}");
        assert_eq!(sheet(&Library, &image), expected, "{path:?}");
        if let Some(printed) = program_sheet(&image) {
            assert_eq!(printed, expected, "{path:?}");
        }
    }
}

#[test]
fn sheets_of_random_images() {
    let mut random = Random::new(seed() ^ 11);
    let size = Size { inputs: 5, gates: 20, outputs: 6 };
    for _ in 0..2_000 {
        let image = image(&mut random, size);
        let expected = sheet(&Model::DOCUMENT, &image);
        assert_eq!(sheet(&Library, &image), expected);
    }
    for _ in 0..300 {
        let image = image(&mut random, size);
        if let Some(printed) = program_sheet(&image) {
            assert_eq!(printed, sheet(&Model::DOCUMENT, &image));
        }
    }
    if let Some(printed) = program_sheet(&[0; 40_000]) {
        assert_eq!(printed, "refused 1 0\n");
    }
}
