//! Reads an image from standard input and prints the sheet that the model finds for it.

use second::model::Model;
use second::sheet::sheet;
use std::io::{Read, Write};
use std::process::ExitCode;

fn main() -> ExitCode {
    let mut image = Vec::new();
    if let Err(error) = std::io::stdin().read_to_end(&mut image) {
        eprintln!("reading: {error}");
        return ExitCode::FAILURE;
    }
    match std::io::stdout().write_all(sheet(&Model::DOCUMENT, &image).as_bytes()) {
        Ok(()) => ExitCode::SUCCESS,
        Err(error) => {
            eprintln!("writing: {error}");
            ExitCode::FAILURE
        }
    }
}
