//! Reads a netlist text (see `filzaod::text`) from standard input and writes its image to standard
//! output. An image that the bench would refuse is written with a warning.
//!
//! Status: 0 an image is written; 1 the text has a fault; 2 it could not be read or the image not
//! written, or words follow the command.

use filzaod::{open, text, MAX_WORDS};
use std::io::{Read, Write};
use std::process::ExitCode;

fn main() -> ExitCode {
    match run() {
        Ok(()) => ExitCode::SUCCESS,
        Err((status, message)) => {
            eprintln!("make_image: {message}");
            ExitCode::from(status)
        }
    }
}

fn run() -> Result<(), (u8, String)> {
    if std::env::args_os().len() > 1 {
        return Err((2, "usage: make_image < TEXT > IMAGE".into()));
    }
    let mut bytes = Vec::new();
    let mut input = std::io::stdin();
    input.read_to_end(&mut bytes).map_err(|error| (2, format!("reading: {error}")))?;
    let text = as_text(&bytes).map_err(|message| (1, message))?;
    let module = text::read(text).map_err(|error| (1, error.to_string()))?;
    warn(&module);
    let mut output = std::io::stdout();
    let written = output.write_all(&module.image).and_then(|()| output.flush());
    written.map_err(|error| (2, format!("writing: {error}")))
}

fn as_text(bytes: &[u8]) -> Result<&str, String> {
    std::str::from_utf8(bytes).map_err(|error| {
        let good = &bytes[..error.valid_up_to()];
        let line = 1 + good.iter().filter(|byte| **byte == b'\n').count();
        format!("line {line}: not a text (no UTF-8)")
    })
}

fn warn(module: &text::Module) {
    if let Err(refusal) = open(&mut vec![0; MAX_WORDS], &module.image) {
        let line = module.line_of(refusal).map_or(String::new(), |line| format!("line {line}: "));
        eprintln!("make_image: warning: {line}the image is {refusal}");
    }
}
