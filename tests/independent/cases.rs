//! Runs the cases of the files named and compares number, place, length and every byte
//! of the buffer. A case is one JSON object on a line, of strings and whole numbers; a
//! character of its text or output stands for the byte of that number. Its `op` is the
//! entry point: `list` (also where none is given), `export` or `read`.

mod generator;
mod json;

use std::process::ExitCode;

use generator::{export, generate, read_export, Answer};
use json::{object, Json};

fn main() -> ExitCode {
    let mut cases = 0;
    let mut wrong = 0;
    for path in std::env::args().skip(1) {
        let content = match std::fs::read(&path) {
            Ok(content) => content,
            Err(error) => {
                eprintln!("{path}: {error}");
                return ExitCode::FAILURE;
            }
        };
        for (number, line) in (1..).zip(content.split(|byte| *byte == b'\n')) {
            if line.is_empty() {
                continue;
            }
            cases += 1;
            if let Err(complaint) = check(line) {
                wrong += 1;
                println!("{path}:{number}: {complaint}");
            }
        }
    }
    if cases == 0 {
        println!("no cases");
        return ExitCode::FAILURE;
    }
    if wrong > 0 {
        println!("{} of {cases} cases agree", cases - wrong);
        return ExitCode::FAILURE;
    }
    println!("{cases} cases agree");
    ExitCode::SUCCESS
}

fn check(line: &[u8]) -> Result<(), String> {
    let case = object(line).ok_or("not a case")?;
    let string = |key: &str| match case.get(key.as_bytes()) {
        Some(Json::String(bytes)) => Ok(bytes),
        _ => Err(format!("no string {key}")),
    };
    let number = |key: &str| match case.get(key.as_bytes()) {
        Some(Json::Number(number)) => Ok(*number),
        _ => Err(format!("no number {key}")),
    };
    let name = String::from_utf8_lossy(string("name")?);
    let entry = match string("op").map(Vec::as_slice) {
        Err(_) | Ok(b"list") => generate,
        Ok(b"export") => export,
        Ok(b"read") => read_export,
        Ok(_) => return Err(format!("{name}: no such op")),
    };
    let output = string("output")?;
    let wanted = Answer {
        number: number("number")? as u32,
        place: number("place")?,
        length: output.len(),
    };
    // The buffer is lent full, so that bytes left unwritten are seen.
    let mut out = vec![0xaa; number("buffer")?];
    let mut wanted_out = output.clone();
    wanted_out.resize(out.len(), 0);
    let answer = entry(string("text")?, &mut out);
    if answer != wanted {
        return Err(format!("{name}: {answer:?}, not {wanted:?}"));
    }
    if out != wanted_out {
        return Err(format!("{name}: other bytes"));
    }
    Ok(())
}
