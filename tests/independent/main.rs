//! Reads a model text from standard input and writes its listing, or with `--mps` its
//! export; with `--read-mps` reads an export and writes its lines. A refusal is `refused`,
//! the number and the place parted by tabs.

mod generator;

use std::io::{self, Read, Write};
use std::process::ExitCode;

fn main() -> io::Result<ExitCode> {
    let arguments: Vec<String> = std::env::args().skip(1).collect();
    let arguments: Vec<&str> = arguments.iter().map(String::as_str).collect();
    let entry = match arguments[..] {
        [] => generator::generate,
        ["--mps"] => generator::export,
        ["--read-mps"] => generator::read_export,
        _ => {
            eprintln!("usage: generate [--mps | --read-mps]");
            return Ok(ExitCode::from(2));
        }
    };
    let mut text = Vec::new();
    io::stdin().read_to_end(&mut text)?;
    let mut out = vec![0; 65_536];
    let answer = entry(&text, &mut out);
    let mut stdout = io::stdout().lock();
    if answer.number == 0 {
        stdout.write_all(&out[..answer.length])?;
    } else {
        writeln!(stdout, "refused\t{}\t{}", answer.number, answer.place)?;
    }
    stdout.flush()?;
    Ok(ExitCode::SUCCESS)
}
