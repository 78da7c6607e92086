//! Compares the library with the independent generator on random texts, with buffers of many lengths.
//!
//!     fuzz SEED COUNT FILE..
//!
//! Half of the texts are random models, half are models or stored texts with a few changes. FILE is a model text, or a file of
//! stored cases (.jsonl). Each model is listed and exported; its export, read back, must say what its listing says. Exports are
//! also read with a few changes, and so are random ones, one for every twenty texts: those within the limits must be accepted, the
//! others refused. One small export is read with every byte changed, inserted and deleted and cut at every byte, and one MiB of a
//! single byte is given to every entry point.
//!
//! For each text and buffer length it tests: number, place and length, every byte of the buffer, zero bytes behind a report and in
//! a refused buffer, guard bytes in front of the buffer and behind it, and that the text is as it was. It prints how many texts
//! got which number, and stops at the first difference with the text written to target/fuzz.txt.

#[path = "../independent/generator.rs"]
mod generator;
#[path = "../independent/json.rs"]
mod json;
#[cfg_attr(stand_in, path = "stand_in.rs")]
#[cfg_attr(not(stand_in), path = "../../host/recipe.rs")]
mod library;
mod models;

use std::process::ExitCode;

use generator::{export, generate, read_export};
use json::Json;
use library::{recipe_export, recipe_generate, recipe_read_export};
use models::{changed, changed_export, model, Random};

const GUARD: usize = 64;
const LARGEST: usize = 65_536;
/// A buffer may be this much longer than the report.
const MORE: usize = 64;
/// How many times an export is changed and read.
const CHANGES: usize = 2;
/// Rows of the three kinds, variables of both, both kinds of upper bounds, an objective of 0.
const SMALL: &[u8] =
    b"OPEN{m}discrete k;continuous x;MINIMIZE:2*k{c}k-x>=0.5{r}4*x<=7,>=-1{d}+x=0{u}x<=-3 CLOSE";

/// An entry point of the library, and that of the independent generator.
#[derive(Clone, Copy)]
struct Entry {
    name: &'static str,
    ours: unsafe extern "C" fn(*const u8, usize, *mut u8, usize) -> library::Answer,
    theirs: fn(&[u8], &mut [u8]) -> generator::Answer,
}

const LIST: Entry = Entry {
    name: "list",
    ours: recipe_generate,
    theirs: generate,
};
const EXPORT: Entry = Entry {
    name: "export",
    ours: recipe_export,
    theirs: export,
};
const READ: Entry = Entry {
    name: "read",
    ours: recipe_read_export,
    theirs: read_export,
};

/// A text with the buffer length of its case, and whether it is given to the reader of exports.
#[derive(Clone)]
struct Stored {
    text: Vec<u8>,
    buffer: usize,
    read: bool,
}

struct Comparison {
    random: Random,
    lent: Vec<u8>,
    wanted: Vec<u8>,
    zeros: Vec<u8>,
    /// How many texts the reader gave each number.
    read: [usize; 12],
}

impl Comparison {
    /// One call with a buffer of n bytes; the number, place and length that both give.
    fn call(&mut self, entry: Entry, text: &[u8], n: usize) -> Result<(u32, usize, usize), String> {
        let wanted = (entry.theirs)(text, &mut self.wanted[..n]);
        let wanted = (wanted.number, wanted.place, wanted.length);
        let whole = &mut self.lent[..n + 2 * GUARD];
        whole.fill(0xa5);
        let copy = text.to_vec();
        let answer =
            unsafe { (entry.ours)(copy.as_ptr(), copy.len(), whole[GUARD..].as_mut_ptr(), n) };
        let answer = (answer.number, answer.place, answer.length);
        let (front, rest) = whole.split_at(GUARD);
        let (out, behind) = rest.split_at(n);
        let complaint = if answer != wanted {
            format!("{answer:?}, not {wanted:?}")
        } else if copy != text {
            "the text was changed".to_string()
        } else if front.iter().chain(behind).any(|b| *b != 0xa5) {
            "a byte outside the buffer".to_string()
        } else if *out != self.wanted[..n] {
            "another byte".to_string()
        } else if out[answer.2..] != self.zeros[answer.2..n] {
            "a byte behind the report".to_string()
        } else {
            return Ok(answer);
        };
        let _ = std::fs::write("target/fuzz.txt", text);
        Err(format!("{}, buffer {n}: {complaint}", entry.name))
    }

    /// The largest buffer, then lengths around the report's, none, one at random and the one given.
    fn lengths(&mut self, entry: Entry, text: &[u8], given: usize) -> Result<u32, String> {
        let (number, _, length) = self.call(entry, text, LARGEST)?;
        let mut lengths = vec![0, self.random.below(300), given];
        if number == 0 {
            lengths.extend([length, length + 1, self.random.below(length + MORE)]);
            lengths.extend(length.checked_sub(1));
        }
        for n in lengths {
            let (again, place, _) = self.call(entry, text, n)?;
            let short = number == 0 && n < length;
            if again != if short { 11 } else { number } || (short && place != length) {
                return Err(format!(
                    "{}, buffer {n}: {again} at {place} for a report of {length} bytes",
                    entry.name
                ));
            }
        }
        Ok(number)
    }

    /// A model: its listing, its export, and what is read from the export. The number of the listing.
    fn model(&mut self, text: &[u8], given: usize) -> Result<u32, String> {
        let number = self.lengths(LIST, text, given)?;
        if number != 0 {
            let n = self.random.below(300);
            self.call(EXPORT, text, n)?;
        } else if let Some(export) = self.exported(text)? {
            self.export(&export, given)?;
            self.read_back(text, &export)?;
        }
        Ok(number)
    }

    /// What is read from a model's export is what its listing says.
    fn read_back(&mut self, text: &[u8], export: &[u8]) -> Result<(), String> {
        let (_, _, length) = self.call(LIST, text, LARGEST)?;
        let lines = bare(&self.wanted[..length]);
        let (_, _, length) = self.call(READ, export, LARGEST)?;
        if self.wanted[..length] != lines {
            let _ = std::fs::write("target/fuzz.txt", text);
            return Err("the export does not say what the listing says".to_string());
        }
        Ok(())
    }

    /// The export of an accepted model, tested at its length and one byte short; none if it is longer than the buffer.
    fn exported(&mut self, text: &[u8]) -> Result<Option<Vec<u8>>, String> {
        let (number, _, length) = self.call(EXPORT, text, LARGEST)?;
        if number != 0 {
            return Ok(None);
        }
        self.call(EXPORT, text, length - 1)?;
        self.call(EXPORT, text, length)?;
        Ok(Some(self.wanted[..length].to_vec()))
    }

    /// An export, or a text like one: read as it is and with changes. The number of the first.
    fn export(&mut self, text: &[u8], given: usize) -> Result<u32, String> {
        let number = self.lengths(READ, text, given)?;
        self.read[number as usize] += 1;
        for _ in 0..CHANGES {
            let text = changed_export(&mut self.random, text);
            self.read(&text)?;
        }
        Ok(number)
    }

    /// A random export.
    fn random_export(&mut self) -> Result<(), String> {
        let (text, allowed) = models::export(&mut self.random);
        if (self.export(&text, 1)? != 3) != allowed {
            let _ = std::fs::write("target/fuzz.txt", &text);
            return Err("both generators are wrong about an export".to_string());
        }
        Ok(())
    }

    fn read(&mut self, text: &[u8]) -> Result<(), String> {
        let (number, ..) = self.call(READ, text, 4_096)?;
        self.read[number as usize] += 1;
        Ok(())
    }

    /// One export with every single byte changed, inserted and deleted, and cut at every byte.
    fn edits(&mut self) -> Result<(), String> {
        let export = self.exported(SMALL)?.ok_or("the small model is refused")?;
        let length = export.len();
        for at in 0..=length {
            self.read(&export[..at])?;
            let mut text = export.clone();
            text.insert(at, 0);
            for byte in 0..=255 {
                text[at] = byte;
                self.read(&text)?;
            }
            if at < length {
                text = export.clone();
                text.remove(at);
                self.read(&text)?;
                text.insert(at, 0);
                for byte in 0..=255 {
                    text[at] = byte;
                    self.read(&text)?;
                }
            }
        }
        Ok(())
    }

    /// Long texts of a single byte.
    fn long(&mut self) -> Result<(), String> {
        for byte in [0, b'\n', b' ', b'0', b'N', 255] {
            let text = vec![byte; 1 << 20];
            for entry in [LIST, EXPORT, READ] {
                self.call(entry, &text, MORE)?;
            }
        }
        Ok(())
    }
}

/// The `row`, `low`, `var` and `col` lines of a listing, without strings, names and indices.
fn bare(listing: &[u8]) -> Vec<u8> {
    let mut lines = Vec::new();
    for line in listing.split(|b| *b == b'\n') {
        let fields: Vec<&[u8]> = line.split(|b| *b == b'\t').collect();
        let kept = match fields[0] {
            b"row" => 4,
            b"low" => 3,
            b"var" => 5,
            b"col" => 4,
            _ => continue,
        };
        lines.extend(fields[..kept].join(&b'\t'));
        lines.push(b'\n');
    }
    lines
}

/// The texts of a file.
fn stored(path: &str) -> Result<Vec<Stored>, String> {
    let content = std::fs::read(path).map_err(|error| format!("{path}: {error}"))?;
    if !path.ends_with(".jsonl") {
        return Ok(vec![Stored {
            text: content,
            buffer: LARGEST,
            read: false,
        }]);
    }
    let lines = content
        .split(|b| *b == b'\n')
        .filter(|line| !line.is_empty());
    lines
        .map(|line| {
            let mut case = json::object(line).ok_or(format!("{path}: not a case"))?;
            let read = matches!(case.get(&b"op"[..]), Some(Json::String(op)) if op == b"read");
            match (case.remove(&b"text"[..]), case.remove(&b"buffer"[..])) {
                (Some(Json::String(text)), Some(Json::Number(buffer))) => {
                    Ok(Stored { text, buffer, read })
                }
                _ => Err(format!("{path}: not a case")),
            }
        })
        .collect()
}

fn by_number(numbers: &[usize]) -> String {
    let counts: Vec<String> = (0..numbers.len())
        .filter(|n| numbers[*n] > 0)
        .map(|n| format!("{n}: {}", numbers[n]))
        .collect();
    counts.join(", ")
}

fn run(arguments: &[String]) -> Result<(), String> {
    let [seed, count, files @ ..] = arguments else {
        return Err("usage: fuzz SEED COUNT FILE..".to_string());
    };
    let seed: u64 = seed.parse().map_err(|_| "SEED is a number")?;
    let count: usize = count.parse().map_err(|_| "COUNT is a number")?;
    let mut exports = Vec::new();
    let mut corpus = Vec::new();
    for path in files {
        let (read, models): (Vec<_>, Vec<_>) = stored(path)?.into_iter().partition(|s| s.read);
        exports.extend(read);
        corpus.extend(models);
    }
    let mut comparison = Comparison {
        random: Random::new(seed),
        lent: vec![0; LARGEST + MORE + 2 * GUARD],
        wanted: vec![0; LARGEST + MORE],
        zeros: vec![0; LARGEST + MORE],
        read: [0; 12],
    };
    comparison.edits()?;
    comparison.long()?;
    for export in &exports {
        comparison.export(&export.text, export.buffer)?;
    }
    for _ in 0..count / 20 {
        comparison.random_export()?;
    }
    let mut numbers = [0usize; 12];
    for turn in 0..count {
        let random = &mut comparison.random;
        let (text, given) = if turn < corpus.len() {
            (corpus[turn].text.clone(), corpus[turn].buffer)
        } else if random.chance(50) {
            (model(random), 1)
        } else if corpus.is_empty() || random.chance(50) {
            let text = model(random);
            (changed(random, &text), 1)
        } else {
            let k = random.below(corpus.len());
            (changed(random, &corpus[k].text), 1)
        };
        let number = comparison
            .model(&text, given)
            .map_err(|complaint| format!("seed {seed}, text {turn}: {complaint}"))?;
        numbers[number as usize] += 1;
    }
    println!("{count} texts agree; by number {}", by_number(&numbers));
    let read: usize = comparison.read.iter().sum();
    println!(
        "{read} exports agree; by number {}",
        by_number(&comparison.read)
    );
    Ok(())
}

fn main() -> ExitCode {
    let arguments: Vec<String> = std::env::args().skip(1).collect();
    match run(&arguments) {
        Ok(()) => ExitCode::SUCCESS,
        Err(complaint) => {
            println!("{complaint}");
            ExitCode::FAILURE
        }
    }
}
