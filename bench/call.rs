//! Times a call of the library and of the independent generator on the same texts, by turns in one run.
//!
//!     call FILE.. [--mps FILE..] [--read-mps FILE..]
//!
//! For each model text it prints how many coefficients the report has, the median of the microseconds that a call takes with
//! either, the ratio, and the library's nanoseconds for each coefficient. Both must give the same bytes. Files after `--mps` are
//! exported in place of listed; for files after `--read-mps` their exports are read.

#[path = "../tests/independent/generator.rs"]
mod generator;
#[cfg_attr(stand_in, path = "../tests/fuzz/stand_in.rs")]
#[cfg_attr(not(stand_in), path = "../host/recipe.rs")]
mod library;

use std::hint::black_box;
use std::time::Instant;

use library::{recipe_export, recipe_generate, recipe_read_export};

/// The program's buffer. A longer report gets one of its own length.
const BUFFER: usize = 65_536;
const SAMPLES: usize = 31;

/// An entry point of the library, and that of the independent generator.
#[derive(Clone, Copy)]
struct Entry {
    option: &'static str,
    proved: unsafe extern "C" fn(*const u8, usize, *mut u8, usize) -> library::Answer,
    independent: fn(&[u8], &mut [u8]) -> generator::Answer,
}

const LIST: Entry = Entry {
    option: "",
    proved: recipe_generate,
    independent: generator::generate,
};
const EXPORT: Entry = Entry {
    option: "--mps",
    proved: recipe_export,
    independent: generator::export,
};
const READ: Entry = Entry {
    option: "--read-mps",
    proved: recipe_read_export,
    independent: generator::read_export,
};

impl Entry {
    fn proved(self, text: &[u8], out: &mut [u8]) -> (u32, usize, usize) {
        let answer =
            unsafe { (self.proved)(text.as_ptr(), text.len(), out.as_mut_ptr(), out.len()) };
        (answer.number, answer.place, answer.length)
    }

    fn independent(self, text: &[u8], out: &mut [u8]) -> (u32, usize, usize) {
        let answer = (self.independent)(text, out);
        (answer.number, answer.place, answer.length)
    }

    /// The report of a text; both generators must give it.
    fn report(self, text: &[u8]) -> Vec<u8> {
        let mut out = vec![0; BUFFER];
        if let (11, needed, _) = self.proved(text, &mut out) {
            out = vec![0; needed];
        }
        let mut other = out.clone();
        let answer = self.proved(text, &mut out);
        assert_eq!(answer.0, 0, "not accepted");
        assert_eq!(answer, self.independent(text, &mut other));
        assert!(out == other, "other bytes");
        out.truncate(answer.2);
        out
    }
}

/// The microseconds of a call, from `count` of them.
fn time(
    call: impl Fn(&[u8], &mut [u8]) -> (u32, usize, usize),
    text: &[u8],
    out: &mut [u8],
    count: u32,
) -> f64 {
    let start = Instant::now();
    for _ in 0..count {
        black_box(call(black_box(text), out));
    }
    start.elapsed().as_secs_f64() * 1e6 / f64::from(count)
}

fn median(mut samples: Vec<f64>) -> f64 {
    samples.sort_by(f64::total_cmp);
    samples[samples.len() / 2]
}

/// How many coefficients a model has, the objective's included.
fn coefficients(text: &[u8]) -> usize {
    let listing = LIST.report(text);
    let lines = listing.split(|b| *b == b'\n');
    lines.filter(|line| line.starts_with(b"col")).count()
}

fn main() {
    println!("model\tcoefficients\tlibrary, us\tindependent, us\tratio\tlibrary, ns each");
    let mut entry = LIST;
    for word in std::env::args().skip(1) {
        match &word[..] {
            "--mps" => entry = EXPORT,
            "--read-mps" => entry = READ,
            path => measure(entry, path),
        }
    }
}

fn measure(entry: Entry, path: &str) {
    let model = std::fs::read(path).expect("a model text");
    let coefficients = coefficients(&model);
    let text = if entry.option == READ.option {
        EXPORT.report(&model)
    } else {
        model
    };
    let mut out = vec![0; entry.report(&text).len().max(BUFFER)];
    let proved = |text: &[u8], out: &mut [u8]| entry.proved(text, out);
    let independent = |text: &[u8], out: &mut [u8]| entry.independent(text, out);
    // As many calls a sample as take some five milliseconds.
    let once = time(proved, &text, &mut out, 3);
    let count = (5_000.0 / once).clamp(1.0, 10_000.0) as u32;
    let (mut ours, mut theirs, mut ratios) = (Vec::new(), Vec::new(), Vec::new());
    for _ in 0..SAMPLES {
        let a = time(proved, &text, &mut out, count);
        let b = time(independent, &text, &mut out, count);
        ours.push(a);
        theirs.push(b);
        ratios.push(a / b);
    }
    let (ours, theirs, ratio) = (median(ours), median(theirs), median(ratios));
    let each = ours * 1e3 / coefficients as f64;
    let name = format!("{path} {}", entry.option);
    let name = name.trim_end();
    println!("{name}\t{coefficients}\t{ours:.1}\t{theirs:.1}\t{ratio:.2}\t{each:.0}");
}
