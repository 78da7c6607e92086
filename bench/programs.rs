//! Times the program, the independent generator's program and GLPK on the same models, by turns in one run.
//!
//!     programs PROGRAM INDEPENDENT
//!
//! Run in the repository's folder. For each model it prints the median of the milliseconds that each takes from start to end, and how
//! many times as fast as GLPK the program is. First stand those of `true`, which does nothing: what the start of a process takes;
//! and those of the program with an empty text: its start and that of a call. All three read a file and write a file: GLPK
//! generates the matrix and writes it (`glpsol --check --wfreemps`), as the program writes its listing.

use std::fs::File;
use std::path::{Path, PathBuf};
use std::process::{Command, Stdio};
use std::time::Instant;

const TURNS: usize = 51;
/// Each model's text and its twin for GLPK, by their folders and name.
const MODELS: [(&str, &str, &str); 6] = [
    ("examples", "tests/peer", "broiler_starter"),
    ("examples", "tests/peer", "dairy_concentrate"),
    ("examples", "tests/peer", "pig_grower"),
    ("examples", "tests/peer", "plants"),
    ("examples", "tests/peer", "wide"),
    ("target/bench", "target/bench", "feeds_256"),
];

fn timed(mut command: Command) -> f64 {
    let start = Instant::now();
    let status = command.status().expect("a program that runs");
    let time = start.elapsed().as_secs_f64() * 1e3;
    assert!(status.success());
    time
}

fn generator(program: &str, model: &Path, out: &Path) -> Command {
    let mut command = Command::new(program);
    command.stdin(File::open(model).expect("a model"));
    command.stdout(File::create(out).expect("a file to write"));
    command
}

fn glpk(model: &Path, out: &Path) -> Command {
    let mut command = Command::new("glpsol");
    command.args(["--check", "--model"]).arg(model);
    command.arg("--wfreemps").arg(out).stdout(Stdio::null());
    command
}

fn median(mut samples: Vec<f64>) -> f64 {
    samples.sort_by(f64::total_cmp);
    samples[samples.len() / 2]
}

fn main() {
    let arguments: Vec<String> = std::env::args().collect();
    let [_, program, independent] = &arguments[..] else {
        panic!("usage: programs PROGRAM INDEPENDENT");
    };
    if Command::new("glpsol")
        .arg("--version")
        .stdout(Stdio::null())
        .status()
        .is_err()
    {
        println!("no GLPK: the programs were not timed");
        return;
    }
    // Files of their own: GLPK removes what it cannot write to.
    let out = PathBuf::from("target/bench/out");
    let matrix = PathBuf::from("target/bench/matrix.mps");
    let nothing = PathBuf::from("/dev/null");
    println!(
        "model\ttrue, ms\tempty text, ms\tprogram, ms\tindependent, ms\tGLPK, ms\tGLPK / program"
    );
    for (folder, peer, model) in MODELS {
        let text = PathBuf::from(format!("{folder}/{model}.txt"));
        let twin = PathBuf::from(format!("{peer}/{model}.mod"));
        let mut times: [Vec<f64>; 5] = Default::default();
        let mut ratios = Vec::new();
        for _ in 0..TURNS {
            let turn = [
                timed(generator("true", &nothing, &out)),
                timed(generator(program, &nothing, &out)),
                timed(generator(program, &text, &out)),
                timed(generator(independent, &text, &out)),
                timed(glpk(&twin, &matrix)),
            ];
            for (list, time) in times.iter_mut().zip(turn) {
                list.push(time);
            }
            ratios.push(turn[4] / turn[2]);
        }
        let [start, empty, ours, theirs, glpk] = times.map(median);
        let ratio = median(ratios);
        println!("{model}\t{start:.2}\t{empty:.2}\t{ours:.2}\t{theirs:.2}\t{glpk:.2}\t{ratio:.1}");
    }
}
