//! The compiled port and the published Rust on the same inputs, in one process: `bench` prints times, `bench once NAME SIDE TIMES` runs a job for callgrind.
mod jobs;

use jobs::{Job, Run, jobs};
use oracle::state::pattern;
use std::hint::black_box;
use std::time::Instant;

const RUNS: usize = 31;
/// The least length of a run, in seconds.
const RUN: f64 = 0.02;

fn main() {
    let args: Vec<String> = std::env::args().skip(1).collect();
    match args.iter().map(String::as_str).collect::<Vec<_>>()[..] {
        [] => table(),
        ["once", name, side, times] => once(name, side, times.parse().expect("TIMES is a number")),
        _ => {
            eprintln!("usage: bench | bench once NAME port|rust TIMES");
            std::process::exit(2);
        }
    }
}

/// Runs are taken in turn; the ratio is the median of those of neighbouring runs.
fn table() {
    println!("| | port, ns | Rust, ns | port / Rust |\n|---|---|---|---|");
    for mut job in jobs() {
        let mut out = vec![0.0; job.places];
        assert!(bits(&mut job.port, &mut out) == bits(&mut job.rust, &mut out), "{}: both give the same bits", job.name);
        let times = (RUN / seconds(&mut job.rust, 1, &mut out)).ceil() as u32;
        let (mut port, mut rust, mut ratio) = (Vec::new(), Vec::new(), Vec::new());
        for _ in 0..RUNS {
            port.push(seconds(&mut job.port, times, &mut out));
            rust.push(seconds(&mut job.rust, times, &mut out));
            ratio.push(port[port.len() - 1] / rust[rust.len() - 1]);
        }
        let each = 1e9 / f64::from(times) / job.count as f64;
        println!("| {} | {:.2} | {:.2} | {:.2} |", job.name, median(port) * each, median(rust) * each, median(ratio));
    }
}

/// What a run leaves in the buffer, whole.
fn bits(run: &mut Run, out: &mut [f32]) -> Vec<u32> {
    out.fill(f32::NAN);
    run(out);
    out.iter().map(|x| pattern(*x)).collect()
}

fn seconds(run: &mut Run, times: u32, out: &mut [f32]) -> f64 {
    let start = Instant::now();
    for _ in 0..times {
        run(black_box(&mut *out));
    }
    start.elapsed().as_secs_f64()
}

fn median(mut values: Vec<f64>) -> f64 {
    values.sort_by(f64::total_cmp);
    values[values.len() / 2]
}

/// Prints how many samples or calls were made.
fn once(name: &str, side: &str, times: u32) {
    let mut job: Job = jobs().into_iter().find(|job| job.name == name).expect("NAME is in the table");
    let run = if side == "port" { &mut job.port } else { &mut job.rust };
    seconds(run, times, &mut vec![0.0; job.places]);
    println!("{}", job.count * u64::from(times));
}
