//! Holds the port against the published Rust: `oracle record ROWS ANSWERS`, `oracle sheets NAMES FOLDER` or `oracle compare SIZE`.
use oracle::{cuts, draws, filters, min_max, noise, numbers, replay, sheets, small, tracks, transient, voices};

fn main() {
    let args: Vec<String> = std::env::args().skip(1).collect();
    match args.iter().map(String::as_str).collect::<Vec<_>>()[..] {
        ["record", rows, answers] => replay::record(rows, answers),
        ["sheets", names, folder] => sheets::print(names, folder),
        ["compare", size] => compare(size.parse().expect("SIZE is a number")),
        _ => {
            eprintln!("usage: oracle record ROWS ANSWERS | oracle sheets NAMES FOLDER | oracle compare SIZE");
            std::process::exit(2);
        }
    }
}

/// SIZE 1 takes some seconds; 1024 has every pattern of 32 bits in it, and a million choices of what has several inputs. Any difference gives the exit status 1.
fn compare(size: u32) {
    let differ = numbers::compare(size)
        + min_max::compare(size * 10_000)
        + noise::compare(size)
        + small::compare(size * 1000)
        + filters::compare(size * 1000)
        + voices::compare(size * 60)
        + cuts::compare(size)
        + transient::compare(size)
        + tracks::compare(size)
        + sheets::compare("target/bin/cues", size * 100)
        + draws::compare("target/bin/draws", size * 100);
    println!("{differ} differ");
    std::process::exit(i32::from(differ != 0));
}
