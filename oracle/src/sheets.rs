//! Random and damaged sheets, and what the compiled `cues` prints for them.
use crate::calls::{Random, knobs};
use crate::port;
use crate::sheet::{rendered, text};
use crate::state::pattern;
use crate::tally::same_all;
use std::io::Write;
use std::process::{Command, Stdio};

/// Runs `count` sheets, by the program and by the library, and tells how many are answered otherwise than by the second reading.
pub fn compare(program: &str, count: u32) -> u64 {
    let mut r = Random::new(1);
    let (mut differ, mut accepted) = (0, 0);
    for _ in 0..count {
        let input = sheet(&mut r);
        let want = text(&input);
        accepted += u32::from(want.starts_with("sample"));
        // the program reads 4,096 bytes at most, the library all
        let places = if r.one_in(4) { r.below(16385) } else { 16384 };
        if run(program, &input) != want.as_bytes() || !rendered_alike(&input, places as usize) {
            differ += 1;
            if differ <= 3 {
                println!("sheet {:?} into {places} places", String::from_utf8_lossy(&input));
            }
        }
    }
    println!("sheets: {count}, {accepted} of them accepted: {differ} differ");
    differ
}

/// Whether the library answers a sheet as the second reading does, and leaves the same in a buffer of so many places.
fn rendered_alike(input: &[u8], places: usize) -> bool {
    let mut want = vec![0.25; places];
    let mut got = want.clone();
    let answer = port::sheet(input, &mut got);
    let answer = [answer.number, answer.line, answer.rate, answer.length, answer.cues];
    answer == rendered(input, &mut want) && same_all(&want, &got)
}

/// For each name in the file `names`, the name of the sheet and what `cues` must print for it.
pub fn print(names: &str, folder: &str) {
    for name in std::fs::read_to_string(names).expect("the names are there").lines() {
        let sheet = std::fs::read(format!("{folder}/{name}")).expect("the sheet is there");
        print!("{name}\n{}", text(&sheet));
    }
}

/// What a program prints for an input. One that stops reading early may close its end first.
pub fn run(program: &str, input: &[u8]) -> Vec<u8> {
    let mut child = Command::new(program).stdin(Stdio::piped()).stdout(Stdio::piped()).spawn().expect("the program starts");
    let _ = child.stdin.take().expect("its input").write_all(input);
    child.wait_with_output().expect("the program ends").stdout
}

fn sheet(r: &mut Random) -> Vec<u8> {
    let rate = match r.below(8) {
        0 => r.of(&[16000, 96000, 15999, 96001]),
        _ => 16000 + r.below(80001),
    };
    let length = match r.below(8) {
        0 => r.of(&[0, 1, 16384, 16385]),
        1 => r.below(16385),
        _ => r.below(600),
    };
    let mut sheet = format!("{rate},{length}\n").into_bytes();
    let cues = match r.below(12) {
        0 => r.of(&[63, 64, 65]),
        _ => r.below(9),
    };
    let mut start = 0;
    for _ in 0..cues {
        start += if r.one_in(24) { 0 } else { 1 + r.below((length / (cues + 1)).max(1) * 2) };
        sheet.extend_from_slice(cue_line(r, start).as_bytes());
    }
    if r.one_in(3) {
        damage(r, &mut sheet);
    }
    sheet
}

fn cue_line(r: &mut Random, start: u32) -> String {
    let voice = r.of(&['b', 's', 'y', 'h']);
    let mut knobs = knobs(r, voice);
    if r.one_in(30) {
        let which = r.below(5) as usize;
        knobs[which] = r.of(&[f32::NAN, -1.0, 1.5, 2.0f32.next_up(), f32::INFINITY]);
    }
    line(start, voice, knobs)
}

pub fn line(start: u32, voice: char, knobs: [f32; 5]) -> String {
    let fields: String = knobs.iter().map(|x| format!(",{:08x}", pattern(*x))).collect();
    format!("{start},{voice}{fields}\n")
}

/// One small fault: a byte changed, put in or taken out, the end cut off, or a line twice.
pub fn damage(r: &mut Random, sheet: &mut Vec<u8>) {
    let at = r.below(sheet.len() as u32) as usize;
    let byte = if r.one_in(2) { r.of(b"\n,0AFgb -+") } else { r.below(256) as u8 };
    match r.below(5) {
        0 => sheet[at] = byte,
        1 => sheet.insert(at, byte),
        2 => drop(sheet.remove(at)),
        3 => sheet.truncate(at),
        _ => sheet.extend_from_within(at..),
    }
}
