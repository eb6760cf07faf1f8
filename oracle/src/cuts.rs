//! Blocks cut into parts: an accepted run that is not sustained leaves what runs of its parts leave, one after the other. A strike comes before the first.
use crate::calls::{self, Random, rate, script_with_strikes};
use crate::noise::square_noise_f0;
use crate::port::{self, Records};
use crate::row::{Kind, Row, SUSTAIN, TRIGGER};
use crate::state::{pattern, words};
use crate::tally::{any, drawn, report};
use crate::voices::{Outcome, Played, Voices, outcome};
use mi_plaits_dsp::drums::hihat::SquareNoise;

/// Scripts of calls beside the Rust; then the port alone, on records that no call need have reached; then the square noise.
pub fn compare(size: u32) -> u64 {
    let voices = ['b', 's', 'y', 'h'];
    voices.into_iter().map(|voice| compare_reached(voice, size * 30)).sum::<u64>()
        + voices.into_iter().map(|voice| compare_any(voice, size * 100)).sum::<u64>()
        + drawn("SquareNoise in parts", size * 1000, same_square_noise)
}

/// Each block of a script, by the Rust whole, by the port whole, and by the port in parts. The scripts go on with the whole ones.
fn compare_reached(voice: char, scripts: u32) -> u64 {
    let mut r = Random::new(1000 + voice as u64);
    let (mut rust, mut port) = (Voices::default(), Records::default());
    let mut cuts = Cuts::default();
    for _ in 0..scripts {
        for row in script_with_strikes(&mut r, voice, 16384) {
            let from = port;
            let whole = [outcome(row.samples, |out| rust.play(&row, out)), outcome(row.samples, |out| port.play(&row, out))];
            cuts.add(&mut r, from, &row, &whole);
        }
    }
    report(&format!("voice {voice} in parts"), cuts.count, cuts.differ)
}

/// The same from records of any words. The Rust's fields cannot be set from outside, so here the port is held against itself.
fn compare_any(voice: char, blocks: u32) -> u64 {
    let mut r = Random::new(2000 + voice as u64);
    let mut cuts = Cuts::default();
    for _ in 0..blocks {
        let mut row = calls::row(&mut r, voice, Kind::Render, 16384);
        row.flags &= !SUSTAIN;
        let from = any_records(&mut r);
        let mut port = from;
        let whole = outcome(row.samples, |out| port.play(&row, out));
        cuts.add(&mut r, from, &row, &[whole]);
    }
    report(&format!("voice {voice} in parts, any record"), cuts.count, cuts.differ)
}

/// With a rate that is refused there is no block to cut.
pub fn any_records(r: &mut Random) -> Records {
    let wild = r.of(&WILD);
    Records::of_words(rate(r), || any_word(r, wild))
}

/// In a third of the records every word is of any pattern. As floats these are mostly huge or next to nothing, so in the others one word in 8, or in 64, is
/// any float, and the rest are floats that a signal may have, or small numbers for a counter to run out.
pub const WILD: [u32; 3] = [1, 8, 64];

pub fn any_word(r: &mut Random, wild: u32) -> u32 {
    if wild == 1 {
        r.word()
    } else if r.one_in(wild) {
        any(r).to_bits()
    } else if r.one_in(4) {
        r.below(1000)
    } else {
        (r.unit() * 4.0 - 2.0).to_bits()
    }
}

/// How many blocks were cut, and how many of them left something else.
#[derive(Default)]
struct Cuts {
    count: u64,
    differ: u64,
}

impl Cuts {
    /// A row, the port's record before it, and what it left whole: its run is cut at random, and the parts must leave the same. A refused row is not cut,
    /// nor is a sustained run, whose gain reaches its end within each part.
    fn add(&mut self, r: &mut Random, from: Records, row: &Row, whole: &[Outcome]) {
        let sustained = matches!(row.voice, 'y' | 'h') && row.flag(SUSTAIN);
        if !matches!(row.kind, Kind::Render) || sustained || whole.iter().all(|side| side.played.refusal != 0) {
            return;
        }
        let lengths = lengths(r, row.samples);
        let parts = outcome(row.samples, |out| in_parts(from, row, &lengths, out));
        self.count += 1;
        if whole.iter().any(|side| *side != parts) {
            self.differ += 1;
            if self.differ <= 5 {
                println!("row {row} from {:08x?}", from.left(row.voice, 0));
                whole.iter().for_each(|side| println!("whole {:?}", side.played));
                println!("parts {:?}, of {lengths:?}", parts.played);
            }
        }
    }
}

/// Lengths that add up to `samples`: blocks of one length and what is left over, or a few of any, one of them often 0.
pub fn lengths(r: &mut Random, samples: u32) -> Vec<u32> {
    if r.one_in(6) {
        let each = r.of(&[1, 64, 441]);
        let mut lengths = vec![each; (samples / each) as usize];
        lengths.push(samples % each);
        return lengths;
    }
    let mut ends: Vec<u32> = (0..r.below(5)).map(|_| r.below(samples + 1)).collect();
    ends.push(samples);
    if r.one_in(2) {
        // once more an end that is there, or the beginning
        ends.push(if r.one_in(3) { 0 } else { r.of(&ends) });
    }
    ends.sort();
    let mut from = 0;
    ends.into_iter().map(|end| end - std::mem::replace(&mut from, end)).collect()
}

/// The parts of a buffer one after the other.
pub fn each_part(mut out: &mut [f32], lengths: &[u32], mut play: impl FnMut(&mut [f32])) {
    for length in lengths {
        let (now, later) = out.split_at_mut(*length as usize);
        play(now);
        out = later;
    }
}

/// The block of a row in runs of these lengths, after its strike, if it has one: the record is handed on, the knobs stay.
fn in_parts(mut port: Records, row: &Row, lengths: &[u32], out: &mut [f32]) -> Played {
    let mut refusal = if row.flag(TRIGGER) { port.strike(row) } else { 0 };
    each_part(out, lengths, |now| refusal = refusal.max(port.run(row, now)));
    port.left(row.voice, refusal)
}

/// A block from zero phases and the next one, beside the Rust; then one from any phases, the port alone.
fn same_square_noise(r: &mut Random) -> bool {
    let mut rust = SquareNoise::new();
    let mut reached = port::bechullpi_hihat_square_noise_zero();
    let beside = (0..2).all(|_| {
        let (f0, samples) = (square_noise_f0(r), r.below(200));
        let mut out = vec![0.5; samples as usize];
        rust.render(f0, &mut out);
        let phase = words(&format!("{rust:?}"), &[]).try_into().expect("six phases");
        let want = (port::SquareNoise { phase }, patterns(&out));
        let (whole, parts) = (square_noise(reached, f0, &[samples]), square_noise(reached, f0, &lengths(r, samples)));
        reached = whole.0;
        whole == want && parts == want
    });
    let any = port::SquareNoise { phase: std::array::from_fn(|_| r.word()) };
    let (f0, samples) = (square_noise_f0(r), r.below(200));
    beside && square_noise(any, f0, &[samples]) == square_noise(any, f0, &lengths(r, samples))
}

/// The phases after blocks of these lengths, and the patterns of their samples.
fn square_noise(from: port::SquareNoise, f0: f32, lengths: &[u32]) -> (port::SquareNoise, Vec<u32>) {
    let mut noise = from;
    let mut out = vec![0.5; lengths.iter().sum::<u32>() as usize];
    each_part(&mut out, lengths, |now| noise = port::square_noise_render(noise, f0, now));
    (noise, patterns(&out))
}

fn patterns(samples: &[f32]) -> Vec<u32> {
    samples.iter().map(|x| pattern(*x)).collect()
}
