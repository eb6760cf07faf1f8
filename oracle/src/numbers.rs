//! Conversions, operations and ratios: the port's held against Rust's own and the published Rust's.
use crate::calls::Random;
use crate::port;
use crate::tally::{edges, report, same, sweep};
use mi_plaits_dsp::utils::units;
use std::panic::catch_unwind;

/// SIZE 1024 takes all patterns, and ten million random choices.
pub fn compare(size: u32) -> u64 {
    let count = (u64::from(size) << 22).min(1 << 32);
    // the published `semitones_to_ratio` panics past the end of its tables, and is expected to
    std::panic::set_hook(Box::new(|_| {}));
    let differ = of_one_pattern(count) + of_several(size * 10_000);
    let _ = std::panic::take_hook();
    differ
}

fn of_one_pattern(count: u64) -> u64 {
    let float = f32::from_bits;
    sweep("truncate_u32", count, |bits| port::bechullpi_ieee754_truncate_u32(float(bits)) == float(bits) as u32)
        + sweep("truncate_usize", count, |bits| port::bechullpi_ieee754_truncate_usize(float(bits)) == float(bits) as usize)
        + sweep("truncate_i32", count, |bits| port::bechullpi_ieee754_truncate_i32(float(bits)) == float(bits) as i32)
        + sweep("nearest_f32", count, |n| same(port::bechullpi_ieee754_nearest_f32(n), n as f32))
        + sweep("abs", count, |bits| same(port::bechullpi_ieee754_abs(float(bits)), float(bits).abs()))
        + sweep("sqrt", count, |bits| same(port::bechullpi_ieee754_sqrt(float(bits)), float(bits).sqrt()))
        + sweep("semitones_to_ratio", count, |bits| same_ratio(float(bits)))
}

/// Where the published Rust panics the ratio is held: it is the Rust's own for the last pitch that has a place (42fffffe). A panic takes microseconds: of the
/// held pitches one in 32 is put to the Rust, the least (42ffffff) and the infinity among them; of the others it is only asked whether the place that the Rust
/// would read is past the end.
fn same_ratio(semitones: f32) -> bool {
    let port = port::bechullpi_units_semitones_to_ratio(semitones);
    let rust = || catch_unwind(|| units::semitones_to_ratio(semitones));
    if ((semitones + 128.0) as usize) < 256 {
        return rust().is_ok_and(|ratio| same(port, ratio));
    }
    let put_to_the_rust = matches!(semitones.to_bits() % 64, 0 | 63);
    let held = units::semitones_to_ratio(f32::from_bits(0x42ff_fffe));
    same(port, held) && (!put_to_the_rust || rust().is_err())
}

fn of_several(random: u32) -> u64 {
    let edges = edges();
    let pairs = edges.iter().flat_map(|x| edges.iter().map(|y| [*x, *y, 0.0]));
    let triples = pairs.clone().flat_map(|[x, y, _]| edges.iter().map(move |z| [x, y, *z]));
    let mut r = Random::new(1);
    let mut any = || f32::from_bits(r.word());
    let words: Vec<[f32; 3]> = (0..random).map(|_| [any(), any(), any()]).collect();
    let of_pairs = || pairs.clone().chain(words.iter().copied());
    judge("minimum_number, f32::min", of_pairs(), |[x, y, _]| Some(same(port::bechullpi_ieee754_minimum_number(x, y), minimum(x, y))))
        + judge("maximum_number, f32::max", of_pairs(), |[x, y, _]| Some(same(port::bechullpi_ieee754_maximum_number(x, y), maximum(x, y))))
        + judge("clamp", triples.chain(words.iter().copied().map(in_order)), |[x, lo, hi]| {
            (lo <= hi).then(|| same(port::bechullpi_ieee754_clamp(x, lo, hi), x.clamp(lo, hi)))
        })
}

/// The sign of the zero that the Rust leaves open is the standard's here.
fn minimum(x: f32, y: f32) -> f32 {
    if opposite(x, y) { -0.0 } else { x.min(y) }
}

fn maximum(x: f32, y: f32) -> f32 {
    if opposite(x, y) { 0.0 } else { x.max(y) }
}

fn opposite(x: f32, y: f32) -> bool {
    x == 0.0 && y == 0.0 && x.is_sign_negative() != y.is_sign_negative()
}

/// The bounds of a clamp in their order, so that the Rust has an answer.
fn in_order([x, lo, hi]: [f32; 3]) -> [f32; 3] {
    if hi < lo { [x, hi, lo] } else { [x, lo, hi] }
}

/// `agrees` has no answer where the Rust's function has none.
fn judge(name: &str, inputs: impl Iterator<Item = [f32; 3]>, agrees: impl Fn([f32; 3]) -> Option<bool>) -> u64 {
    let (mut count, mut wrong) = (0u64, 0u64);
    for answer in inputs.filter_map(agrees) {
        count += 1;
        wrong += u64::from(!answer);
    }
    report(name, count, wrong)
}
