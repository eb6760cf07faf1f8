//! The minimum and maximum operations, held against IEEE 754-2019, 9.6, read over bit patterns as whole numbers. No float is compared here.
use crate::calls::Random;
use crate::port;
use crate::tally::{edge_patterns, report};

/// A format by its patterns: the sign's digit, the infinity, and the digit that is set in a quiet NaN and clear in a signaling one.
#[derive(Clone, Copy)]
struct Format {
    sign: u64,
    infinity: u64,
    quiet: u64,
}

const SINGLE: Format = Format { sign: 0x8000_0000, infinity: 0x7f80_0000, quiet: 0x0040_0000 };
const DOUBLE: Format = Format { sign: 0x8000_0000_0000_0000, infinity: 0x7ff0_0000_0000_0000, quiet: 0x0008_0000_0000_0000 };

impl Format {
    /// |x|: patterns without a sign are in the order of their magnitudes.
    fn magnitude(self, x: u64) -> u64 {
        x & !self.sign
    }

    fn nan(self, x: u64) -> bool {
        self.magnitude(x) > self.infinity
    }

    fn quiet_nan(self, x: u64) -> bool {
        self.nan(x) && x & self.quiet != 0
    }

    /// A number's place among all numbers: -0 is at -1, and +0 at 0.
    fn place(self, x: u64) -> i128 {
        let magnitude = i128::from(self.magnitude(x));
        if x & self.sign == 0 { magnitude } else { -1 - magnitude }
    }
}

/// An operation; `None` is a quiet NaN.
type Operation = fn(Format, u64, u64) -> Option<u64>;

fn minimum(f: Format, x: u64, y: u64) -> Option<u64> {
    if f.nan(x) || f.nan(y) { None } else { Some(if f.place(x) < f.place(y) { x } else { y }) }
}

fn maximum(f: Format, x: u64, y: u64) -> Option<u64> {
    if f.nan(x) || f.nan(y) { None } else { Some(if f.place(x) > f.place(y) { x } else { y }) }
}

/// The number beside a NaN; of two numbers, or of two NaNs, what `both` gives.
fn number(f: Format, x: u64, y: u64, both: Operation) -> Option<u64> {
    match (f.nan(x), f.nan(y)) {
        (true, false) => Some(y),
        (false, true) => Some(x),
        _ => both(f, x, y),
    }
}

fn minimum_number(f: Format, x: u64, y: u64) -> Option<u64> {
    number(f, x, y, minimum)
}

fn maximum_number(f: Format, x: u64, y: u64) -> Option<u64> {
    number(f, x, y, maximum)
}

/// What compares greater in magnitude, if one of them does. A NaN compares with nothing.
fn of_larger(f: Format, x: u64, y: u64) -> Option<u64> {
    if f.nan(x) || f.nan(y) || f.magnitude(x) == f.magnitude(y) {
        return None;
    }
    Some(if f.magnitude(x) > f.magnitude(y) { x } else { y })
}

fn maximum_magnitude(f: Format, x: u64, y: u64) -> Option<u64> {
    of_larger(f, x, y).or_else(|| maximum(f, x, y))
}

fn maximum_magnitude_number(f: Format, x: u64, y: u64) -> Option<u64> {
    of_larger(f, x, y).or_else(|| maximum_number(f, x, y))
}

fn minimum_magnitude(f: Format, x: u64, y: u64) -> Option<u64> {
    of_larger(f, x, y).map_or_else(|| minimum(f, x, y), |larger| Some(x ^ y ^ larger))
}

fn minimum_magnitude_number(f: Format, x: u64, y: u64) -> Option<u64> {
    of_larger(f, x, y).map_or_else(|| minimum_number(f, x, y), |larger| Some(x ^ y ^ larger))
}

/// All pairs of 64 patterns of each width, and `random` others.
pub fn compare(random: u32) -> u64 {
    let single = pairs(SINGLE, edge_patterns().map(u64::from), random);
    let double = pairs(DOUBLE, edge_patterns_f64(), random);
    let f32s = |name, port: extern "C" fn(f32, f32) -> f32, operation| {
        let float = |bits: u64| f32::from_bits(bits as u32);
        held(name, SINGLE, &single, |x, y| port(float(x), float(y)).to_bits().into(), operation)
    };
    let f64s = |name, port: extern "C" fn(f64, f64) -> f64, operation| {
        held(name, DOUBLE, &double, |x, y| port(f64::from_bits(x), f64::from_bits(y)).to_bits(), operation)
    };
    f32s("minimum", port::bechullpi_ieee754_minimum, minimum)
        + f32s("minimum_number", port::bechullpi_ieee754_minimum_number, minimum_number)
        + f32s("maximum", port::bechullpi_ieee754_maximum, maximum)
        + f32s("maximum_number", port::bechullpi_ieee754_maximum_number, maximum_number)
        + f32s("minimum_magnitude", port::bechullpi_ieee754_minimum_magnitude, minimum_magnitude)
        + f32s("minimum_magnitude_number", port::bechullpi_ieee754_minimum_magnitude_number, minimum_magnitude_number)
        + f32s("maximum_magnitude", port::bechullpi_ieee754_maximum_magnitude, maximum_magnitude)
        + f32s("maximum_magnitude_number", port::bechullpi_ieee754_maximum_magnitude_number, maximum_magnitude_number)
        + f64s("minimum_f64", port::bechullpi_ieee754_minimum_f64, minimum)
        + f64s("minimum_number_f64", port::bechullpi_ieee754_minimum_number_f64, minimum_number)
        + f64s("maximum_f64", port::bechullpi_ieee754_maximum_f64, maximum)
        + f64s("maximum_number_f64", port::bechullpi_ieee754_maximum_number_f64, maximum_number)
        + f64s("minimum_magnitude_f64", port::bechullpi_ieee754_minimum_magnitude_f64, minimum_magnitude)
        + f64s("minimum_magnitude_number_f64", port::bechullpi_ieee754_minimum_magnitude_number_f64, minimum_magnitude_number)
        + f64s("maximum_magnitude_f64", port::bechullpi_ieee754_maximum_magnitude_f64, maximum_magnitude)
        + f64s("maximum_magnitude_number_f64", port::bechullpi_ieee754_maximum_magnitude_number_f64, maximum_magnitude_number)
}

/// A number must come back as it is, and for a NaN some quiet one.
fn held(name: &str, f: Format, pairs: &[[u64; 2]], port: impl Fn(u64, u64) -> u64, operation: Operation) -> u64 {
    let agrees = |[x, y]: [u64; 2]| operation(f, x, y).map_or_else(|| f.quiet_nan(port(x, y)), |number| port(x, y) == number);
    report(name, pairs.len() as u64, pairs.iter().filter(|pair| !agrees(**pair)).count() as u64)
}

/// Of the random ones a quarter are alike: the same, its negative, or a neighbour.
fn pairs(f: Format, edges: impl Iterator<Item = u64>, random: u32) -> Vec<[u64; 2]> {
    let edges: Vec<u64> = edges.flat_map(|bits| [bits, bits | f.sign]).collect();
    let mut r = Random::new(7);
    let any = |r: &mut Random| (u64::from(r.word()) << 32 | u64::from(r.word())) & (f.sign | (f.sign - 1));
    let alike = (0..random).map(|_| {
        let x = any(&mut r);
        let y = match r.below(16) {
            0 => x,
            1 | 2 => x ^ f.sign,
            3 => x ^ 1,
            _ => any(&mut r),
        };
        [x, y]
    });
    edges.iter().flat_map(|x| edges.iter().map(|y| [*x, *y])).chain(alike).collect()
}

/// As `edge_patterns`, in double precision; and patterns that differ in one half alone.
fn edge_patterns_f64() -> impl Iterator<Item = u64> {
    [
        0x0000_0000_0000_0000, 0x0000_0000_0000_0001, 0x0000_0000_0000_0002, 0x0000_0000_7fff_ffff, 0x0000_0000_8000_0000, 0x0000_0000_ffff_ffff,
        0x0000_0001_0000_0000, 0x000f_ffff_ffff_ffff, 0x0010_0000_0000_0000, 0x0010_0000_0000_0001, 0x36a0_0000_0000_0000, 0x3810_0000_0000_0000,
        0x3fe0_0000_0000_0000, 0x3fef_ffff_ffff_ffff, 0x3ff0_0000_0000_0000, 0x3ff0_0000_0000_0001, 0x3ff0_0000_ffff_ffff, 0x3ff0_0001_0000_0000,
        0x4000_0000_0000_0000, 0x4008_0000_0000_0000, 0x4330_0000_0000_0000, 0x4340_0000_0000_0000, 0x43e0_0000_0000_0000, 0x47ef_ffff_e000_0000,
        0x47f0_0000_0000_0000, 0x7fef_ffff_ffff_ffff, 0x7ff0_0000_0000_0000, 0x7ff0_0000_0000_0001, 0x7ff4_0000_0000_0000, 0x7ff7_ffff_ffff_ffff,
        0x7ff8_0000_0000_0000, 0x7fff_ffff_ffff_ffff,
    ]
    .into_iter()
}
