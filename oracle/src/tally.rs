//! How many inputs were compared, and how many differ: a line for each routine.
use crate::calls::Random;
use crate::state::pattern;
use std::collections::BTreeMap;

pub fn same(x: f32, y: f32) -> bool {
    pattern(x) == pattern(y)
}

pub fn same_all(x: &[f32], y: &[f32]) -> bool {
    x.len() == y.len() && x.iter().zip(y).all(|(x, y)| same(*x, *y))
}

/// The words i * ODD for i below `count`: spread over all patterns, and all of them where the count is 2^32.
fn wrong(from: u64, to: u64, agrees: impl Fn(u32) -> bool) -> u64 {
    const ODD: u32 = 0x9e37_79b1;
    (from..to).filter(|i| !agrees((*i as u32).wrapping_mul(ODD))).count() as u64
}

/// Half of the words in a second thread.
pub fn sweep(name: &str, count: u64, agrees: impl Fn(u32) -> bool + Sync) -> u64 {
    let differ = std::thread::scope(|scope| {
        let other = scope.spawn(|| wrong(count / 2, count, &agrees));
        wrong(0, count / 2, &agrees) + other.join().expect("it ends")
    });
    report(name, count, differ)
}

/// All in one thread: for what reads the Rust's static noise state.
pub fn sweep_alone(name: &str, count: u64, agrees: impl Fn(u32) -> bool) -> u64 {
    report(name, count, wrong(0, count, agrees))
}

/// Inputs drawn one by one; `agrees` tells whether both sides leave the same.
pub fn drawn(name: &str, count: u32, mut agrees: impl FnMut(&mut Random) -> bool) -> u64 {
    let mut r = Random::new(u64::from(count));
    let differ = (0..count).filter(|_| !agrees(&mut r)).count() as u64;
    report(name, count.into(), differ)
}

pub fn report(name: &str, count: u64, differ: u64) -> u64 {
    println!("{name}: {count} inputs: {differ} differ");
    differ
}

/// Calls and differences by the routine's name, for scripts that call several routines.
#[derive(Default)]
pub struct Counts(BTreeMap<&'static str, (u64, u64)>);

impl Counts {
    pub fn add(&mut self, name: &'static str, agrees: bool) {
        let (count, differ) = self.0.entry(name).or_default();
        *count += 1;
        *differ += u64::from(!agrees);
    }

    pub fn report(self) -> u64 {
        self.0.into_iter().map(|(name, (count, differ))| report(name, count, differ)).sum()
    }
}

/// Each with its sign set and clear: 64 patterns.
const EDGES: [u32; 32] = [
    0x0000_0000, 0x0000_0001, 0x0000_0002, 0x007f_ffff, 0x0080_0000, 0x0080_0001, 0x3380_0000, 0x3580_0000,
    0x3e4c_cccd, 0x3ecc_cccd, 0x3eff_ffff, 0x3f00_0000, 0x3f00_0001, 0x3f7f_ffff, 0x3f80_0000, 0x3f80_0001,
    0x4000_0000, 0x42ff_fffe, 0x42ff_ffff, 0x4300_0000, 0x4b00_0000, 0x4b7f_ffff, 0x4b80_0000, 0x4eff_ffff,
    0x4f00_0000, 0x4f80_0000, 0x5f00_0000, 0x7f7f_ffff, 0x7f80_0000, 0x7f80_0001, 0x7fc0_0000, 0x7fff_ffff,
];

pub fn edge_patterns() -> impl Iterator<Item = u32> {
    EDGES.into_iter()
}

pub fn edges() -> Vec<f32> {
    edge_patterns().flat_map(|bits| [bits, bits | 0x8000_0000]).map(f32::from_bits).collect()
}

/// Any float: a quarter at the edges, a quarter of any pattern, and the others of a size that a signal has.
pub fn any(r: &mut Random) -> f32 {
    match r.below(4) {
        0 => f32::from_bits(r.of(&EDGES) | (r.word() & 0x8000_0000)),
        1 => f32::from_bits(r.word()),
        _ => r.unit() * 8.0 - 4.0,
    }
}
