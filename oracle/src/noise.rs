//! The noise generator on every state, and the square noise at any f0.
use crate::calls::Random;
use crate::port;
use crate::state::words;
use crate::tally::{any, drawn, same, same_all, sweep_alone};
use mi_plaits_dsp::drums::hihat::SquareNoise;
use mi_plaits_dsp::utils::random;

/// SIZE 1024 takes all states, and a million blocks of the square noise.
pub fn compare(size: u32) -> u64 {
    let count = (u64::from(size) << 22).min(1 << 32);
    sweep_alone("get_word", count, same_word)
        + sweep_alone("get_float", count, same_float)
        + drawn("SquareNoise", size * 1000, same_square_noise)
}

fn same_word(state: u32) -> bool {
    random::seed(state);
    port::bechullpi_random_get_word(state) == random::get_word()
}

fn same_float(state: u32) -> bool {
    random::seed(state);
    let value = random::get_float();
    let draw = port::bechullpi_random_get_float(state);
    same(draw.value, value) && draw.word == port::bechullpi_random_get_word(state)
}

/// Any float, or one at which the waves run unequally.
pub fn square_noise_f0(r: &mut Random) -> f32 {
    if r.one_in(2) { any(r) } else { r.unit() * 0.3 }
}

/// Three blocks, the first from zero phases, the others from where the one before left them.
fn same_square_noise(r: &mut Random) -> bool {
    let mut rust = SquareNoise::new();
    rust.init();
    let mut noise = port::bechullpi_hihat_square_noise_init(port::bechullpi_hihat_square_noise_zero());
    (0..3).all(|_| {
        let f0 = square_noise_f0(r);
        let mut out = vec![0.5; r.below(24) as usize];
        let mut rust_out = out.clone();
        rust.render(f0, &mut rust_out);
        noise = port::square_noise_render(noise, f0, &mut out);
        same_all(&out, &rust_out) && words(&format!("{noise:?}"), &[]) == words(&format!("{rust:?}"), &[])
    })
}
