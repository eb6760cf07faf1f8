//! What is measured: jobs that fill a buffer, on both sides with the same bits.
use mi_plaits_dsp::drums::analog_bass_drum::AnalogBassDrum;
use mi_plaits_dsp::drums::analog_snare_drum::AnalogSnareDrum;
use mi_plaits_dsp::drums::hihat::{Hihat, NoiseType, VcaType};
use mi_plaits_dsp::drums::synthetic_bass_drum::{SyntheticBassDrumAttackNoise, SyntheticBassDrumClick};
use mi_plaits_dsp::drums::synthetic_snare_drum::SyntheticSnareDrum;
use mi_plaits_dsp::utils::{random, units};
use oracle::calls::Random;
use oracle::port;
use oracle::port::Knobs;
use oracle::sheet;
use std::hint::black_box;

pub struct Job {
    pub name: String,
    /// samples or calls in one run
    pub count: u64,
    /// places of the buffer
    pub places: usize,
    pub port: Run,
    pub rust: Run,
}

pub type Run = Box<dyn FnMut(&mut [f32])>;

/// As many as the longest block has: a third of a second.
const SAMPLES: usize = 16384;
/// The noise state that the port's init sets: the published generator is seeded with it.
const NOISE: u32 = 33;
const RATE: f32 = 48000.0;

// No compiler sees the knobs, nor the flags that both sides have: neither side is made for these alone, and what follows from them is worked out at each block.
const BASS: Knobs = [0.8, 0.001, 0.4, 0.6, 0.5, 0.3];
const SNARE: Knobs = [0.8, 0.004, 0.5, 0.6, 0.5, 0.0];
const HIHAT: Knobs = [0.8, 0.01, 0.6, 0.7, 0.5, 0.0];
/// For how many samples the transient's click is fed 0.0: a millisecond.
const CLICK: usize = 48;

pub fn jobs() -> Vec<Job> {
    let mut jobs = Vec::new();
    for block in [64, 1024, 16384] {
        jobs.push(voice("AnalogBassDrum", block, BASS, bass_port, bass_rust));
        jobs.push(voice("AnalogSnareDrum", block, SNARE, snare_port, snare_rust));
        jobs.push(voice("SyntheticSnareDrum", block, SNARE, synthetic_snare_port, synthetic_snare_rust));
        jobs.push(voice("Hihat", block, HIHAT, hihat_port, hihat_rust(block)));
        jobs.push(voice("SyntheticBassDrumTransient", block, CLICK, transient_port, transient_rust));
    }
    jobs.extend([full_sheet(), ratios(), roots(), draws()]);
    jobs
}

/// A voice from its init, struck at the first of the blocks that make up `SAMPLES`. Both sides take the rate, the knobs, of the transient its n, the number of blocks
/// and the block.
fn voice<K: Copy + 'static>(
    name: &str,
    block: usize,
    knobs: K,
    port: impl FnMut(f32, K, u32, &mut [f32]) + 'static,
    rust: impl FnMut(f32, K, u32, &mut [f32]) + 'static,
) -> Job {
    let blocks = (SAMPLES / block) as u32;
    Job {
        name: format!("{name}, blocks of {block}"),
        count: SAMPLES as u64,
        places: block,
        port: run(blocks, knobs, port),
        rust: run(blocks, knobs, rust),
    }
}

fn run<K: Copy + 'static>(blocks: u32, knobs: K, mut side: impl FnMut(f32, K, u32, &mut [f32]) + 'static) -> Run {
    Box::new(move |out| side(black_box(RATE), black_box(knobs), black_box(blocks), out))
}

/// Each side makes its voice, strikes it and renders block after block: the port by a strike and then a run for each, the Rust with a trigger at the first. The
/// knobs are hidden anew at each block, as the side takes them, the port's in a record.
fn bass_port(rate: f32, knobs: Knobs, blocks: u32, out: &mut [f32]) {
    let voice = port::bechullpi_analog_bass_drum_init(port::bechullpi_analog_bass_drum_zero(), rate).voice;
    let mut voice = port::bechullpi_analog_bass_drum_strike(voice, knobs[0]).voice;
    let record = port::bass_knobs(knobs);
    for _ in 0..blocks {
        voice = port::bass_run(voice, black_box(record), out).voice;
    }
}

fn bass_rust(rate: f32, knobs: Knobs, blocks: u32, out: &mut [f32]) {
    let mut voice = AnalogBassDrum::new();
    voice.init(rate);
    for i in 0..blocks {
        let [accent, f0, tone, decay, attack_fm, self_fm] = black_box(knobs);
        voice.render(false, i == 0, accent, f0, tone, decay, attack_fm, self_fm, out);
    }
}

fn snare_port(rate: f32, knobs: Knobs, blocks: u32, out: &mut [f32]) {
    let voice = port::bechullpi_analog_snare_drum_init(port::bechullpi_analog_snare_drum_zero(), rate).voice;
    let mut voice = port::bechullpi_analog_snare_drum_strike(voice, knobs[0]).voice;
    let record = port::snare_knobs(knobs);
    for _ in 0..blocks {
        voice = port::snare_run(voice, black_box(record), out).voice;
    }
}

fn snare_rust(rate: f32, knobs: Knobs, blocks: u32, out: &mut [f32]) {
    random::seed(NOISE);
    let mut voice = AnalogSnareDrum::new();
    voice.init(rate);
    for i in 0..blocks {
        let [accent, f0, tone, decay, snappy, _] = black_box(knobs);
        voice.render(false, i == 0, accent, f0, tone, decay, snappy, out);
    }
}

fn synthetic_snare_port(rate: f32, knobs: Knobs, blocks: u32, out: &mut [f32]) {
    let voice = port::bechullpi_synthetic_snare_drum_init(port::bechullpi_synthetic_snare_drum_zero(), rate).voice;
    let mut voice = port::bechullpi_synthetic_snare_drum_strike(voice, knobs[0], knobs[3]).voice;
    let record = port::synthetic_snare_knobs(false, knobs);
    for _ in 0..blocks {
        voice = port::synthetic_snare_run(voice, black_box(record), out).voice;
    }
}

fn synthetic_snare_rust(rate: f32, knobs: Knobs, blocks: u32, out: &mut [f32]) {
    random::seed(NOISE);
    let mut voice = SyntheticSnareDrum::new();
    voice.init(rate);
    for i in 0..blocks {
        let [accent, f0, fm_amount, decay, snappy, _] = black_box(knobs);
        voice.render(black_box(false), i == 0, accent, f0, fm_amount, decay, snappy, out);
    }
}

fn hihat_port(rate: f32, knobs: Knobs, blocks: u32, out: &mut [f32]) {
    let voice = port::bechullpi_hihat_init(port::bechullpi_hihat_zero(), rate).voice;
    let mut voice = port::bechullpi_hihat_strike(voice, knobs[0], knobs[3]).voice;
    let record = port::hihat_knobs([false, true, false], knobs);
    for _ in 0..blocks {
        voice = port::hihat_run(voice, black_box(false), black_box(record), out).voice;
    }
}

/// The two scratch slices are made once, before anything is measured.
fn hihat_rust(block: usize) -> impl FnMut(f32, Knobs, u32, &mut [f32]) {
    let (mut temp_1, mut temp_2) = (vec![0.0; block], vec![0.0; block]);
    move |rate, knobs, blocks, out| {
        random::seed(NOISE);
        let mut voice = Hihat::new();
        voice.init(rate);
        for i in 0..blocks {
            let [sustain, resonance, two_stage] = black_box([false, true, false]);
            let (noise, vca) = (NoiseType::Square, black_box(VcaType::Swing));
            let [accent, f0, tone, decay, noisiness, _] = black_box(knobs);
            let (temp_1, temp_2) = (&mut temp_1, &mut temp_2);
            voice.render(sustain, i == 0, accent, f0, tone, decay, noisiness, temp_1, temp_2, out, noise, vca, resonance, two_stage);
        }
    }
}

/// Click plus hiss, from block to block with what is left of n: hidden anew at each, as the knobs are.
fn transient_port(rate: f32, mut n: usize, blocks: u32, out: &mut [f32]) {
    let mut transient = port::bechullpi_synthetic_bass_drum_transient_init(port::bechullpi_synthetic_bass_drum_transient_zero(), rate).transient;
    for _ in 0..blocks {
        transient = port::transient_render(transient, black_box(n), out).transient;
        n = n.saturating_sub(out.len());
    }
}

fn transient_rust(rate: f32, mut n: usize, blocks: u32, out: &mut [f32]) {
    random::seed(NOISE);
    let (mut click, mut noise) = (SyntheticBassDrumClick::new(), SyntheticBassDrumAttackNoise::new());
    click.init(rate);
    noise.init();
    for _ in 0..blocks {
        let now = black_box(n);
        for (i, sample) in out.iter_mut().enumerate() {
            *sample = click.process(if i < now { 0.0 } else { 1.0 }) + noise.render();
        }
        n = n.saturating_sub(out.len());
    }
}

/// 64 cues, the voices in turn, read from its bytes and rendered. The published generator is seeded anew for each block, since each voice draws from its own state.
fn full_sheet() -> Job {
    let mut text = format!("48000,{SAMPLES}\n");
    for i in 0..64 {
        let (voice, knobs) = [('b', BASS), ('s', SNARE), ('y', SNARE), ('h', HIHAT)][i % 4];
        let knobs: String = knobs[..5].iter().map(|x| format!(",{:08x}", x.to_bits())).collect();
        text += &format!("{},{voice}{knobs}\n", i * SAMPLES / 64);
    }
    let (bytes, copy) = (text.clone().into_bytes(), text.into_bytes());
    Job {
        name: "sheet of 64 cues".to_string(),
        count: SAMPLES as u64,
        places: SAMPLES,
        port: Box::new(move |out| assert_eq!(port::sheet(black_box(&bytes), out).number, 0, "an accepted sheet")),
        rust: Box::new(move |out| assert_eq!(sheet::rendered(black_box(&copy), out)[0], 0, "an accepted sheet")),
    }
}

const CALLS: usize = 4096;

/// A function called once for each input, through a pointer on both sides.
fn calls(name: &str, inputs: Vec<f32>, port: extern "C" fn(f32) -> f32, rust: fn(f32) -> f32) -> Job {
    called(name, inputs, move |x| black_box(port)(x), move |x| black_box(rust)(x))
}

fn called<T: Copy + 'static>(name: &str, inputs: Vec<T>, port: impl Fn(T) -> f32 + 'static, rust: impl Fn(T) -> f32 + 'static) -> Job {
    let copy = inputs.clone();
    Job {
        name: name.to_string(),
        count: CALLS as u64,
        places: CALLS,
        port: Box::new(move |out| each(&inputs, out, &port)),
        rust: Box::new(move |out| each(&copy, out, &rust)),
    }
}

/// x86-64 counts leading zeros into a register that it first reads. That register is cleared between calls, or a call might wait for what the last one left there.
fn each<T: Copy>(inputs: &[T], out: &mut [f32], call: impl Fn(T) -> f32) {
    for (place, x) in out.iter_mut().zip(inputs) {
        *place = call(*x);
        unsafe { std::arch::asm!("xor ecx, ecx", out("ecx") _) };
    }
}

fn ratios() -> Job {
    let mut r = Random::new(1);
    let pitches = (0..CALLS).map(|_| r.unit() * 254.0 - 127.0).collect();
    extern "C" fn port(semitones: f32) -> f32 {
        port::bechullpi_units_semitones_to_ratio(semitones)
    }
    calls("semitones_to_ratio", pitches, port, units::semitones_to_ratio)
}

fn roots() -> Job {
    let mut r = Random::new(1);
    let inputs = (0..CALLS).map(|_| r.unit() * 4.0).collect();
    calls("sqrt", inputs, port::bechullpi_ieee754_sqrt, f32::sqrt)
}

/// A draw from each of many states: in a chain, the C call would make each draw wait for the value of the one before, which comes in one register with the state.
fn draws() -> Job {
    let mut r = Random::new(1);
    let states: Vec<u32> = (0..CALLS).map(|_| r.word()).collect();
    let port: extern "C" fn(u32) -> port::Draw = port::bechullpi_random_get_float;
    let rust: fn(u32) -> f32 = |state| {
        random::seed(state);
        random::get_float()
    };
    called("get_float", states, move |state| black_box(port)(state).value, move |state| black_box(rust)(state))
}
