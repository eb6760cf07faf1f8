//! The click and the hiss of the published bass drum: each by itself, and both over a block, the transient.
//!
//! The Rust has no call for a block of it: a plain loop adds the two up.
use crate::calls::{Random, length, rate};
use crate::cuts::{WILD, any_word, each_part, lengths};
use crate::port;
use crate::state::words;
use crate::tally::{Counts, any, report, same};
use crate::voices::{FIRST_NOISE, Outcome, Played, drawing, is_rate, outcome};
use mi_plaits_dsp::drums::synthetic_bass_drum::{SyntheticBassDrumAttackNoise, SyntheticBassDrumClick};

/// SIZE 1024 takes a million calls of each routine of the two, 10^8 samples of blocks, and 10^5 blocks from records that no call need have reached.
pub fn compare(size: u32) -> u64 {
    let mut r = Random::new(5000);
    let mut counts = Counts::default();
    for _ in 0..size * 500 {
        run_click(&mut r, &mut counts);
        run_hiss(&mut r, &mut counts);
    }
    counts.report() + compare_blocks(size * 60) + compare_any(size * 100)
}

/// A few calls of the click, from a record of zeros or an init: output and every field compared after each. A rise from 0.0 to 1.0 is what it is for, but it takes
/// any float. A rate that is refused leaves its record, and the Rust is not called.
fn run_click(r: &mut Random, counts: &mut Counts) {
    let mut rust = SyntheticBassDrumClick::new();
    let mut port = port::bechullpi_synthetic_bass_drum_click_zero();
    let wild = r.of(&WILD);
    for i in 0..12 {
        let (name, agrees) = if r.one_in(8) || i == 0 && !r.one_in(4) {
            let rate = rate(r);
            let a = port::bechullpi_synthetic_bass_drum_click_init(port, rate);
            port = a.click;
            if is_rate(rate) {
                rust.init(rate);
            }
            ("SyntheticBassDrumClick::init", a.number == u32::from(!is_rate(rate)))
        } else {
            let in_ = if r.one_in(wild) { any(r) } else { r.of(&[0.0, 1.0]) };
            let o = port::bechullpi_synthetic_bass_drum_click_process(port, in_);
            port = o.click;
            ("SyntheticBassDrumClick::process", same(o.out, rust.process(in_)))
        };
        counts.add(name, agrees && words(&format!("{port:?}"), &[]) == words(&format!("{rust:?}"), &[]));
    }
}

/// The same of the hiss, and of the state of its generator.
fn run_hiss(r: &mut Random, counts: &mut Counts) {
    let mut rust = SyntheticBassDrumAttackNoise::new();
    let mut port = port::bechullpi_synthetic_bass_drum_attack_noise_zero();
    let mut noise = if r.one_in(4) { FIRST_NOISE } else { r.word() };
    for _ in 0..12 {
        let (name, agrees) = if r.one_in(6) {
            rust.init();
            port = port::bechullpi_synthetic_bass_drum_attack_noise_init(port);
            ("SyntheticBassDrumAttackNoise::init", true)
        } else {
            let o = port::bechullpi_synthetic_bass_drum_attack_noise_render(port, noise);
            port = o.attack_noise;
            let mut want = 0.0;
            drawing(&mut noise, || want = rust.render());
            ("SyntheticBassDrumAttackNoise::render", same(o.out, want) && o.noise == noise)
        };
        counts.add(name, agrees && words(&format!("{port:?}"), &[]) == words(&format!("{rust:?}"), &[]));
    }
}

#[derive(Clone, Copy, Debug)]
pub enum Call {
    /// A record with every field zero.
    Zero,
    Init(f32),
    /// The click is fed 0.0 for the first n samples.
    Render {
        n: usize,
        samples: u32,
    },
}

impl Call {
    pub fn samples(&self) -> u32 {
        if let Call::Render { samples, .. } = self { *samples } else { 0 }
    }

    fn random_render(r: &mut Random, longest: u32) -> Self {
        let samples = length(r, longest);
        let size = samples as usize;
        let n = match r.below(8) {
            0 => 0,
            1 => r.of(&[1, size.saturating_sub(1), size, size + 1]),
            2 => size + r.below(20000) as usize,
            // the last in 32 bits, those that have no other bits there than one below the size, and the last of all
            3 => r.of(&[u32::MAX as usize, (1 << 32) + size / 2, usize::MAX]),
            _ => r.below(samples + 1) as usize,
        };
        Call::Render { n, samples }
    }
}

/// The calls of one script: a record with every field zero, mostly an init, then blocks and an init now and then.
pub fn script(r: &mut Random, longest: u32) -> Vec<Call> {
    let mut calls = vec![Call::Zero];
    if !r.one_in(10) {
        calls.push(Call::Init(rate(r)));
    }
    for _ in 0..r.below(16) {
        calls.push(if r.one_in(12) { Call::Init(rate(r)) } else { Call::random_render(r, longest) });
    }
    calls
}

/// The published two, and the state of the generator that the hiss draws from; it is zero in a record with every field zero.
#[derive(Default)]
pub struct Published {
    click: SyntheticBassDrumClick,
    attack_noise: SyntheticBassDrumAttackNoise,
    noise: u32,
}

impl Published {
    pub fn play(&mut self, call: &Call, out: &mut [f32]) -> Played {
        let refusal = match *call {
            Call::Init(rate) if !is_rate(rate) => 1,
            Call::Render { samples, .. } if samples > 16384 => 2,
            _ => {
                self.play_accepted(call, out);
                0
            }
        };
        let state = words(&format!("{:?}", (&self.click, &self.attack_noise)), &[]);
        Played { refusal, noise: self.noise, state }
    }

    fn play_accepted(&mut self, call: &Call, out: &mut [f32]) {
        let Published { click, attack_noise, noise } = self;
        match *call {
            Call::Zero => *self = Published::default(),
            Call::Init(rate) => {
                click.init(rate);
                attack_noise.init();
                *noise = FIRST_NOISE;
            }
            Call::Render { n, .. } => drawing(noise, || {
                for (i, sample) in out.iter_mut().enumerate() {
                    *sample = click.process(if i < n { 0.0 } else { 1.0 }) + attack_noise.render();
                }
            }),
        }
    }
}

/// The same call of the port, and what it leaves in the record and in `out`.
fn play(transient: &mut port::SyntheticBassDrumTransient, call: &Call, out: &mut [f32]) -> Played {
    let number = match *call {
        Call::Zero => {
            *transient = port::bechullpi_synthetic_bass_drum_transient_zero();
            0
        }
        Call::Init(rate) => {
            let a = port::bechullpi_synthetic_bass_drum_transient_init(*transient, rate);
            *transient = a.transient;
            a.number
        }
        Call::Render { n, .. } => render(transient, n, out),
    };
    left(transient, number)
}

fn render(transient: &mut port::SyntheticBassDrumTransient, n: usize, out: &mut [f32]) -> u32 {
    let a = port::transient_render(*transient, n, out);
    *transient = a.transient;
    a.number
}

fn left(transient: &port::SyntheticBassDrumTransient, refusal: u32) -> Played {
    Played { refusal, noise: transient.noise, state: words(&format!("{transient:?}"), &["noise"]) }
}

/// A block in parts: the record is handed on, and with it what is left of n.
fn in_parts(mut transient: port::SyntheticBassDrumTransient, mut n: usize, lengths: &[u32], out: &mut [f32]) -> Played {
    let mut refusal = 0;
    each_part(out, lengths, |now| {
        refusal = refusal.max(render(&mut transient, n, now));
        n = n.saturating_sub(now.len());
    });
    left(&transient, refusal)
}

/// Random scripts on both sides; each accepted block by the port in parts too.
fn compare_blocks(scripts: u32) -> u64 {
    let mut r = Random::new(5001);
    let (mut rust, mut port) = (Published::default(), port::bechullpi_synthetic_bass_drum_transient_zero());
    let mut tally = Tally::default();
    let mut cuts = Tally::default();
    for _ in 0..scripts {
        for call in script(&mut r, 16384) {
            let from = port;
            let want = outcome(call.samples(), |out| rust.play(&call, out));
            let got = outcome(call.samples(), |out| play(&mut port, &call, out));
            tally.add(&call, &want, &got);
            cuts.add_parts(&mut r, from, &call, &want);
        }
    }
    let Tally { calls, refused, samples, differ } = tally;
    println!("transient: {calls} calls, {refused} of them refused, {samples} samples: {differ} differ");
    differ + report("transient in parts", cuts.calls, cuts.differ)
}

/// Blocks from records of any words. The Rust's fields cannot be set from outside, so here the port in parts is held against the port whole.
fn compare_any(blocks: u32) -> u64 {
    let mut r = Random::new(5002);
    let mut cuts = Tally::default();
    for _ in 0..blocks {
        let call = Call::random_render(&mut r, 16384);
        let wild = r.of(&WILD);
        let from = port::transient_of_words(|| any_word(&mut r, wild));
        let mut port = from;
        let whole = outcome(call.samples(), |out| play(&mut port, &call, out));
        cuts.add_parts(&mut r, from, &call, &whole);
    }
    report("transient in parts, any record", cuts.calls, cuts.differ)
}

/// Calls, those that were refused, the samples of the others, and how many calls left something else.
#[derive(Default)]
struct Tally {
    calls: u64,
    refused: u64,
    samples: u64,
    differ: u64,
}

impl Tally {
    fn add(&mut self, call: &Call, want: &Outcome, got: &Outcome) {
        let refused = want.played.refusal != 0;
        self.calls += 1;
        self.refused += u64::from(refused);
        self.samples += if refused { 0 } else { u64::from(call.samples()) };
        if want != got {
            self.differ += 1;
            if self.differ <= 5 {
                println!("{call:?}\nwant {:?}\ngot {:?}", want.played, got.played);
            }
        }
    }

    /// A block cut at random, from the port's record before it, and what it left whole. A refused one is not cut.
    fn add_parts(&mut self, r: &mut Random, from: port::SyntheticBassDrumTransient, call: &Call, whole: &Outcome) {
        if let Call::Render { n, samples } = *call
            && whole.played.refusal == 0
        {
            let lengths = lengths(r, samples);
            let parts = outcome(samples, |out| in_parts(from, n, &lengths, out));
            self.add(call, whole, &parts);
        }
    }
}
