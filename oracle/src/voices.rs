//! The four published voices, asked the questions of the scope and then played, and the port's held against them.
//!
//! The Rust has one call, `render`, with a trigger. A strike and the run after it are held against one triggered block of it, a run without a strike against one
//! that is not triggered, and a strike alone against a triggered block of no samples.
use crate::calls::{Random, script_with_strikes};
use crate::port::Records;
use crate::row::{Kind, LINEAR, RESONANCE, Row, SUSTAIN, TRIGGER, TWO_STAGE};
use crate::state::{named_words, words};
use crate::tally::same_all;
use mi_plaits_dsp::drums::analog_bass_drum::AnalogBassDrum;
use mi_plaits_dsp::drums::analog_snare_drum::AnalogSnareDrum;
use mi_plaits_dsp::drums::hihat::{Hihat, NoiseType, VcaType};
use mi_plaits_dsp::drums::synthetic_snare_drum::SyntheticSnareDrum;
use mi_plaits_dsp::utils::random;
use std::collections::BTreeMap;

pub const LEAST_F0: f32 = 1.0 / 1048576.0;

/// The last decay at which the published bass does not panic, its pitch having the last place in both tables. From the next on the port holds the ratio of that
/// place; an unsustained bass reads decay nowhere else, so there the published one is played at this decay.
pub const LAST_BASS_DECAY: f32 = f32::from_bits(0x3fcc_cccb);

pub fn is_rate(x: f32) -> bool {
    (16000.0..=96000.0).contains(&x)
}

pub fn is_f0(x: f32) -> bool {
    (LEAST_F0..=0.5).contains(&x)
}

pub fn is_unit(x: f32) -> bool {
    (0.0..=1.0).contains(&x)
}

pub fn is_decay(voice: char, x: f32) -> bool {
    if voice == 'b' { (0.0..=2.0).contains(&x) } else { is_unit(x) }
}

/// The state of the published noise generator, which can be seeded but not read: the next word is undone.
pub fn noise_state() -> u32 {
    const INVERSE: u32 = inverse(1664525);
    random::get_word().wrapping_sub(1013904223).wrapping_mul(INVERSE)
}

/// The inverse of an odd number modulo 2^32, by Newton's rule: a itself is right in 3 bits, and each step doubles them, to 48.
const fn inverse(a: u32) -> u32 {
    let mut x = a;
    let mut i = 0;
    while i < 4 {
        x = x.wrapping_mul(2u32.wrapping_sub(a.wrapping_mul(x)));
        i += 1;
    }
    x
}

/// What a row leaves, but for its samples: the number of the refusal, the voice's noise state, 0 for the bass, and every other field of the voice.
#[derive(Debug, PartialEq)]
pub struct Played {
    pub refusal: u32,
    pub noise: u32,
    pub state: Vec<u32>,
}

/// All that a row leaves. Two are the same where every word is, a NaN of the samples being one pattern.
pub struct Outcome {
    pub played: Played,
    samples: Vec<f32>,
}

impl PartialEq for Outcome {
    fn eq(&self, other: &Self) -> bool {
        self.played == other.played && same_all(&self.samples, &other.samples)
    }
}

/// A call, or a row, played into a buffer of so many samples, which a refused one leaves as it is.
pub fn outcome(samples: u32, play: impl FnOnce(&mut [f32]) -> Played) -> Outcome {
    let mut samples = vec![0.25; samples as usize];
    let played = play(&mut samples);
    Outcome { played, samples }
}

/// Runs `scripts` random scripts a voice on both sides and tells how many rows leave something else.
pub fn compare(scripts: u32) -> u64 {
    ['b', 's', 'y', 'h'].into_iter().map(|voice| compare_voice(voice, scripts)).sum()
}

fn compare_voice(voice: char, scripts: u32) -> u64 {
    let mut r = Random::new(1 + voice as u64);
    let (mut rust, mut port) = (Voices::default(), Records::default());
    let (mut rows, mut refused, mut samples, mut differ) = (0u64, 0u64, 0u64, 0u64);
    for row in (0..scripts).flat_map(|_| script_with_strikes(&mut r, voice, 16384)) {
        let from = port;
        let want = outcome(row.samples, |out| rust.play(&row, out));
        let mut got = vec![outcome(row.samples, |out| port.play(&row, out))];
        let rendered = want.played.refusal == 0 && matches!(row.kind, Kind::Render);
        if rendered && row.flag(TRIGGER) {
            got.push(outcome(row.samples, |out| in_two_rows(from, &row, out)));
        }
        rows += 1;
        refused += u64::from(want.played.refusal != 0);
        samples += if rendered { u64::from(row.samples) } else { 0 };
        if got.iter().any(|side| want != *side) {
            differ += 1;
            if differ <= 5 {
                println!("row {row}\nRust {:?}", want.played);
                got.iter().for_each(|side| println!("port {:?}", side.played));
            }
        }
    }
    println!("voice {voice}: {rows} rows, {refused} of them refused, {samples} samples: {differ} differ");
    differ
}

/// A strike and a run as two rows. The first refusal answers.
fn in_two_rows(mut port: Records, row: &Row, out: &mut [f32]) -> Played {
    let strike = Row { kind: Kind::Strike, ..*row };
    let run = Row { flags: row.flags & !TRIGGER, ..*row };
    let struck = port.play(&strike, &mut []);
    if struck.refusal == 0 { port.play(&run, out) } else { struck }
}

/// The noise state that an accepted init leaves: the one that the published generator begins with.
pub const FIRST_NOISE: u32 = 33;

/// A block that draws noise from a state of its own: the published voices share one static generator.
pub fn drawing(noise: &mut u32, block: impl FnOnce()) {
    random::seed(*noise);
    block();
    *noise = noise_state();
}

/// The fields that a trigger writes.
fn struck_fields(voice: char) -> &'static [&'static str] {
    match voice {
        'b' => &["pulse_remaining_samples", "fm_pulse_remaining_samples", "pulse_height", "lp_out"],
        's' => &["pulse_remaining_samples", "pulse_height", "noise_envelope"],
        'y' => &["phase", "drum_amplitude", "snare_amplitude", "fm", "hold_counter"],
        _ => &["envelope"],
    }
}

/// The fields that the port leaves out.
fn left_out(voice: char) -> &'static [&'static str] {
    match voice {
        'b' | 's' => &["sustain_gain", "oscillator"],
        'y' => &[],
        _ => &["ring_mod_noise"],
    }
}

/// The voices, each with the rate of its last accepted init and its noise state; both are zero in a record with every field zero.
#[derive(Default)]
pub struct Voices {
    b: AnalogBassDrum,
    s: AnalogSnareDrum,
    y: SyntheticSnareDrum,
    h: Hihat,
    y_rate: f32,
    h_rate: f32,
    s_noise: u32,
    y_noise: u32,
    h_noise: u32,
    temp_1: Vec<f32>,
    temp_2: Vec<f32>,
    /// The state that is told of a voice that was struck alone and has not run since.
    struck: BTreeMap<char, Vec<u32>>,
}

impl Voices {
    pub fn play(&mut self, row: &Row, out: &mut [f32]) -> Played {
        let refusal = match row.kind {
            Kind::Zero => {
                self.clear(row.voice);
                0
            }
            Kind::Init if is_rate(row.knobs[0]) => {
                self.init(row.voice, row.knobs[0]);
                0
            }
            Kind::Init => 1,
            Kind::Strike => self.strike(row),
            Kind::Render => self.strike_and_run(row, out),
        };
        if refusal == 0 && !matches!(row.kind, Kind::Strike) {
            self.struck.remove(&row.voice);
        }
        Played { refusal, noise: self.noise(row.voice), state: self.state(row.voice) }
    }

    fn strike(&mut self, row: &Row) -> u32 {
        let refusal = self.strike_refusal(row);
        if refusal == 0 {
            self.strike_alone(row);
        }
        refusal
    }

    /// A strike, where the row is triggered, and a run, both accepted, are one block of the Rust. If the run is refused, the strike stands.
    fn strike_and_run(&mut self, row: &Row, out: &mut [f32]) -> u32 {
        let strike = if row.flag(TRIGGER) { self.strike_refusal(row) } else { 0 };
        let refusal = if strike == 0 { self.run_refusal(row) } else { strike };
        if refusal == 0 {
            self.render(row, out);
        } else if row.flag(TRIGGER) {
            self.strike(row);
        }
        refusal
    }

    /// The rate that a call asks 1 of: y and h store theirs.
    fn stored_rate(&self, voice: char) -> Option<f32> {
        match voice {
            'y' => Some(self.y_rate),
            'h' => Some(self.h_rate),
            _ => None,
        }
    }

    /// The number of the first question that a strike does not pass; 0 where it passes all.
    fn strike_refusal(&self, row: &Row) -> u32 {
        let [accent, _, _, decay, ..] = row.knobs;
        if self.stored_rate(row.voice).is_some_and(|rate| !is_rate(rate)) {
            1
        } else if !is_unit(accent) {
            4
        } else if matches!(row.voice, 'y' | 'h') && !is_unit(decay) {
            5
        } else {
            0
        }
    }

    /// The same of a run. Accent is among the knobs of y and h alone.
    fn run_refusal(&self, row: &Row) -> u32 {
        let [accent, f0, a, decay, c, self_fm_amount] = row.knobs;
        if self.stored_rate(row.voice).is_some_and(|rate| !is_rate(rate)) {
            1
        } else if row.samples > 16384 {
            2
        } else if !is_f0(f0) {
            3
        } else if matches!(row.voice, 'y' | 'h') && !is_unit(accent) {
            4
        } else if !is_unit(a) || !is_decay(row.voice, decay) || !is_unit(c) || row.voice == 'b' && !is_unit(self_fm_amount) {
            5
        } else {
            0
        }
    }

    fn clear(&mut self, voice: char) {
        match voice {
            'b' => self.b = AnalogBassDrum::new(),
            's' => (self.s, self.s_noise) = (AnalogSnareDrum::new(), 0),
            'y' => (self.y, self.y_rate, self.y_noise) = (SyntheticSnareDrum::new(), 0.0, 0),
            _ => (self.h, self.h_rate, self.h_noise) = (Hihat::new(), 0.0, 0),
        }
    }

    pub fn init(&mut self, voice: char, rate: f32) {
        match voice {
            'b' => self.b.init(rate),
            's' => {
                self.s.init(rate);
                self.s_noise = FIRST_NOISE;
            }
            'y' => {
                self.y.init(rate);
                (self.y_rate, self.y_noise) = (rate, FIRST_NOISE);
            }
            _ => {
                self.h.init(rate);
                (self.h_rate, self.h_noise) = (rate, FIRST_NOISE);
            }
        }
    }

    pub fn render(&mut self, row: &Row, out: &mut [f32]) {
        let [accent, f0, a, decay, c, self_fm_amount] = row.knobs;
        let (sustain, trigger) = (row.flag(SUSTAIN), row.flag(TRIGGER));
        match row.voice {
            'b' => self.b.render(false, trigger, accent, f0, a, decay.min(LAST_BASS_DECAY), c, self_fm_amount, out),
            's' => drawing(&mut self.s_noise, || self.s.render(false, trigger, accent, f0, a, decay, c, out)),
            'y' => drawing(&mut self.y_noise, || self.y.render(sustain, trigger, accent, f0, a, decay, c, out)),
            _ => {
                let length = self.temp_1.len().max(out.len());
                self.temp_1.resize(length, 0.0);
                self.temp_2.resize(length, 0.0);
                let vca = if row.flag(LINEAR) { VcaType::Linear } else { VcaType::Swing };
                let (temp_1, temp_2) = (&mut self.temp_1[..out.len()], &mut self.temp_2[..out.len()]);
                let (resonance, two_stage, square) = (row.flag(RESONANCE), row.flag(TWO_STAGE), NoiseType::Square);
                drawing(&mut self.h_noise, || {
                    self.h.render(sustain, trigger, accent, f0, a, decay, c, temp_1, temp_2, out, square, vca, resonance, two_stage)
                });
            }
        }
    }

    /// The Rust has a strike alone only as a triggered block of no samples. That sets filters too, by knobs that a strike has not, and a strike must leave filters
    /// alone. The next run sets them by its own knobs; so until then the state that is told is the one before, with what a trigger writes as it is after.
    fn strike_alone(&mut self, row: &Row) {
        let mut told = self.state(row.voice);
        let [accent, _, _, decay, ..] = row.knobs;
        // the strikes of b and s take none, and what the row has may be out of range
        let decay = if matches!(row.voice, 'y' | 'h') { decay } else { 0.5 };
        self.render(&Row { flags: TRIGGER, knobs: [accent, 0.01, 0.5, decay, 0.5, 0.5], ..*row }, &mut []);
        let after = self.debug(row.voice);
        for (word, (field, written)) in told.iter_mut().zip(named_words(&after, left_out(row.voice))) {
            if struck_fields(row.voice).contains(&field) {
                *word = written;
            }
        }
        self.struck.insert(row.voice, told);
    }

    fn noise(&self, voice: char) -> u32 {
        match voice {
            'b' => 0,
            's' => self.s_noise,
            'y' => self.y_noise,
            _ => self.h_noise,
        }
    }

    /// The fields in the order of their declaration, without those that the port leaves out.
    fn state(&self, voice: char) -> Vec<u32> {
        self.struck.get(&voice).cloned().unwrap_or_else(|| words(&self.debug(voice), left_out(voice)))
    }

    fn debug(&self, voice: char) -> String {
        match voice {
            'b' => format!("{:?}", self.b),
            's' => format!("{:?}", self.s),
            'y' => format!("{:?}", self.y),
            _ => format!("{:?}", self.h),
        }
    }
}
