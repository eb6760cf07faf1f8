//! The compiled port. Its declarations are made from crates/console/src by `console/header --rust`; here are those that lend slices, made safe.
#[path = "../../target/console/bechullpi.rs"]
mod declarations;

use crate::row::{Kind, LINEAR, RESONANCE, Row, SUSTAIN, TRIGGER, TWO_STAGE};
use crate::state::words;
use crate::voices::Played;
pub use declarations::*;
use std::array::from_fn;
use std::mem::transmute;

pub fn svf_process_buffer(filter: Svf, in_: &[f32], out: &mut [f32], mode: FilterMode) -> Svf {
    unsafe { bechullpi_filter_svf_process_buffer(filter, in_.as_ptr(), in_.len(), out.as_mut_ptr(), out.len(), mode) }
}

pub fn square_noise_render(noise: SquareNoise, f0: f32, out: &mut [f32]) -> SquareNoise {
    unsafe { bechullpi_hihat_square_noise_render(noise, f0, out.as_mut_ptr(), out.len()) }
}

pub fn sheet(sheet: &[u8], out: &mut [f32]) -> SheetAnswered {
    unsafe { bechullpi_sheet(sheet.as_ptr(), sheet.len(), out.as_mut_ptr(), out.len()) }
}

/// accent, f0, a, decay, c as in a cue line, and the bass's self_fm_amount.
pub type Knobs = [f32; 6];

pub fn bass_knobs([_, f0, tone, decay, attack_fm_amount, self_fm_amount]: Knobs) -> AnalogBassDrumKnobs {
    AnalogBassDrumKnobs { f0, tone, decay, attack_fm_amount, self_fm_amount }
}

pub fn bass_run(voice: AnalogBassDrum, knobs: AnalogBassDrumKnobs, out: &mut [f32]) -> AnalogBassDrumAnswered {
    unsafe { bechullpi_analog_bass_drum_run(voice, knobs, out.as_mut_ptr(), out.len()) }
}

pub fn snare_knobs([_, f0, tone, decay, snappy, _]: Knobs) -> AnalogSnareDrumKnobs {
    AnalogSnareDrumKnobs { f0, tone, decay, snappy }
}

pub fn snare_run(voice: AnalogSnareDrum, knobs: AnalogSnareDrumKnobs, out: &mut [f32]) -> AnalogSnareDrumAnswered {
    unsafe { bechullpi_analog_snare_drum_run(voice, knobs, out.as_mut_ptr(), out.len()) }
}

pub fn synthetic_snare_knobs(sustain: bool, [accent, f0, fm_amount, decay, snappy, _]: Knobs) -> SyntheticSnareDrumKnobs {
    SyntheticSnareDrumKnobs { sustain, accent, f0, fm_amount, decay, snappy }
}

pub fn synthetic_snare_run(voice: SyntheticSnareDrum, knobs: SyntheticSnareDrumKnobs, out: &mut [f32]) -> SyntheticSnareDrumAnswered {
    unsafe { bechullpi_synthetic_snare_drum_run(voice, knobs, out.as_mut_ptr(), out.len()) }
}

pub fn hihat_knobs([sustain, resonance, two_stage_envelope]: [bool; 3], [accent, f0, tone, decay, noisiness, _]: Knobs) -> HihatKnobs {
    HihatKnobs { sustain, accent, f0, tone, decay, noisiness, resonance, two_stage_envelope }
}

pub fn hihat_run(voice: Hihat, linear: bool, knobs: HihatKnobs, out: &mut [f32]) -> HihatAnswered {
    unsafe { bechullpi_hihat_run(voice, linear, knobs, out.as_mut_ptr(), out.len()) }
}

pub fn transient_render(transient: SyntheticBassDrumTransient, n: usize, out: &mut [f32]) -> SyntheticBassDrumTransientAnswered {
    unsafe { bechullpi_synthetic_bass_drum_transient_render(transient, n, out.as_mut_ptr(), out.len()) }
}

/// A transient of any words, reached by calls or not.
pub fn transient_of_words(mut word: impl FnMut() -> u32) -> SyntheticBassDrumTransient {
    unsafe { transmute::<[u32; 11], SyntheticBassDrumTransient>(from_fn(|_| word())) }
}

/// The records that calls are played on.
#[derive(Clone, Copy)]
pub struct Records {
    b: AnalogBassDrum,
    s: AnalogSnareDrum,
    y: SyntheticSnareDrum,
    h: Hihat,
}

impl Default for Records {
    fn default() -> Self {
        Records {
            b: bechullpi_analog_bass_drum_zero(),
            s: bechullpi_analog_snare_drum_zero(),
            y: bechullpi_synthetic_snare_drum_zero(),
            h: bechullpi_hihat_zero(),
        }
    }
}

impl Records {
    /// Records of any words, reached by calls or not; those that store a rate have this one. Their fields are floats and u32 alone, so every word is
    /// a value.
    pub fn of_words(rate: f32, mut word: impl FnMut() -> u32) -> Self {
        let mut records = unsafe {
            Records {
                b: transmute::<[u32; 19], AnalogBassDrum>(from_fn(|_| word())),
                s: transmute::<[u32; 38], AnalogSnareDrum>(from_fn(|_| word())),
                y: transmute::<[u32; 20], SyntheticSnareDrum>(from_fn(|_| word())),
                h: transmute::<[u32; 22], Hihat>(from_fn(|_| word())),
            }
        };
        (records.y.sample_rate_hz, records.h.sample_rate) = (rate, rate);
        records
    }

    /// The calls of a row, and what they leave in the record and in `out`.
    pub fn play(&mut self, row: &Row, out: &mut [f32]) -> Played {
        let refusal = match row.kind {
            Kind::Zero => self.clear(row.voice),
            Kind::Init => self.init(row.voice, row.knobs[0]),
            Kind::Strike => self.strike(row),
            Kind::Render => self.render(row, out),
        };
        self.left(row.voice, refusal)
    }

    /// What a call has left in a voice's record, with its answer.
    pub fn left(&self, voice: char, refusal: u32) -> Played {
        Played { refusal, noise: self.noise(voice), state: self.state(voice) }
    }

    fn clear(&mut self, voice: char) -> u32 {
        let zero = Records::default();
        match voice {
            'b' => self.b = zero.b,
            's' => self.s = zero.s,
            'y' => self.y = zero.y,
            _ => self.h = zero.h,
        }
        0
    }

    pub fn init(&mut self, voice: char, rate: f32) -> u32 {
        match voice {
            'b' => {
                let a = bechullpi_analog_bass_drum_init(self.b, rate);
                self.b = a.voice;
                a.number
            }
            's' => {
                let a = bechullpi_analog_snare_drum_init(self.s, rate);
                self.s = a.voice;
                a.number
            }
            'y' => {
                let a = bechullpi_synthetic_snare_drum_init(self.y, rate);
                self.y = a.voice;
                a.number
            }
            _ => {
                let a = bechullpi_hihat_init(self.h, rate);
                self.h = a.voice;
                a.number
            }
        }
    }

    /// The number of the first refusal of a row's block of as many samples as `out` has places: of its strike, where it has one, and then of its run.
    pub fn render(&mut self, row: &Row, out: &mut [f32]) -> u32 {
        let refusal = if row.flag(TRIGGER) { self.strike(row) } else { 0 };
        if refusal == 0 { self.run(row, out) } else { refusal }
    }

    pub fn strike(&mut self, row: &Row) -> u32 {
        let [accent, _, _, decay, ..] = row.knobs;
        match row.voice {
            'b' => {
                let a = bechullpi_analog_bass_drum_strike(self.b, accent);
                self.b = a.voice;
                a.number
            }
            's' => {
                let a = bechullpi_analog_snare_drum_strike(self.s, accent);
                self.s = a.voice;
                a.number
            }
            'y' => {
                let a = bechullpi_synthetic_snare_drum_strike(self.y, accent, decay);
                self.y = a.voice;
                a.number
            }
            _ => {
                let a = bechullpi_hihat_strike(self.h, accent, decay);
                self.h = a.voice;
                a.number
            }
        }
    }

    pub fn run(&mut self, row: &Row, out: &mut [f32]) -> u32 {
        let sustain = row.flag(SUSTAIN);
        match row.voice {
            'b' => {
                let a = bass_run(self.b, bass_knobs(row.knobs), out);
                self.b = a.voice;
                a.number
            }
            's' => {
                let a = snare_run(self.s, snare_knobs(row.knobs), out);
                self.s = a.voice;
                a.number
            }
            'y' => {
                let a = synthetic_snare_run(self.y, synthetic_snare_knobs(sustain, row.knobs), out);
                self.y = a.voice;
                a.number
            }
            _ => {
                let knobs = hihat_knobs([sustain, row.flag(RESONANCE), row.flag(TWO_STAGE)], row.knobs);
                let a = hihat_run(self.h, row.flag(LINEAR), knobs, out);
                self.h = a.voice;
                a.number
            }
        }
    }

    fn noise(&self, voice: char) -> u32 {
        match voice {
            'b' => 0,
            's' => self.s.noise,
            'y' => self.y.noise,
            _ => self.h.noise,
        }
    }

    /// The fields in the order of their declaration, without the noise state, which the published voices have elsewhere.
    fn state(&self, voice: char) -> Vec<u32> {
        let debug = match voice {
            'b' => format!("{:?}", self.b),
            's' => format!("{:?}", self.s),
            'y' => format!("{:?}", self.y),
            _ => format!("{:?}", self.h),
        };
        words(&debug, &["noise"])
    }
}
