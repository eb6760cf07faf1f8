//! Random calls: scripts of a few calls each, with the edges of every range more often than chance would have them.
use crate::row::{Kind, Row, TRIGGER};
use crate::voices::{LAST_BASS_DECAY, LEAST_F0};

/// xorshift64: the same calls for the same seed.
pub struct Random(u64);

impl Random {
    pub fn new(seed: u64) -> Self {
        Random(seed.wrapping_mul(0x9e37_79b9_7f4a_7c15) | 1)
    }

    pub fn word(&mut self) -> u32 {
        self.0 ^= self.0 << 13;
        self.0 ^= self.0 >> 7;
        self.0 ^= self.0 << 17;
        (self.0 >> 24) as u32
    }

    pub fn below(&mut self, n: u32) -> u32 {
        self.word() % n
    }

    pub fn one_in(&mut self, n: u32) -> bool {
        self.below(n) == 0
    }

    pub fn unit(&mut self) -> f32 {
        (self.word() >> 8) as f32 / 16777216.0
    }

    pub fn of<T: Copy>(&mut self, from: &[T]) -> T {
        from[self.below(from.len() as u32) as usize]
    }
}

pub fn rate(r: &mut Random) -> f32 {
    match r.below(8) {
        0 => r.of(&[16000.0, 96000.0, 48000.0, 44100.0]),
        // times 1e-3, or 6e-3, the first two round up to a whole number; the third is just below one where a truncation changes
        1 => r.of(&[21999.998, 16166.666, 19999.998]),
        2 => r.of(&[15999.999, 96000.01, 0.0, -48000.0, f32::NAN, f32::INFINITY]),
        _ => 16000.0 + r.unit() * 80000.0,
    }
}

fn f0(r: &mut Random) -> f32 {
    match r.below(8) {
        0 => r.of(&[LEAST_F0, 0.5, 0.125, 0.499]),
        1 => f32::from_bits(0x3580_0000 + r.below(0x3f00_0001 - 0x3580_0000)),
        2 => LEAST_F0 + r.unit() * 0.499,
        _ => 0.0005 + r.unit() * 0.05,
    }
}

fn knob(r: &mut Random) -> f32 {
    match r.below(8) {
        0 => r.of(&[0.0, -0.0, 1.0]),
        // 0.666667 is where the snare's gains change
        1 => r.of(&[f32::from_bits(1), 1.0f32.next_down(), 0.666667, 0.666667f32.next_down()]),
        2 => f32::from_bits(r.below(0x3f80_0001)),
        _ => r.unit(),
    }
}

/// A bass rings longer than the other voices: up to 2.0.
fn decay(r: &mut Random, voice: char) -> f32 {
    if voice != 'b' {
        return knob(r);
    }
    match r.below(8) {
        0 => r.of(&[1.0f32.next_up(), 2.0, 2.0f32.next_down()]),
        1 => r.of(&[LAST_BASS_DECAY, LAST_BASS_DECAY.next_up()]),
        2 | 3 => 2.0 * r.unit(),
        _ => knob(r),
    }
}

/// accent, f0, a, decay and c of a cue or a block, each in its range.
pub fn knobs(r: &mut Random, voice: char) -> [f32; 5] {
    [knob(r), f0(r), knob(r), decay(r, voice), knob(r)]
}

fn outside(r: &mut Random) -> f32 {
    r.of(&[f32::NAN, f32::INFINITY, f32::NEG_INFINITY, -1e-45, 1.0000001, -1.0, 2.0, f32::from_bits(0x357f_ffff), f32::from_bits(0x3f00_0001)])
}

/// A length of at most `longest`, and now and then one too many for a voice.
pub fn length(r: &mut Random, longest: u32) -> u32 {
    match r.below(10) {
        0 => r.of(&[0, 1, 2]),
        1 => r.of(&[64, 1000]).min(longest),
        2 if r.one_in(8) => longest,
        3 if r.one_in(16) => 16385,
        4 => r.below(longest.min(1000)),
        _ => r.below(64),
    }
}

/// The calls of one script: a record with every field zero or an init, then renders and an init now and then.
pub fn script(r: &mut Random, voice: char, longest: u32) -> Vec<Row> {
    let mut rows = vec![row(r, voice, Kind::Zero, longest)];
    if !r.one_in(10) {
        rows.push(row(r, voice, Kind::Init, longest));
    }
    for _ in 0..r.below(16) {
        let kind = if r.one_in(12) { Kind::Init } else { Kind::Render };
        rows.push(row(r, voice, kind, longest));
    }
    rows
}

/// The same with strikes alone among the rows. After every other strike come a run that is refused, by 3 if not by 1, and then the same run with an f0 in range: if
/// the strike was accepted, that goes on from it as if nothing had been refused.
pub fn script_with_strikes(r: &mut Random, voice: char, longest: u32) -> Vec<Row> {
    let mut rows = Vec::new();
    for other in script(r, voice, longest) {
        rows.push(other);
        if r.one_in(4) {
            rows.push(row(r, voice, Kind::Strike, longest));
            if r.one_in(2) {
                rows.extend(refused_and_good(r, voice, longest));
            }
        }
    }
    rows
}

fn refused_and_good(r: &mut Random, voice: char, longest: u32) -> [Row; 2] {
    let mut good = Row { voice, kind: Kind::Render, flags: 0, samples: 0, knobs: [0.0; 6], last: r.word() };
    draw_block(r, &mut good, longest);
    good.flags &= !TRIGGER;
    good.samples = good.samples.min(longest);
    let mut refused = good;
    refused.knobs[1] = 0.75;
    [refused, good]
}

/// Flags, length and knobs, each knob in its range.
fn draw_block(r: &mut Random, row: &mut Row, longest: u32) {
    row.flags = (r.word() & 0x1f) as u8;
    row.samples = length(r, longest);
    let [accent, f0, a, decay, c] = knobs(r, row.voice);
    row.knobs = [accent, f0, a, decay, c, if row.voice == 'b' { knob(r) } else { 0.0 }];
}

/// One row. Of eight renders one has a knob that may be out of range. A strike has all that a render has, and any of its words may be out of range: one that
/// asked or read what is not its own would be told.
pub fn row(r: &mut Random, voice: char, kind: Kind, longest: u32) -> Row {
    // any word, so that a call that read it would be told; drawn as when it was the noise state, so that the recorded rows stay
    let last = if r.one_in(8) { 33 } else { r.word() };
    let mut row = Row { voice, kind, flags: 0, samples: 0, knobs: [0.0; 6], last };
    match kind {
        Kind::Zero => {}
        Kind::Init => row.knobs[0] = rate(r),
        Kind::Strike => {
            draw_block(r, &mut row, longest);
            for knob in &mut row.knobs {
                *knob = if r.one_in(6) { outside(r) } else { *knob };
            }
        }
        Kind::Render => {
            draw_block(r, &mut row, longest);
            if r.one_in(8) {
                let which = r.below(if voice == 'b' { 6 } else { 5 }) as usize;
                row.knobs[which] = if voice == 'b' && r.one_in(4) { 2.0f32.next_up() } else { outside(r) };
            }
        }
    }
    row
}
