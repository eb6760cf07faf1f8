//! The recorded calls: rows that `replay` reads, and what the published voices answer to them.
use crate::calls::{Random, script, script_with_strikes};
use crate::row::{Kind, Row};
use crate::state::{digest, pattern};
use crate::tally::any;
use crate::transient::{self, Call, Published};
use crate::voices::{Played, Voices};

/// 450 rows a voice, behind all of these 100 more with strikes alone among them, and behind those 200 of the transient: rows into one file, answers as `replay`
/// prints them into the other.
pub fn record(rows_file: &str, answers_file: &str) {
    let mut rows = Vec::new();
    for voice in ['b', 's', 'y', 'h'] {
        rows.extend(scripts(voice as u64, |r, longest| script(r, voice, longest)).take(450));
    }
    for voice in ['b', 's', 'y', 'h'] {
        rows.extend(scripts(4000 + voice as u64, |r, longest| script_with_strikes(r, voice, longest)).take(100));
    }
    let mut voices = Voices::default();
    let mut answers: String = rows.iter().map(|row| answer(row, |out| voices.play(row, out))).collect();
    let (mut r, mut published) = (Random::new(6000), Published::default());
    for call in edges().into_iter().chain(scripts(6001, transient::script)).take(200) {
        let row = transient_row(&mut r, &call);
        answers += &answer(&row, |out| published.play(&call, out));
        rows.push(row);
    }
    let text: String = rows.iter().map(|row| format!("{row}\n")).collect();
    std::fs::write(rows_file, text).expect("the rows are written");
    std::fs::write(answers_file, answers).expect("the answers are written");
}

/// The calls of script after script; most have short blocks.
fn scripts<T>(seed: u64, script: impl Fn(&mut Random, u32) -> Vec<T>) -> impl Iterator<Item = T> {
    let mut r = Random::new(seed);
    let scripts = std::iter::repeat_with(move || {
        let longest = if r.one_in(20) { 16384 } else { 256 };
        script(&mut r, longest)
    });
    scripts.flatten()
}

/// Blocks at the edges, one of them refused, on a record of zeros; then an init that is refused and one that is not, and the same blocks.
fn edges() -> Vec<Call> {
    let beyond = u32::MAX as usize;
    let blocks = [(0, 0), (0, 64), (63, 64), (64, 64), (65, 64), (beyond, 64), (48, 16384), (16384, 16384), (48, 16385)];
    let blocks = blocks.map(|(n, samples)| Call::Render { n, samples });
    [&[Call::Zero][..], &blocks, &[Call::Init(15999.0), Call::Init(48000.0)], &blocks].concat()
}

/// A call of the transient as a row: what the call does not read may be anything, so that one that read it would be told. An n that has more than 32 bits
/// is above any length, as the last that has not.
fn transient_row(r: &mut Random, call: &Call) -> Row {
    let (flags, samples, knobs) = (r.below(0x20) as u8, r.below(0x4002), std::array::from_fn(|_| any(r)));
    let mut row = Row { voice: 'c', kind: Kind::Zero, flags, samples, knobs, last: r.word() };
    match *call {
        Call::Zero => {}
        Call::Init(rate) => (row.kind, row.knobs[0]) = (Kind::Init, rate),
        Call::Render { n, samples } => (row.kind, row.samples, row.last) = (Kind::Render, samples, n.min(u32::MAX as usize) as u32),
    }
    row
}

/// The refusal, the voice's noise state, and the digests of the samples, of none where there are none to tell, and of the state.
fn answer(row: &Row, play: impl FnOnce(&mut [f32]) -> Played) -> String {
    let mut out = vec![0.0; row.samples as usize];
    let played = play(&mut out);
    let rendered = played.refusal == 0 && matches!(row.kind, Kind::Render);
    let samples = digest(out.iter().filter(|_| rendered).map(|x| pattern(*x)));
    format!("{:02x} {:08x} {samples:08x} {:08x}\n", played.refusal, played.noise, digest(played.state))
}
