//! A second reading of the cue sheet, from the scope, over the published voices: what `cues` must print for an input.
use crate::row::Row;
use crate::state::pattern;
use crate::voices::{Voices, is_decay, is_f0, is_unit};

struct Cue {
    start: usize,
    voice: char,
    /// accent, f0, a, decay, c
    knobs: [f32; 5],
}

struct Sheet {
    rate: u32,
    length: usize,
    cues: Vec<Cue>,
}

struct Refused {
    number: u32,
    line: usize,
}

/// The text of `cues`. It reads at most 4,096 bytes.
pub fn text(input: &[u8]) -> String {
    match read(&input[..input.len().min(4096)]) {
        Err(refused) => format!("refused,{},{}\n", refused.number, refused.line),
        Ok(sheet) => {
            let mut out = vec![0.0; sheet.length];
            render(&sheet, &mut out);
            let rows = out.into_iter().enumerate();
            "sample,bits\n".to_string() + &rows.map(|(i, x)| format!("{i},{:08x}\n", pattern(x))).collect::<String>()
        }
    }
}

/// A sheet into the first places of a buffer; number, line, rate, length and cues, as the library answers.
pub fn rendered(input: &[u8], out: &mut [f32]) -> [u32; 5] {
    match read(input) {
        Err(refused) => [refused.number, refused.line as u32, 0, 0, 0],
        Ok(sheet) if sheet.length > out.len() => [11, 0, 0, 0, 0],
        Ok(sheet) => {
            render(&sheet, &mut out[..sheet.length]);
            [0, 0, sheet.rate, sheet.length as u32, sheet.cues.len() as u32]
        }
    }
}

fn read(input: &[u8]) -> Result<Sheet, Refused> {
    let mut lines = input.split_inclusive(|b| *b == b'\n');
    let (rate, length) = lines.next().and_then(first_line).ok_or(Refused { number: 7, line: 1 })?;
    let mut sheet = Sheet { rate, length: length as usize, cues: Vec::new() };
    for line in lines {
        let cue = cue(&sheet, line).map_err(|number| Refused { number, line: sheet.cues.len() + 2 })?;
        sheet.cues.push(cue);
    }
    Ok(sheet)
}

/// The fields of a line that has a line end.
pub fn fields(line: &[u8]) -> Option<Vec<&[u8]>> {
    Some(line.strip_suffix(b"\n")?.split(|b| *b == b',').collect())
}

/// Digits with no zero in front, up to a limit.
pub fn decimal(text: &[u8], limit: u64) -> Option<u32> {
    let digits = !text.is_empty() && text.iter().all(u8::is_ascii_digit) && (text.len() == 1 || text[0] != b'0');
    let value = std::str::from_utf8(text).ok()?.parse::<u64>().ok()?;
    (digits && value <= limit).then_some(value as u32)
}

fn first_line(line: &[u8]) -> Option<(u32, u32)> {
    let [rate, length] = fields(line)?[..] else { return None };
    let (rate, length) = (decimal(rate, 96000)?, decimal(length, 16384)?);
    (rate >= 16000).then_some((rate, length))
}

fn float(text: &[u8]) -> Option<f32> {
    let digits = text.len() == 8 && text.iter().all(|b| b.is_ascii_digit() || (b'a'..=b'f').contains(b));
    let bits = u32::from_str_radix(std::str::from_utf8(text).ok()?, 16).ok()?;
    digits.then_some(f32::from_bits(bits))
}

fn well_formed(line: &[u8]) -> Option<Cue> {
    let [start, voice, accent, f0, a, decay, c] = fields(line)?[..] else { return None };
    let [voice @ (b'b' | b's' | b'y' | b'h')] = voice[..] else { return None };
    let knobs = [float(accent)?, float(f0)?, float(a)?, float(decay)?, float(c)?];
    Some(Cue { start: decimal(start, 99999)? as usize, voice: voice as char, knobs })
}

/// A line after the first, or the number of the first question that it does not pass.
fn cue(sheet: &Sheet, line: &[u8]) -> Result<Cue, u32> {
    if sheet.cues.len() >= 64 {
        return Err(10);
    }
    let cue = well_formed(line).ok_or(8u32)?;
    let rising = sheet.cues.last().is_none_or(|last| last.start < cue.start);
    let [accent, f0, a, decay, c] = cue.knobs;
    if cue.start >= sheet.length || !rising {
        Err(9)
    } else if !is_f0(f0) {
        Err(3)
    } else if !is_unit(accent) {
        Err(4)
    } else if !is_unit(a) || !is_decay(cue.voice, decay) || !is_unit(c) {
        Err(5)
    } else {
        Ok(cue)
    }
}

fn render(sheet: &Sheet, out: &mut [f32]) {
    let mut voices = Voices::default();
    "bsyh".chars().for_each(|voice| voices.init(voice, sheet.rate as f32));
    out.fill(0.0);
    let mut scratch = vec![0.0; sheet.length];
    let mut latest: [Option<[f32; 5]>; 4] = [None; 4];
    let mut from = 0;
    let mut struck = ' ';
    for i in 0..=sheet.cues.len() {
        let to = sheet.cues.get(i).map_or(sheet.length, |cue| cue.start);
        for (voice, knobs) in "bsyh".chars().zip(latest) {
            if let Some(knobs) = knobs {
                let block = &mut scratch[..to - from];
                voices.render(&Row::of_cue(voice, voice == struck, knobs), block);
                out[from..to].iter_mut().zip(&*block).for_each(|(sum, x)| *sum += x);
            }
        }
        if let Some(cue) = sheet.cues.get(i) {
            latest["bsyh".find(cue.voice).expect("one of the four")] = Some(cue.knobs);
            (struck, from) = (cue.voice, cue.start);
        }
    }
}
