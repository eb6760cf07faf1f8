//! Random and damaged inputs of `draws`, and what the compiled program prints for them.
use crate::calls::Random;
use crate::sheet::{decimal, fields};
use crate::sheets::{damage, run};
use mi_plaits_dsp::utils::random;

/// Runs `count` inputs and tells how many are answered otherwise than by the published Rust.
pub fn compare(program: &str, count: u32) -> u64 {
    let mut r = Random::new(1);
    let (mut differ, mut accepted) = (0, 0);
    for _ in 0..count {
        let state = if r.one_in(8) { r.of(&[0, 33, u32::MAX]) } else { r.word() };
        let draws = if r.one_in(8) { r.of(&[0, 1, 1000, 1001]) } else { r.below(1001) };
        let mut input = format!("{state},{draws}\n").into_bytes();
        if r.one_in(3) {
            damage(&mut r, &mut input);
        }
        let want = text(&input);
        accepted += u32::from(want.starts_with("draw"));
        if run(program, &input) != want.as_bytes() {
            differ += 1;
            if differ <= 3 {
                println!("draws {:?}", String::from_utf8_lossy(&input));
            }
        }
    }
    println!("draws: {count} inputs, {accepted} of them accepted: {differ} differ");
    differ
}

fn text(input: &[u8]) -> String {
    let Some((state, count)) = read(input) else { return "refused,8,1\n".to_string() };
    random::seed(state);
    let rows = (1..=count).map(|i| {
        let value = random::get_float();
        // the word is the new state; to read it draws one more, so it is set back
        let word = crate::voices::noise_state();
        random::seed(word);
        format!("{i},{word},{:08x}\n", value.to_bits())
    });
    "draw,word,bits\n".to_string() + &rows.collect::<String>()
}

fn read(input: &[u8]) -> Option<(u32, u32)> {
    let [state, count] = fields(input)?[..] else { return None };
    Some((decimal(state, u32::MAX.into())?, decimal(count, 1000)?))
}
