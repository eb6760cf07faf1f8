//! The words of a voice's state, read from its derived `Debug` text: an f32 prints there as the shortest decimal that reads back.

/// A NaN counts as one pattern.
pub fn pattern(x: f32) -> u32 {
    if x.is_nan() { 0x7fc0_0000 } else { x.to_bits() }
}

/// What `replay` prints of words: h = (h xor word) * 16777619 modulo 2^32 for each, from 2166136261, FNV-1a over words. Two errors in a sign alone cancel in it.
pub fn digest(words: impl IntoIterator<Item = u32>) -> u32 {
    words.into_iter().fold(2166136261, |h, word| (h ^ word).wrapping_mul(16777619))
}

/// The numbers of a `Debug` text in their order, without the fields that are named in `left_out`.
pub fn words(debug: &str, left_out: &[&str]) -> Vec<u32> {
    named_words(debug, left_out).into_iter().map(|(_, word)| word).collect()
}

/// The same, each with the name of the field that it stands in, the innermost one.
pub fn named_words<'a>(debug: &'a str, left_out: &[&str]) -> Vec<(&'a str, u32)> {
    let mut words = Vec::new();
    let (mut rest, mut field) = (debug, "");
    while let Some((token, separator, after)) = next_token(rest) {
        rest = after;
        if separator == ':' && left_out.contains(&token) {
            rest = skip_value(rest);
        } else if separator == ':' {
            field = token;
        } else if separator != '{' && !token.is_empty() {
            words.push((field, word(token)));
        }
    }
    words
}

/// The text up to the next separator, the separator, and what follows it.
fn next_token(text: &str) -> Option<(&str, char, &str)> {
    let at = text.find([':', ',', '{', '}', '[', ']'])?;
    let separator = text[at..].chars().next()?;
    Some((text[..at].trim(), separator, &text[at + 1..]))
}

/// What follows a field's value: the value is all up to a comma or a closing brace outside of any bracket.
fn skip_value(text: &str) -> &str {
    let mut depth = 0;
    for (at, c) in text.char_indices() {
        match c {
            '{' | '[' => depth += 1,
            '}' | ']' if depth > 0 => depth -= 1,
            ',' | '}' if depth == 0 => return &text[at..],
            _ => {}
        }
    }
    ""
}

/// A float has a point, an exponent or letters; anything else is an integer.
fn word(token: &str) -> u32 {
    if token.contains(['.', 'e', 'N', 'i']) {
        pattern(token.parse().unwrap_or_else(|_| panic!("a float: {token}")))
    } else {
        token.parse::<i64>().unwrap_or_else(|_| panic!("an integer: {token}")) as u32
    }
}
