//! The small functions of utils/mod.rs, the approximated tangents and the interpolator, on random floats and those at the edges.
use crate::calls::Random;
use crate::filters::approximations;
use crate::port;
use crate::tally::{any, drawn, same};
use mi_plaits_dsp::utils;
use mi_plaits_dsp::utils::filter::OnePole;
use mi_plaits_dsp::utils::parameter_interpolator::ParameterInterpolator;

pub fn compare(count: u32) -> u64 {
    drawn("one_pole", count, |r| {
        let [mut out, in_, coefficient, _] = four(r);
        let port = port::bechullpi_utils_one_pole(out, in_, coefficient);
        utils::one_pole(&mut out, in_, coefficient);
        same(port, out)
    }) + drawn("slope", count, |r| {
        let [mut out, in_, positive, negative] = four(r);
        let port = port::bechullpi_utils_slope(out, in_, positive, negative);
        utils::slope(&mut out, in_, positive, negative);
        same(port, out)
    }) + drawn("crossfade", count, |r| {
        let [a, b, fade, _] = four(r);
        same(port::bechullpi_utils_crossfade(a, b, fade), utils::crossfade(a, b, fade))
    }) + drawn("soft_limit", count, |r| of_one(r, port::bechullpi_utils_soft_limit, utils::soft_limit))
        + drawn("soft_clip", count, |r| of_one(r, port::bechullpi_utils_soft_clip, utils::soft_clip))
        + drawn("utils sqrt", count, |r| of_one(r, port::bechullpi_utils_sqrt, utils::sqrt))
        + drawn("tan", count, same_tan)
        + drawn("ParameterInterpolator", count, same_interpolator)
}

fn four(r: &mut Random) -> [f32; 4] {
    [any(r), any(r), any(r), any(r)]
}

fn of_one(r: &mut Random, port: extern "C" fn(f32) -> f32, rust: fn(f32) -> f32) -> bool {
    let x = any(r);
    same(port(x), rust(x))
}

fn same_tan(r: &mut Random) -> bool {
    let f = any(r);
    approximations().into_iter().all(|(port, rust)| same(port::bechullpi_filter_one_pole_tan(f, port), OnePole::tan(f, rust)))
}

/// A few steps; the Rust stores the last value where it took the first from, once it is dropped.
fn same_interpolator(r: &mut Random) -> bool {
    let (value, new_value) = (any(r), any(r));
    let size = if r.one_in(4) { r.of(&[0, 1, u32::MAX]) } else { r.below(20000) };
    let mut state = value;
    let mut port = port::bechullpi_parameter_interpolator_new(value, new_value, size);
    let mut rust = ParameterInterpolator::new(&mut state, new_value, size as usize);
    let steps = (0..r.below(4)).all(|_| {
        port = port::bechullpi_parameter_interpolator_next(port);
        same(port.value, rust.next())
    });
    drop(rust);
    steps && same(port.value, state)
}
