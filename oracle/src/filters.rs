//! OnePole and Svf: scripts of a few calls from a record of zeros, outputs and every field compared after each call.
use crate::calls::Random;
use crate::port;
use crate::state::words;
use crate::tally::{Counts, any, same, same_all};
use mi_plaits_dsp::utils::filter::{FilterMode, FrequencyApproximation, OnePole, Svf};

/// As many scripts of each filter; every routine is called about as often.
pub fn compare(scripts: u32) -> u64 {
    let mut r = Random::new(1);
    let mut counts = Counts::default();
    for _ in 0..scripts {
        run_one_pole(&mut r, &mut counts);
        run_svf(&mut r, &mut counts);
    }
    counts.report()
}

/// The port's choices, made of bools, and the Rust's.
pub fn modes() -> [(port::FilterMode, FilterMode); 4] {
    let mode = |band_pass, high_or_normalized| port::FilterMode { band_pass, high_or_normalized };
    [
        (mode(false, false), FilterMode::LowPass),
        (mode(true, false), FilterMode::BandPass),
        (mode(true, true), FilterMode::BandPassNormalized),
        (mode(false, true), FilterMode::HighPass),
    ]
}

pub fn approximations() -> [(port::FrequencyApproximation, FrequencyApproximation); 4] {
    let approximation = |fast, dirty| port::FrequencyApproximation { fast, dirty };
    [
        (approximation(false, false), FrequencyApproximation::Accurate),
        (approximation(true, false), FrequencyApproximation::Fast),
        (approximation(false, true), FrequencyApproximation::Dirty),
        (approximation(true, true), FrequencyApproximation::Dirty),
    ]
}

/// A frequency or a resonance: any float, or one that keeps a filter's state small.
fn setting(r: &mut Random) -> f32 {
    if r.one_in(4) { any(r) } else { r.unit() * 0.5 }
}

fn run_one_pole(r: &mut Random, counts: &mut Counts) {
    let mut rust = OnePole::new();
    let mut port = port::bechullpi_filter_one_pole_zero();
    for _ in 0..5 {
        let (f, in_) = (setting(r), any(r));
        let ((port_approximation, approximation), (port_mode, mode)) = (r.of(&approximations()), r.of(&modes()));
        let mut outputs = true;
        let name = match r.below(5) {
            0 => {
                (port, _) = (port::bechullpi_filter_one_pole_init(port), rust.init());
                "OnePole::init"
            }
            1 => {
                (port, _) = (port::bechullpi_filter_one_pole_reset(port), rust.reset());
                "OnePole::reset"
            }
            2 => {
                (port, _) = (port::bechullpi_filter_one_pole_set_f(port, f, port_approximation), rust.set_f(f, approximation));
                "OnePole::set_f"
            }
            _ => {
                let o = port::bechullpi_filter_one_pole_process(port, in_, port_mode);
                port = o.filter;
                outputs = same(o.out, rust.process(in_, mode));
                "OnePole::process"
            }
        };
        counts.add(name, outputs && words(&format!("{port:?}"), &[]) == words(&format!("{rust:?}"), &[]));
    }
}

fn run_svf(r: &mut Random, counts: &mut Counts) {
    let mut rust = Svf::new();
    let mut port = port::bechullpi_filter_svf_zero();
    for _ in 0..10 {
        let routine = r.below(10);
        let (name, outputs) =
            if routine < 7 { (set_svf(r, routine, &mut port, &mut rust), true) } else { process_svf(r, routine, &mut port, &mut rust) };
        counts.add(name, outputs && words(&format!("{port:?}"), &[]) == words(&format!("{rust:?}"), &[]));
    }
}

/// One of the routines that give no output, and its name.
fn set_svf(r: &mut Random, routine: u32, port: &mut port::Svf, rust: &mut Svf) -> &'static str {
    let (g, q, h) = (setting(r), setting(r), setting(r));
    let (port_approximation, approximation) = r.of(&approximations());
    match routine {
        0 => {
            (*port, _) = (port::bechullpi_filter_svf_init(*port), rust.init());
            "Svf::init"
        }
        1 => {
            (*port, _) = (port::bechullpi_filter_svf_reset(*port), rust.reset());
            "Svf::reset"
        }
        2 => {
            let mut other = Svf::new();
            other.set_g_r_h(g, q, h);
            rust.set(&other);
            *port = port::bechullpi_filter_svf_set(*port, port::Svf { g, r: q, h, state_1: 1.0, state_2: 2.0 });
            "Svf::set"
        }
        3 => {
            (*port, _) = (port::bechullpi_filter_svf_set_g_r_h(*port, g, q, h), rust.set_g_r_h(g, q, h));
            "Svf::set_g_r_h"
        }
        4 => {
            (*port, _) = (port::bechullpi_filter_svf_set_g_r(*port, g, q), rust.set_g_r(g, q));
            "Svf::set_g_r"
        }
        5 => {
            (*port, _) = (port::bechullpi_filter_svf_set_g_q(*port, g, q), rust.set_g_q(g, q));
            "Svf::set_g_q"
        }
        _ => {
            (*port, _) = (port::bechullpi_filter_svf_set_f_q(*port, g, q, port_approximation), rust.set_f_q(g, q, approximation));
            "Svf::set_f_q"
        }
    }
}

/// One of the routines that give samples, its name, and whether the samples agree. The slices of `process_buffer` may be of unequal length.
fn process_svf(r: &mut Random, routine: u32, port: &mut port::Svf, rust: &mut Svf) -> (&'static str, bool) {
    let in_ = any(r);
    let ((port_1, mode_1), (port_2, mode_2)) = (r.of(&modes()), r.of(&modes()));
    match routine {
        7 => {
            let o = port::bechullpi_filter_svf_process(*port, in_, port_1);
            *port = o.filter;
            ("Svf::process", same(o.out, rust.process(in_, mode_1)))
        }
        8 => {
            let (mut out_1, mut out_2) = (0.0, 0.0);
            rust.process_dual(in_, &mut out_1, &mut out_2, mode_1, mode_2);
            let o = port::bechullpi_filter_svf_process_dual(*port, in_, port_1, port_2);
            *port = o.filter;
            ("Svf::process_dual", same(o.out_1, out_1) && same(o.out_2, out_2))
        }
        _ => {
            let input: Vec<f32> = (0..r.below(6)).map(|_| any(r)).collect();
            let mut out = vec![0.5; r.below(6) as usize];
            let mut rust_out = out.clone();
            rust.process_buffer(&input, &mut rust_out, mode_1);
            *port = port::svf_process_buffer(*port, &input, &mut out, port_1);
            ("Svf::process_buffer", same_all(&out, &rust_out))
        }
    }
}
