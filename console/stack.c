// How much stack the calls of bechullpi.h use: each one is made on a stack of its own, painted before it, and the bytes from the deepest that lost its
// paint are counted. What the caller puts there counts too: the arguments, and the place for the answer. Prints the most for each kind of call, and ends
// with status 1 where that is above the figure in the header.
#define _XOPEN_SOURCE 700 // for ucontext.h
#include "bechullpi.h"

#include <stdio.h>
#include <string.h>
#include <ucontext.h>

enum { BYTES = 1 << 18, PLACES = 16384, FLAGS = 16 };

static unsigned char stack[BYTES];
static ucontext_t here, there;

// What the calls are given. The flags are set by `most`.
static float buffer[PLACES], input[PLACES];
static bool linear;
static bechullpi_one_pole one_pole;
static bechullpi_svf svf;
static bechullpi_parameter_interpolator interpolator;
static bechullpi_analog_bass_drum bass;
static bechullpi_analog_snare_drum snare;
static bechullpi_synthetic_snare_drum synthetic_snare;
static bechullpi_hihat hihat;
static bechullpi_square_noise square_noise;
static bechullpi_synthetic_bass_drum_transient transient;
static const bechullpi_analog_bass_drum_knobs bass_knobs = {
    .f0 = 0.001f, .tone = 0.5f, .decay = 0.5f, .attack_fm_amount = 0.5f, .self_fm_amount = 0.5f};
static const bechullpi_analog_snare_drum_knobs snare_knobs = {.f0 = 0.004f, .tone = 0.5f, .decay = 0.5f, .snappy = 0.5f};
static bechullpi_synthetic_snare_drum_knobs synthetic_snare_knobs = {
    .accent = 0.9f, .f0 = 0.004f, .fm_amount = 0.5f, .decay = 0.5f, .snappy = 0.5f};
static bechullpi_hihat_knobs hihat_knobs = {.accent = 0.9f, .f0 = 0.01f, .tone = 0.5f, .decay = 0.5f, .noisiness = 0.5f};
static uint8_t sheet[4096];
static size_t sheet_bytes;

#define NUMBERS_AND_FILTERS(CALL) \
    CALL(ieee754_truncate_u32, (1.5f)) \
    CALL(ieee754_truncate_usize, (1.5f)) \
    CALL(ieee754_truncate_i32, (1.5f)) \
    CALL(ieee754_nearest_f32, (16777217)) \
    CALL(ieee754_abs, (-1.5f)) \
    CALL(ieee754_clamp, (1.5f, 0.0f, 1.0f)) \
    CALL(ieee754_sqrt, (2.0f)) \
    CALL(ieee754_minimum, (1.5f, 2.5f)) \
    CALL(ieee754_minimum_number, (1.5f, 2.5f)) \
    CALL(ieee754_maximum, (1.5f, 2.5f)) \
    CALL(ieee754_maximum_number, (1.5f, 2.5f)) \
    CALL(ieee754_minimum_magnitude, (1.5f, 2.5f)) \
    CALL(ieee754_minimum_magnitude_number, (1.5f, 2.5f)) \
    CALL(ieee754_maximum_magnitude, (1.5f, 2.5f)) \
    CALL(ieee754_maximum_magnitude_number, (1.5f, 2.5f)) \
    CALL(ieee754_minimum_f64, (1.5, 2.5)) \
    CALL(ieee754_minimum_number_f64, (1.5, 2.5)) \
    CALL(ieee754_maximum_f64, (1.5, 2.5)) \
    CALL(ieee754_maximum_number_f64, (1.5, 2.5)) \
    CALL(ieee754_minimum_magnitude_f64, (1.5, 2.5)) \
    CALL(ieee754_minimum_magnitude_number_f64, (1.5, 2.5)) \
    CALL(ieee754_maximum_magnitude_f64, (1.5, 2.5)) \
    CALL(ieee754_maximum_magnitude_number_f64, (1.5, 2.5)) \
    CALL(random_get_word, (33)) \
    CALL(random_get_float, (33)) \
    CALL(units_semitones_to_ratio, (7.0f)) \
    CALL(parameter_interpolator_new, (0.0f, 1.0f, 64)) \
    CALL(parameter_interpolator_next, (interpolator)) \
    CALL(utils_one_pole, (0.5f, 1.0f, 0.1f)) \
    CALL(utils_slope, (0.5f, 1.0f, 0.1f, 0.2f)) \
    CALL(utils_crossfade, (0.5f, 1.0f, 0.1f)) \
    CALL(utils_soft_limit, (0.5f)) \
    CALL(utils_soft_clip, (0.5f)) \
    CALL(utils_sqrt, (0.5f)) \
    CALL(filter_one_pole_zero, ()) \
    CALL(filter_one_pole_init, (one_pole)) \
    CALL(filter_one_pole_reset, (one_pole)) \
    CALL(filter_one_pole_tan, (0.1f, BECHULLPI_ACCURATE)) \
    CALL(filter_one_pole_set_f, (one_pole, 0.1f, BECHULLPI_ACCURATE)) \
    CALL(filter_one_pole_process, (one_pole, 0.5f, BECHULLPI_HIGH_PASS)) \
    CALL(filter_svf_zero, ()) \
    CALL(filter_svf_init, (svf)) \
    CALL(filter_svf_reset, (svf)) \
    CALL(filter_svf_set, (svf, svf)) \
    CALL(filter_svf_set_g_r_h, (svf, 0.1f, 0.2f, 0.3f)) \
    CALL(filter_svf_set_g_r, (svf, 0.1f, 0.2f)) \
    CALL(filter_svf_set_g_q, (svf, 0.1f, 2.0f)) \
    CALL(filter_svf_set_f_q, (svf, 0.1f, 2.0f, BECHULLPI_ACCURATE)) \
    CALL(filter_svf_process, (svf, 0.5f, BECHULLPI_BAND_PASS_NORMALIZED)) \
    CALL(filter_svf_process_dual, (svf, 0.5f, BECHULLPI_LOW_PASS, BECHULLPI_BAND_PASS)) \
    CALL(filter_svf_process_buffer, (svf, input, PLACES, buffer, PLACES, BECHULLPI_BAND_PASS))

#define VOICES(CALL) \
    CALL(analog_bass_drum_zero, ()) \
    CALL(analog_bass_drum_init, (bass, 48000.0f)) \
    CALL(analog_bass_drum_strike, (bass, 0.9f)) \
    CALL(analog_bass_drum_run, (bass, bass_knobs, buffer, PLACES)) \
    CALL(analog_snare_drum_zero, ()) \
    CALL(analog_snare_drum_init, (snare, 48000.0f)) \
    CALL(analog_snare_drum_strike, (snare, 0.9f)) \
    CALL(analog_snare_drum_run, (snare, snare_knobs, buffer, PLACES)) \
    CALL(synthetic_snare_drum_zero, ()) \
    CALL(synthetic_snare_drum_init, (synthetic_snare, 48000.0f)) \
    CALL(synthetic_snare_drum_strike, (synthetic_snare, 0.9f, 0.5f)) \
    CALL(synthetic_snare_drum_run, (synthetic_snare, synthetic_snare_knobs, buffer, PLACES)) \
    CALL(hihat_zero, ()) \
    CALL(hihat_init, (hihat, 48000.0f)) \
    CALL(hihat_strike, (hihat, 0.9f, 0.5f)) \
    CALL(hihat_run, (hihat, linear, hihat_knobs, buffer, PLACES)) \
    CALL(hihat_square_noise_zero, ()) \
    CALL(hihat_square_noise_init, (square_noise)) \
    CALL(hihat_square_noise_render, (square_noise, 0.01f, buffer, PLACES)) \
    CALL(synthetic_bass_drum_click_zero, ()) \
    CALL(synthetic_bass_drum_click_init, (transient.click, 48000.0f)) \
    CALL(synthetic_bass_drum_click_process, (transient.click, 1.0f)) \
    CALL(synthetic_bass_drum_attack_noise_zero, ()) \
    CALL(synthetic_bass_drum_attack_noise_init, (transient.attack_noise)) \
    CALL(synthetic_bass_drum_attack_noise_render, (transient.attack_noise, 33)) \
    CALL(synthetic_bass_drum_transient_zero, ()) \
    CALL(synthetic_bass_drum_transient_init, (transient, 48000.0f)) \
    CALL(synthetic_bass_drum_transient_render, (transient, 48, buffer, PLACES))

#define SHEET(CALL) \
    CALL(sheet, (sheet, sheet_bytes, buffer, PLACES))

#define CALLER(name, arguments) static void call_##name(void) { bechullpi_##name arguments; }
NUMBERS_AND_FILTERS(CALLER)
VOICES(CALLER)
SHEET(CALLER)

#define ENTRY(name, arguments) call_##name,
typedef void (*caller)(void);
static const caller numbers_and_filters[] = {NUMBERS_AND_FILTERS(ENTRY)};
static const caller voices[] = {VOICES(ENTRY)};
static const caller sheets[] = {SHEET(ENTRY)};

// The bytes that a call used of a stack of this paint.
static size_t used(caller call, unsigned char paint)
{
    size_t untouched = 0;
    memset(stack, paint, BYTES);
    getcontext(&there);
    there.uc_stack.ss_sp = stack;
    there.uc_stack.ss_size = BYTES;
    there.uc_link = &here;
    makecontext(&there, call, 0);
    swapcontext(&here, &there);
    while (untouched < BYTES && stack[untouched] == paint)
        untouched++;
    return BYTES - untouched;
}

// The most that any of the calls used, with any flags. A byte may have been given the paint's own value, so there are two paints.
static size_t most(const caller *calls, size_t count)
{
    size_t most = 0;
    for (unsigned k = 0; k < count * FLAGS * 2; k++) {
        unsigned flags = k / 2 % FLAGS;
        synthetic_snare_knobs.sustain = hihat_knobs.sustain = flags & 1;
        linear = flags & 2;
        hihat_knobs.resonance = flags & 4;
        hihat_knobs.two_stage_envelope = flags & 8;
        size_t n = used(calls[k / 2 / FLAGS], k % 2 ? 0xa5 : 0x5a);
        most = n > most ? n : most;
    }
    return most;
}

// The longest sheet, with the voices in turn.
static void write_sheet(void)
{
    int at = sprintf((char *)sheet, "48000,%d\n", PLACES);
    for (int i = 0; i < 64; i++)
        at += sprintf((char *)sheet + at, "%d,%c,3f666666,3b03126f,3f000000,3f000000,3f000000\n", i * 200, "bsyh"[i % 4]);
    sheet_bytes = (size_t)at;
}

// A run is that of a struck voice, so that it has the pulses and envelopes that a strike sets off, and what is left after them.
static void init_and_strike(void)
{
    bass = bechullpi_analog_bass_drum_strike(bechullpi_analog_bass_drum_init(bass, 48000.0f).voice, 0.9f).voice;
    snare = bechullpi_analog_snare_drum_strike(bechullpi_analog_snare_drum_init(snare, 48000.0f).voice, 0.9f).voice;
    synthetic_snare = bechullpi_synthetic_snare_drum_strike(bechullpi_synthetic_snare_drum_init(synthetic_snare, 48000.0f).voice, 0.9f, 0.5f).voice;
    hihat = bechullpi_hihat_strike(bechullpi_hihat_init(hihat, 48000.0f).voice, 0.9f, 0.5f).voice;
    transient = bechullpi_synthetic_bass_drum_transient_init(transient, 48000.0f).transient;
}

static bool is_within(size_t limit, size_t bytes, const char *kind)
{
    printf("%s: %zu bytes, %s the %zu of bechullpi.h\n", kind, bytes, bytes <= limit ? "within" : "ABOVE", limit);
    return bytes <= limit;
}

int main(void)
{
    init_and_strike();
    write_sheet();
    if (bechullpi_sheet(sheet, sheet_bytes, buffer, PLACES).cues != 64) {
        puts("the sheet is not accepted");
        return 1;
    }
    bool numbers = is_within(BECHULLPI_STACK_NUMBERS, most(numbers_and_filters, sizeof numbers_and_filters / sizeof(caller)), "a number or a filter");
    bool voice = is_within(BECHULLPI_STACK_VOICES, most(voices, sizeof voices / sizeof(caller)), "a voice or a click");
    bool whole = is_within(BECHULLPI_STACK_SHEET, most(sheets, sizeof sheets / sizeof(caller)), "a sheet");
    return numbers && voice && whole ? 0 : 1;
}
