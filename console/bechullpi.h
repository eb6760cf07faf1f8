// bechullpi.h: drum voices and a click for a console in C or C++, with all that they are made of. x86-64 only, System V calling convention.
//
// console/header made this file from the signatures in crates/console/src: change those, or console/bechullpi.h.in, not this.
//
// LINK
//     console/build
//     gcc -std=c11 -I console yours.c target/console/libconsole.a
// console/example.c is a stick and a sound loop to begin from. What each function gives is defined in the specs/ of the crate in its name.
//
// RECORDS
// A record is a value. A call takes one and answers the one after it; keep that for the next call. Nothing is kept anywhere else: there
// is no global state, no allocation, no input or output, no lock. A voice starts from its zero record, then `init`, and then come strikes
// and runs. A record may hold any patterns, but a bool is 0 or 1.
//
// STRIKES AND RUNS
// A voice's sound is a strike and then runs. `strike` begins it and renders no sample: it takes accent, and for a synthetic snare or a
// hi-hat decay. `run` renders a block of it: it takes the knobs and a buffer.
// The decay of a strike says how long the noise of a synthetic snare holds before it fades, from 40 to 70 milliseconds, and how high the
// envelope of a hi-hat begins: a longer decay begins lower. The knobs of a run need not be those of the strike. Their decay says how fast
// the sound fades in that run; accent, which a synthetic snare and a hi-hat have among them, counts only where the run sustains.
// Where no call is refused, a strike and then a run with the same knobs are the Rust's `render` with its trigger set, and a run alone is
// the one without. Of strikes with no run between them the last accepted one counts, as if there had been no other. Both are proved.
//
// CLICK
// For when the stick is let go there is a transient: the click and the hiss of the Rust's synthetic bass drum, whose other parts are not
// here. It starts from its zero record, then `init`, and then comes `render`, block after block. Each sample is click plus hiss.
// `render` feeds the click 0.0 for the first n samples of the block and 1.0 afterwards, and it clicks where that rises. So n is the sample
// at which the stick is let go: the block's length, or anything above, while it is held, and 0 in the blocks after. `init` leaves the click
// as if it had been fed 0.0. To fall from 1.0 to 0.0 is heard too, not half as high.
// The hiss goes on by itself, and begins with a thump after `init`. So multiply the samples by a level: 0.0 until the stick is let go, and
// then one that fades, as the Rust's envelope does, by 1 - 1 / (0.005 * rate) a sample. That the stick was let go is queued as a strike is.
//
// THREADS
// One thread at a time owns a record; calls with different records may run at once. The stick's thread knows when a sound begins, the
// sound loop's thread knows how many samples a block has, and the sound loop owns the records. So the stick does not call `strike`: it
// puts accent and decay into a queue. At the start of a block the sound loop takes what is queued, strikes, and then runs. One place in
// the queue is enough for a voice: a new strike may take the place of one that still waits, since of accepted strikes the last counts. So
// queue none that is out of range: it would push out one that would be heard. console/example.c has such a queue, without a lock.
//
// ANSWERS
// A call that is not fit answers a number other than 0, and then the record and the buffer are as they were. Look at it after every call.
// If a run is refused, the strike before it stands: the next accepted run sounds as if that strike came just before it. The first question
// that is not passed gives the number: a voice asks in the order 1 to 5, a sheet 7, then of each cue 10, 8, 9, 3, 4, 5, and 11 at the end.
// A NaN is no number, and -0.0 is 0.0.
//      1  the sample rate is not a number from 16000.0 to 96000.0
//      2  the block has more than 16,384 samples
//      3  f0, in cycles a sample, is not a number from 2^-20 to 0.5
//      4  accent is not a number from 0.0 to 1.0
//      5  another knob is not a number from 0.0 to 1.0, or the decay of the analog bass from 0.0 to 2.0
//      6  is retired: no call answers it
//      7  sheet: the first line is not `rate,length` with a rate from 16000 to 96000 and a length of at most 16384
//      8  sheet: a cue has not seven well-formed fields and a line end
//      9  sheet: a cue does not start below the length and after the cue before it
//     10  sheet: there are more than 64 cues
//     11  sheet: the buffer has fewer places than the sheet has samples
// What a voice asks, and a transient and the click by itself, which have no strike:
//                       init   strike    run, render
//      analog bass      1      4         2, 3, 5
//      analog snare     1      4         2, 3, 5
//      synthetic snare  1      1, 4, 5   1, 2, 3, 4, 5
//      hi-hat           1      1, 4, 5   1, 2, 3, 4, 5
//      transient        1                2
//      click            1
// Where a strike or a run asks 1, it is of the rate that the record holds from `init`; where a run asks 4, it asks it whether it sustains
// or not.
// What answers no such number takes any value.
//
// SAMPLES ARE NOT LIMITED TO 1.0. A synthetic snare reached 110 in a sheet that is accepted. Limit before the converter.
//
// NOISE
// Each record of an analog snare, a synthetic snare, a hi-hat or a transient carries its own noise state, in its last field. `init` sets it
// to 33, a run or `render` goes on from there, and a strike leaves it as it is. A knock on one voice does not change another's noise.
// Nothing needs to be passed on, except for the hiss by itself: its call takes the state, at first 33, and hands back the next.
//
// BLOCKS
// The lengths of the blocks do not change the sound. From one strike to the next, where nothing sustains and the knobs stay, any two ways
// to cut the sound into accepted runs give the same samples and leave the same record, bit for bit, its noise state included; and the
// parts of an accepted run are accepted. This is proved. So a strike may come at any sample: run up to it, strike, and run over the rest.
// A block may have 0 samples, and may still change the record. A sustained block is excepted: its gain slides over the block's own length.
// A transient may be cut into any accepted blocks too, where the next block is given what is left of n: n minus the block's length, or 0
// where the block is longer. This is proved.
//
// POINTERS
// A buffer crosses as a pointer to its first place and the number of its places. The pointer is not null, also where the number is 0.
// Every place holds some value before the call. `out` has no place in common with the other buffer of the call.
//
// FLOATING-POINT ENVIRONMENT
// Rounding to nearest, FLUSH-TO-ZERO AND DENORMALS-ARE-ZERO OFF, exceptions masked: the default of C. Audio code likes to turn the two on,
// and so does linking with gcc's -ffast-math; turn them off around the calls. With them on, a strike with the accent 80000001, a number
// below zero, is accepted; with rounding upward every sheet tried had other samples.
// A NaN is one value here: which of its patterns comes back is the machine's choice.
//
// STACK
// A call takes at most BECHULLPI_STACK_.. bytes, as below, of its caller's stack, arguments and answer included; a click's are among the
// voices'. console/stack.c measures on memory that is painted before each call: some 140 bytes for a number or a filter, 1,450 for a voice,
// 67,300 for a sheet (gcc 12, the library as console/build makes it). It fails where a figure is passed. What is above that is room for the
// dynamic linker: binding memcpy on its first call took 2,600 bytes more.
#ifndef BECHULLPI_H
#define BECHULLPI_H

#include <stdbool.h>
#include <stddef.h>
#include <stdint.h>

#ifdef __cplusplus
#define BECHULLPI_STATIC_ASSERT static_assert
#define BECHULLPI_CHOICE(type, first, second) (type{first, second})
extern "C" {
#else
#define BECHULLPI_STATIC_ASSERT _Static_assert
#define BECHULLPI_CHOICE(type, first, second) ((type){first, second})
#endif

BECHULLPI_STATIC_ASSERT(sizeof(float) == 4 && sizeof(double) == 8 && sizeof(bool) == 1 && sizeof(size_t) == 8, "not x86-64");

#define BECHULLPI_STACK_NUMBERS 1024
#define BECHULLPI_STACK_VOICES 8192
#define BECHULLPI_STACK_SHEET 81920

// -------------------------------------------------------------------------------------------------------------------------------
// The choices that cross as bools, so that every value means something.

// A filter's output: low-pass, or high-pass where `high_or_normalized` is set; with `band_pass` the band-pass, or the normalized
// one.
typedef struct bechullpi_filter_mode {
    bool band_pass;
    bool high_or_normalized;
} bechullpi_filter_mode;
BECHULLPI_STATIC_ASSERT(sizeof(bechullpi_filter_mode) == 2, "bechullpi_filter_mode");

// How a frequency becomes a coefficient: dirty where that is set, else fast where that is set, else accurate.
typedef struct bechullpi_frequency_approximation {
    bool fast;
    bool dirty;
} bechullpi_frequency_approximation;
BECHULLPI_STATIC_ASSERT(sizeof(bechullpi_frequency_approximation) == 2, "bechullpi_frequency_approximation");

#define BECHULLPI_LOW_PASS BECHULLPI_CHOICE(bechullpi_filter_mode, false, false)
#define BECHULLPI_HIGH_PASS BECHULLPI_CHOICE(bechullpi_filter_mode, false, true)
#define BECHULLPI_BAND_PASS BECHULLPI_CHOICE(bechullpi_filter_mode, true, false)
#define BECHULLPI_BAND_PASS_NORMALIZED BECHULLPI_CHOICE(bechullpi_filter_mode, true, true)

#define BECHULLPI_ACCURATE BECHULLPI_CHOICE(bechullpi_frequency_approximation, false, false)
#define BECHULLPI_FAST BECHULLPI_CHOICE(bechullpi_frequency_approximation, true, false)
#define BECHULLPI_DIRTY BECHULLPI_CHOICE(bechullpi_frequency_approximation, false, true)

// The hi-hat's `linear`.
#define BECHULLPI_SWING_VCA false
#define BECHULLPI_LINEAR_VCA true

// -------------------------------------------------------------------------------------------------------------------------------
// Conversions and operations of IEEE 754-2019 and Rust's `clamp`; draws of the noise generator; ratios of pitches; a sliding
// value; the small functions of utils.

// A float drawn. The word drawn with it is the next state.
typedef struct bechullpi_draw {
    uint32_t word;
    float value;
} bechullpi_draw;
BECHULLPI_STATIC_ASSERT(sizeof(bechullpi_draw) == 8, "bechullpi_draw");

typedef struct bechullpi_parameter_interpolator {
    float value;
    float increment;
} bechullpi_parameter_interpolator;
BECHULLPI_STATIC_ASSERT(sizeof(bechullpi_parameter_interpolator) == 8, "bechullpi_parameter_interpolator");

// Toward zero, held at the ends of the target; a NaN gives 0. So are the next two.
uint32_t bechullpi_ieee754_truncate_u32(float x);

size_t bechullpi_ieee754_truncate_usize(float x);

int32_t bechullpi_ieee754_truncate_i32(float x);

// To the nearest value, a tie to the even one.
float bechullpi_ieee754_nearest_f32(uint32_t n);

float bechullpi_ieee754_abs(float x);

// lo where x is below lo, else hi where x is above hi, else x, a NaN too.
float bechullpi_ieee754_clamp(float x, float lo, float hi);

// The nearest value to the root. A number below zero gives a NaN, -0.0 gives -0.0.
float bechullpi_ieee754_sqrt(float x);

// The word drawn, which is the next state.
uint32_t bechullpi_random_get_word(uint32_t state);

// A value from 0.0 to 1.0, both included, and the word drawn, which is the next state.
bechullpi_draw bechullpi_random_get_float(uint32_t state);

// The ratio of a pitch in semitones. It is held past the end of the tables, at 128.0.
float bechullpi_units_semitones_to_ratio(float semitones);

// A value that reaches another in `size` equal steps.
bechullpi_parameter_interpolator bechullpi_parameter_interpolator_new(float value, float new_value, uint32_t size);

// One step.
bechullpi_parameter_interpolator bechullpi_parameter_interpolator_next(bechullpi_parameter_interpolator interpolator);

float bechullpi_utils_one_pole(float out, float in, float coefficient);

float bechullpi_utils_slope(float out, float in, float positive, float negative);

float bechullpi_utils_crossfade(float a, float b, float fade);

float bechullpi_utils_soft_limit(float x);

float bechullpi_utils_soft_clip(float x);

float bechullpi_utils_sqrt(float x);

// -------------------------------------------------------------------------------------------------------------------------------
// The minimum and maximum operations of IEEE 754-2019, 9.6, in single and in double precision. Which pattern of a NaN comes back
// is left open.

// The smaller of two numbers, -0.0 below 0.0. A NaN if either operand is one.
float bechullpi_ieee754_minimum(float x, float y);

// The smaller of two numbers, -0.0 below 0.0. The number if one operand is a NaN, a NaN if both are.
float bechullpi_ieee754_minimum_number(float x, float y);

// The larger of two numbers, 0.0 above -0.0. A NaN if either operand is one.
float bechullpi_ieee754_maximum(float x, float y);

// The larger of two numbers, 0.0 above -0.0. The number if one operand is a NaN, a NaN if both are.
float bechullpi_ieee754_maximum_number(float x, float y);

// The operand of smaller magnitude; `minimum` where the magnitudes are equal or an operand is a NaN.
float bechullpi_ieee754_minimum_magnitude(float x, float y);

// The operand of smaller magnitude; `minimum_number` where the magnitudes are equal or an operand is a NaN.
float bechullpi_ieee754_minimum_magnitude_number(float x, float y);

// The operand of larger magnitude; `maximum` where the magnitudes are equal or an operand is a NaN.
float bechullpi_ieee754_maximum_magnitude(float x, float y);

// The operand of larger magnitude; `maximum_number` where the magnitudes are equal or an operand is a NaN.
float bechullpi_ieee754_maximum_magnitude_number(float x, float y);

// The same in double precision, and so the next seven.
double bechullpi_ieee754_minimum_f64(double x, double y);

double bechullpi_ieee754_minimum_number_f64(double x, double y);

double bechullpi_ieee754_maximum_f64(double x, double y);

double bechullpi_ieee754_maximum_number_f64(double x, double y);

double bechullpi_ieee754_minimum_magnitude_f64(double x, double y);

double bechullpi_ieee754_minimum_magnitude_number_f64(double x, double y);

double bechullpi_ieee754_maximum_magnitude_f64(double x, double y);

double bechullpi_ieee754_maximum_magnitude_number_f64(double x, double y);

// -------------------------------------------------------------------------------------------------------------------------------
// The filters: OnePole and Svf. `Svf::process_mut` does not cross: it is proved equal to `process`.

typedef struct bechullpi_one_pole {
    float g;
    float gi;
    float state;
} bechullpi_one_pole;
BECHULLPI_STATIC_ASSERT(sizeof(bechullpi_one_pole) == 12, "bechullpi_one_pole");

// A filter after one sample, and its output.
typedef struct bechullpi_one_pole_output {
    bechullpi_one_pole filter;
    float out;
} bechullpi_one_pole_output;
BECHULLPI_STATIC_ASSERT(sizeof(bechullpi_one_pole_output) == 16, "bechullpi_one_pole_output");

typedef struct bechullpi_svf {
    float g;
    float r;
    float h;
    float state_1;
    float state_2;
} bechullpi_svf;
BECHULLPI_STATIC_ASSERT(sizeof(bechullpi_svf) == 20, "bechullpi_svf");

// A filter after one sample, and its output in one mode.
typedef struct bechullpi_svf_output {
    bechullpi_svf filter;
    float out;
} bechullpi_svf_output;
BECHULLPI_STATIC_ASSERT(sizeof(bechullpi_svf_output) == 24, "bechullpi_svf_output");

// A filter after one sample, and its outputs in two modes.
typedef struct bechullpi_svf_dual_output {
    bechullpi_svf filter;
    float out_1;
    float out_2;
} bechullpi_svf_dual_output;
BECHULLPI_STATIC_ASSERT(sizeof(bechullpi_svf_dual_output) == 28, "bechullpi_svf_dual_output");

// Every field zero, for `init` to overwrite.
bechullpi_one_pole bechullpi_filter_one_pole_zero(void);

bechullpi_one_pole bechullpi_filter_one_pole_init(bechullpi_one_pole filter);

bechullpi_one_pole bechullpi_filter_one_pole_reset(bechullpi_one_pole filter);

// The tangent of pi f, approximated.
float bechullpi_filter_one_pole_tan(float f, bechullpi_frequency_approximation approximation);

bechullpi_one_pole bechullpi_filter_one_pole_set_f(
    bechullpi_one_pole filter, float f, bechullpi_frequency_approximation approximation
);

// A band-pass mode gives 0.0.
bechullpi_one_pole_output bechullpi_filter_one_pole_process(bechullpi_one_pole filter, float in, bechullpi_filter_mode mode);

// Every field zero, for `init` to overwrite.
bechullpi_svf bechullpi_filter_svf_zero(void);

bechullpi_svf bechullpi_filter_svf_init(bechullpi_svf filter);

bechullpi_svf bechullpi_filter_svf_reset(bechullpi_svf filter);

// The settings of another filter.
bechullpi_svf bechullpi_filter_svf_set(bechullpi_svf filter, bechullpi_svf other);

bechullpi_svf bechullpi_filter_svf_set_g_r_h(bechullpi_svf filter, float g, float r, float h);

bechullpi_svf bechullpi_filter_svf_set_g_r(bechullpi_svf filter, float g, float r);

bechullpi_svf bechullpi_filter_svf_set_g_q(bechullpi_svf filter, float g, float resonance);

bechullpi_svf bechullpi_filter_svf_set_f_q(
    bechullpi_svf filter, float f, float resonance, bechullpi_frequency_approximation approximation
);

bechullpi_svf_output bechullpi_filter_svf_process(bechullpi_svf filter, float in, bechullpi_filter_mode mode);

// One sample, in two modes.
bechullpi_svf_dual_output bechullpi_filter_svf_process_dual(
    bechullpi_svf filter, float in, bechullpi_filter_mode mode_1, bechullpi_filter_mode mode_2
);

// As many samples as the shorter slice has; the rest of `out` keeps what it held.
bechullpi_svf bechullpi_filter_svf_process_buffer(
    bechullpi_svf filter, const float *in, size_t in_length, float *out, size_t out_length, bechullpi_filter_mode mode
);

// -------------------------------------------------------------------------------------------------------------------------------
// The 808 bass drum.

typedef struct bechullpi_analog_bass_drum {
    uint32_t pulse_remaining_samples;
    uint32_t fm_pulse_remaining_samples;
    float pulse;
    float pulse_height;
    float pulse_lp;
    float fm_pulse_lp;
    float retrig_pulse;
    float lp_out;
    float tone_lp;
    bechullpi_svf resonator;
    uint32_t trigger_pulse_duration;
    uint32_t fm_pulse_duration;
    float pulse_decay_time;
    float pulse_filter_time;
    float retrig_pulse_duration;
} bechullpi_analog_bass_drum;
BECHULLPI_STATIC_ASSERT(sizeof(bechullpi_analog_bass_drum) == 76, "bechullpi_analog_bass_drum");

// The number of the refusal, 0 for an accepted call, and the voice after the call.
typedef struct bechullpi_analog_bass_drum_answered {
    uint32_t number;
    bechullpi_analog_bass_drum voice;
} bechullpi_analog_bass_drum_answered;
BECHULLPI_STATIC_ASSERT(sizeof(bechullpi_analog_bass_drum_answered) == 80, "bechullpi_analog_bass_drum_answered");

typedef struct bechullpi_analog_bass_drum_knobs {
    float f0;
    float tone;
    float decay;
    float attack_fm_amount;
    float self_fm_amount;
} bechullpi_analog_bass_drum_knobs;
BECHULLPI_STATIC_ASSERT(sizeof(bechullpi_analog_bass_drum_knobs) == 20, "bechullpi_analog_bass_drum_knobs");

// Every field zero, for `init` to overwrite.
bechullpi_analog_bass_drum bechullpi_analog_bass_drum_zero(void);

// Refused by 1.
bechullpi_analog_bass_drum_answered bechullpi_analog_bass_drum_init(bechullpi_analog_bass_drum voice, float sample_rate_hz);

// Begins a sound: it renders no sample, sets no filter and draws no noise. Refused by 4.
bechullpi_analog_bass_drum_answered bechullpi_analog_bass_drum_strike(bechullpi_analog_bass_drum voice, float accent);

// Renders a block of it. Refused by 2, 3 and 5.
bechullpi_analog_bass_drum_answered bechullpi_analog_bass_drum_run(
    bechullpi_analog_bass_drum voice, bechullpi_analog_bass_drum_knobs knobs, float *out, size_t out_length
);

// -------------------------------------------------------------------------------------------------------------------------------
// The 808 snare drum.

typedef struct bechullpi_analog_snare_drum {
    uint32_t pulse_remaining_samples;
    float pulse;
    float pulse_height;
    float pulse_lp;
    float noise_envelope;
    bechullpi_svf resonator[5];
    bechullpi_svf noise_filter;
    uint32_t trigger_pulse_duration;
    uint32_t pulse_decay_time;
    uint32_t noise;
} bechullpi_analog_snare_drum;
BECHULLPI_STATIC_ASSERT(sizeof(bechullpi_analog_snare_drum) == 152, "bechullpi_analog_snare_drum");

// The number of the refusal, 0 for an accepted call, and the voice after the call.
typedef struct bechullpi_analog_snare_drum_answered {
    uint32_t number;
    bechullpi_analog_snare_drum voice;
} bechullpi_analog_snare_drum_answered;
BECHULLPI_STATIC_ASSERT(sizeof(bechullpi_analog_snare_drum_answered) == 156, "bechullpi_analog_snare_drum_answered");

typedef struct bechullpi_analog_snare_drum_knobs {
    float f0;
    float tone;
    float decay;
    float snappy;
} bechullpi_analog_snare_drum_knobs;
BECHULLPI_STATIC_ASSERT(sizeof(bechullpi_analog_snare_drum_knobs) == 16, "bechullpi_analog_snare_drum_knobs");

// Every field zero, for `init` to overwrite.
bechullpi_analog_snare_drum bechullpi_analog_snare_drum_zero(void);

// Refused by 1.
bechullpi_analog_snare_drum_answered bechullpi_analog_snare_drum_init(bechullpi_analog_snare_drum voice, float sample_rate_hz);

// Begins a sound: it renders no sample, sets no filter and draws no noise. Refused by 4.
bechullpi_analog_snare_drum_answered bechullpi_analog_snare_drum_strike(bechullpi_analog_snare_drum voice, float accent);

// Renders a block of it. Refused by 2, 3 and 5.
bechullpi_analog_snare_drum_answered bechullpi_analog_snare_drum_run(
    bechullpi_analog_snare_drum voice, bechullpi_analog_snare_drum_knobs knobs, float *out, size_t out_length
);

// -------------------------------------------------------------------------------------------------------------------------------
// The synthetic snare drum.

typedef struct bechullpi_synthetic_snare_drum {
    float sample_rate_hz;
    float phase[2];
    float drum_amplitude;
    float snare_amplitude;
    float fm;
    float sustain_gain;
    uint32_t hold_counter;
    bechullpi_one_pole drum_lp;
    bechullpi_one_pole snare_hp;
    bechullpi_svf snare_lp;
    uint32_t noise;
} bechullpi_synthetic_snare_drum;
BECHULLPI_STATIC_ASSERT(sizeof(bechullpi_synthetic_snare_drum) == 80, "bechullpi_synthetic_snare_drum");

// The number of the refusal, 0 for an accepted call, and the voice after the call.
typedef struct bechullpi_synthetic_snare_drum_answered {
    uint32_t number;
    bechullpi_synthetic_snare_drum voice;
} bechullpi_synthetic_snare_drum_answered;
BECHULLPI_STATIC_ASSERT(sizeof(bechullpi_synthetic_snare_drum_answered) == 84, "bechullpi_synthetic_snare_drum_answered");

// The parameters of a block.
typedef struct bechullpi_synthetic_snare_drum_knobs {
    bool sustain;
    float accent;
    float f0;
    float fm_amount;
    float decay;
    float snappy;
} bechullpi_synthetic_snare_drum_knobs;
BECHULLPI_STATIC_ASSERT(sizeof(bechullpi_synthetic_snare_drum_knobs) == 24, "bechullpi_synthetic_snare_drum_knobs");
BECHULLPI_STATIC_ASSERT(offsetof(bechullpi_synthetic_snare_drum_knobs, sustain) == 0, "bechullpi_synthetic_snare_drum_knobs.sustain");
BECHULLPI_STATIC_ASSERT(offsetof(bechullpi_synthetic_snare_drum_knobs, accent) == 4, "bechullpi_synthetic_snare_drum_knobs.accent");
BECHULLPI_STATIC_ASSERT(offsetof(bechullpi_synthetic_snare_drum_knobs, f0) == 8, "bechullpi_synthetic_snare_drum_knobs.f0");
BECHULLPI_STATIC_ASSERT(offsetof(bechullpi_synthetic_snare_drum_knobs, fm_amount) == 12, "bechullpi_synthetic_snare_drum_knobs.fm_amount");
BECHULLPI_STATIC_ASSERT(offsetof(bechullpi_synthetic_snare_drum_knobs, decay) == 16, "bechullpi_synthetic_snare_drum_knobs.decay");
BECHULLPI_STATIC_ASSERT(offsetof(bechullpi_synthetic_snare_drum_knobs, snappy) == 20, "bechullpi_synthetic_snare_drum_knobs.snappy");

// Every field zero, for `init` to overwrite.
bechullpi_synthetic_snare_drum bechullpi_synthetic_snare_drum_zero(void);

// Refused by 1.
bechullpi_synthetic_snare_drum_answered bechullpi_synthetic_snare_drum_init(
    bechullpi_synthetic_snare_drum voice, float sample_rate_hz
);

// Begins a sound: it renders no sample, sets no filter and draws no noise. Refused by 1, of the rate that the voice stores, 4 and
// 5.
bechullpi_synthetic_snare_drum_answered bechullpi_synthetic_snare_drum_strike(
    bechullpi_synthetic_snare_drum voice, float accent, float decay
);

// Renders a block of it. Refused by 1, of the rate that the voice stores, 2, 3, 4 and 5.
bechullpi_synthetic_snare_drum_answered bechullpi_synthetic_snare_drum_run(
    bechullpi_synthetic_snare_drum voice, bechullpi_synthetic_snare_drum_knobs knobs, float *out, size_t out_length
);

// -------------------------------------------------------------------------------------------------------------------------------
// The 808 hi-hat, and the square noise by itself.

typedef struct bechullpi_square_noise {
    uint32_t phase[6];
} bechullpi_square_noise;
BECHULLPI_STATIC_ASSERT(sizeof(bechullpi_square_noise) == 24, "bechullpi_square_noise");

typedef struct bechullpi_hihat {
    float sample_rate;
    float envelope;
    float noise_clock;
    float noise_sample;
    float sustain_gain;
    bechullpi_square_noise square_noise;
    bechullpi_svf noise_coloration_svf;
    bechullpi_svf hpf;
    uint32_t noise;
} bechullpi_hihat;
BECHULLPI_STATIC_ASSERT(sizeof(bechullpi_hihat) == 88, "bechullpi_hihat");

// The number of the refusal, 0 for an accepted call, and the voice after the call.
typedef struct bechullpi_hihat_answered {
    uint32_t number;
    bechullpi_hihat voice;
} bechullpi_hihat_answered;
BECHULLPI_STATIC_ASSERT(sizeof(bechullpi_hihat_answered) == 92, "bechullpi_hihat_answered");

// The parameters of a block, but for the kind of the VCA.
typedef struct bechullpi_hihat_knobs {
    bool sustain;
    float accent;
    float f0;
    float tone;
    float decay;
    float noisiness;
    bool resonance;
    bool two_stage_envelope;
} bechullpi_hihat_knobs;
BECHULLPI_STATIC_ASSERT(sizeof(bechullpi_hihat_knobs) == 28, "bechullpi_hihat_knobs");
BECHULLPI_STATIC_ASSERT(offsetof(bechullpi_hihat_knobs, sustain) == 0, "bechullpi_hihat_knobs.sustain");
BECHULLPI_STATIC_ASSERT(offsetof(bechullpi_hihat_knobs, accent) == 4, "bechullpi_hihat_knobs.accent");
BECHULLPI_STATIC_ASSERT(offsetof(bechullpi_hihat_knobs, f0) == 8, "bechullpi_hihat_knobs.f0");
BECHULLPI_STATIC_ASSERT(offsetof(bechullpi_hihat_knobs, tone) == 12, "bechullpi_hihat_knobs.tone");
BECHULLPI_STATIC_ASSERT(offsetof(bechullpi_hihat_knobs, decay) == 16, "bechullpi_hihat_knobs.decay");
BECHULLPI_STATIC_ASSERT(offsetof(bechullpi_hihat_knobs, noisiness) == 20, "bechullpi_hihat_knobs.noisiness");
BECHULLPI_STATIC_ASSERT(offsetof(bechullpi_hihat_knobs, resonance) == 24, "bechullpi_hihat_knobs.resonance");
BECHULLPI_STATIC_ASSERT(offsetof(bechullpi_hihat_knobs, two_stage_envelope) == 25, "bechullpi_hihat_knobs.two_stage_envelope");

// Every field zero, for `init` to overwrite.
bechullpi_hihat bechullpi_hihat_zero(void);

// Refused by 1.
bechullpi_hihat_answered bechullpi_hihat_init(bechullpi_hihat voice, float sample_rate);

// Begins a sound: it renders no sample, sets no filter and draws no noise. Refused by 1, of the rate that the voice stores, 4 and
// 5.
bechullpi_hihat_answered bechullpi_hihat_strike(bechullpi_hihat voice, float accent, float decay);

// Renders a block of it. The VCA is the swing one unless `linear` is set. Refused by 1, of the rate that the voice stores, 2, 3,
// 4 and 5.
bechullpi_hihat_answered bechullpi_hihat_run(
    bechullpi_hihat voice, bool linear, bechullpi_hihat_knobs knobs, float *out, size_t out_length
);

bechullpi_square_noise bechullpi_hihat_square_noise_zero(void);

bechullpi_square_noise bechullpi_hihat_square_noise_init(bechullpi_square_noise noise);

// Any f0 and any length: nothing is refused.
bechullpi_square_noise bechullpi_hihat_square_noise_render(bechullpi_square_noise noise, float f0, float *out, size_t out_length);

// -------------------------------------------------------------------------------------------------------------------------------
// The click and the hiss of the synthetic bass drum, each by itself, and both over a block.

typedef struct bechullpi_synthetic_bass_drum_click {
    float sample_rate_hz;
    float lp;
    float hp;
    bechullpi_svf filter;
} bechullpi_synthetic_bass_drum_click;
BECHULLPI_STATIC_ASSERT(sizeof(bechullpi_synthetic_bass_drum_click) == 32, "bechullpi_synthetic_bass_drum_click");

// The number of the refusal, 0 for an accepted call, and the click after the call.
typedef struct bechullpi_synthetic_bass_drum_click_answered {
    uint32_t number;
    bechullpi_synthetic_bass_drum_click click;
} bechullpi_synthetic_bass_drum_click_answered;
BECHULLPI_STATIC_ASSERT(sizeof(bechullpi_synthetic_bass_drum_click_answered) == 36, "bechullpi_synthetic_bass_drum_click_answered");

typedef struct bechullpi_synthetic_bass_drum_attack_noise {
    float lp;
    float hp;
} bechullpi_synthetic_bass_drum_attack_noise;
BECHULLPI_STATIC_ASSERT(sizeof(bechullpi_synthetic_bass_drum_attack_noise) == 8, "bechullpi_synthetic_bass_drum_attack_noise");

// The Rust's `transient`, click plus hiss, by itself, with the noise state that the hiss draws from.
typedef struct bechullpi_synthetic_bass_drum_transient {
    bechullpi_synthetic_bass_drum_click click;
    bechullpi_synthetic_bass_drum_attack_noise attack_noise;
    uint32_t noise;
} bechullpi_synthetic_bass_drum_transient;
BECHULLPI_STATIC_ASSERT(sizeof(bechullpi_synthetic_bass_drum_transient) == 44, "bechullpi_synthetic_bass_drum_transient");

// The number of the refusal, 0 for an accepted call, and the transient after the call.
typedef struct bechullpi_synthetic_bass_drum_transient_answered {
    uint32_t number;
    bechullpi_synthetic_bass_drum_transient transient;
} bechullpi_synthetic_bass_drum_transient_answered;
BECHULLPI_STATIC_ASSERT(sizeof(bechullpi_synthetic_bass_drum_transient_answered) == 48, "bechullpi_synthetic_bass_drum_transient_answered");

// A click after one sample, and its output.
typedef struct bechullpi_synthetic_bass_drum_click_output {
    bechullpi_synthetic_bass_drum_click click;
    float out;
} bechullpi_synthetic_bass_drum_click_output;
BECHULLPI_STATIC_ASSERT(sizeof(bechullpi_synthetic_bass_drum_click_output) == 36, "bechullpi_synthetic_bass_drum_click_output");

// A hiss after one sample, the noise state after its draw, and its output.
typedef struct bechullpi_synthetic_bass_drum_attack_noise_output {
    bechullpi_synthetic_bass_drum_attack_noise attack_noise;
    uint32_t noise;
    float out;
} bechullpi_synthetic_bass_drum_attack_noise_output;
BECHULLPI_STATIC_ASSERT(sizeof(bechullpi_synthetic_bass_drum_attack_noise_output) == 16, "bechullpi_synthetic_bass_drum_attack_noise_output");

// Every field zero, for `init` to overwrite.
bechullpi_synthetic_bass_drum_click bechullpi_synthetic_bass_drum_click_zero(void);

// Refused by 1.
bechullpi_synthetic_bass_drum_click_answered bechullpi_synthetic_bass_drum_click_init(
    bechullpi_synthetic_bass_drum_click click, float sample_rate_hz
);

// One sample. The click is what a rise of `in` from 0.0 to 1.0 gives.
bechullpi_synthetic_bass_drum_click_output bechullpi_synthetic_bass_drum_click_process(
    bechullpi_synthetic_bass_drum_click click, float in
);

bechullpi_synthetic_bass_drum_attack_noise bechullpi_synthetic_bass_drum_attack_noise_zero(void);

bechullpi_synthetic_bass_drum_attack_noise bechullpi_synthetic_bass_drum_attack_noise_init(
    bechullpi_synthetic_bass_drum_attack_noise attack_noise
);

// One sample. The noise state goes in and comes back; 33 is the one to begin with.
bechullpi_synthetic_bass_drum_attack_noise_output bechullpi_synthetic_bass_drum_attack_noise_render(
    bechullpi_synthetic_bass_drum_attack_noise attack_noise, uint32_t noise
);

// Every field zero, for `init` to overwrite.
bechullpi_synthetic_bass_drum_transient bechullpi_synthetic_bass_drum_transient_zero(void);

// Both parts, and the noise state at 33. Refused by 1.
bechullpi_synthetic_bass_drum_transient_answered bechullpi_synthetic_bass_drum_transient_init(
    bechullpi_synthetic_bass_drum_transient transient, float sample_rate_hz
);

// Renders a block, click plus hiss: the click is fed 0.0 for its first n samples and 1.0 afterwards. Refused by 2.
bechullpi_synthetic_bass_drum_transient_answered bechullpi_synthetic_bass_drum_transient_render(
    bechullpi_synthetic_bass_drum_transient transient, size_t n, float *out, size_t out_length
);

// -------------------------------------------------------------------------------------------------------------------------------
// Cue sheets.

// The answer to a sheet. An accepted one has number 0 and line 0; of a refused one rate, length and cues are 0.
typedef struct bechullpi_sheet_answered {
    uint32_t number;
    uint32_t line;
    uint32_t rate;
    uint32_t length;
    uint32_t cues;
} bechullpi_sheet_answered;
BECHULLPI_STATIC_ASSERT(sizeof(bechullpi_sheet_answered) == 20, "bechullpi_sheet_answered");

// A sheet rendered into the first places of a buffer. The others stay as they were, and so do all of them where the sheet is
// refused.
bechullpi_sheet_answered bechullpi_sheet(const uint8_t *sheet, size_t sheet_length, float *out, size_t out_length);

#ifdef __cplusplus
}
#endif

#endif
