// Answers rows from standard input, so that any oracle can drive the four voices, and click and hiss. A row is a call, or two, on the record that the voice's last
// row left; before the first row every record is zero. It has 79 bytes with its line end, parted by single spaces; its numbers have lower-case hexadecimal digits.
//
//     row     V K FF NNNNNNNN W1 W2 W3 W4 W5 W6 SSSSSSSS
//     answer  RR SSSSSSSS DDDDDDDD TTTTTTTT
//
//     V   b s y h: analog bass drum, analog snare drum, synthetic snare drum, hi-hat; c: click plus hiss of the synthetic bass drum
//     K   n, a record with every field zero; i, init; k, strike; r, run, or with the flag trigger strike and then run, and of c its block; there is no k of c
//     FF  flags: 1 sustain, 2 trigger, 4 linear VCA, 8 resonance, 10 two-stage envelope
//     N   samples        W   patterns of floats        S   the noise state of the voice's record after the row, 0 for b; that of a row is read by r of c alone
//     R   the number of the first refusal, 00 for an accepted row        D, T   the digests of the samples and of the voice's state
//
// The words of `init` are the rate and five that it does not read; those of `strike` and `run` are accent, f0, a, decay, c and the bass drum's self_fm_amount,
// with a and c as on a cue line. A strike reads accent and, of y and h, decay; a run of b and s all but accent, one of y and h accent too; the sixth is read by a
// run of b alone. A refused strike is not followed by its run; a refused run leaves the struck record. A block of c reads no words: its click is fed 0.0 for the
// first S samples, and 1.0 afterwards. Flags that a call has no use for change nothing. Rows `n`, `i` and `k` render nothing, whatever their N. An N above
// 00004001, flags above 1f and a last line without its line end are malformed, as any other text that is no row: such a line gets `refused,8,K`, K its number
// from 1, and none is read after it.
#include "bechullpi.h"

#include <inttypes.h>
#include <math.h>
#include <stdio.h>
#include <string.h>

enum { ROW_BYTES = 79, MOST_SAMPLES = 0x4001, MOST_FLAGS = 0x1f, WORDS = 6 };

typedef struct {
    char voice;
    char call;
    bool sustain, trigger, linear, resonance, two_stage_envelope;
    size_t samples;
    float words[WORDS];
    size_t n;
} row;

typedef struct {
    bechullpi_analog_bass_drum bass;
    bechullpi_analog_snare_drum snare;
    bechullpi_synthetic_snare_drum synthetic_snare;
    bechullpi_hihat hihat;
    bechullpi_synthetic_bass_drum_transient transient;
} voices;

typedef struct {
    uint32_t refusal, noise, samples, state;
} reply;

// A row, read.

// Whether all are hexadecimal digits in lower case, and what they stand for.
static bool number(const char *text, size_t digits, uint32_t *value)
{
    *value = 0;
    for (size_t i = 0; i < digits; i++) {
        const char *digit = text[i] == '\0' ? NULL : strchr("0123456789abcdef", text[i]);
        if (digit == NULL)
            return false;
        *value = *value * 16 + (uint32_t)(digit[0] <= '9' ? digit[0] - '0' : digit[0] - 'a' + 10);
    }
    return true;
}

// Whether each part of a line ends in a space, and the last in a line end.
static bool is_parted(const char *line)
{
    static const unsigned char spaces[] = {1, 3, 6, 15, 24, 33, 42, 51, 60, 69};
    for (size_t i = 0; i < sizeof spaces; i++)
        if (line[spaces[i]] != ' ')
            return false;
    return line[ROW_BYTES - 1] == '\n';
}

static bool is_one_of(const char *letters, char c)
{
    return c != '\0' && strchr(letters, c) != NULL;
}

// Behind the words are the digits of S. The records have their noise states: only a block of c reads it, as its n.
static bool read_words(const char *line, row *r)
{
    uint32_t word;
    for (size_t i = 0; i < WORDS; i++) {
        if (!number(line + 16 + 9 * i, 8, &word))
            return false;
        memcpy(&r->words[i], &word, sizeof word);
    }
    if (!number(line + 70, 8, &word))
        return false;
    r->n = word;
    return true;
}

// Whether a line of ROW_BYTES is a row, and the row.
static bool read_row(const char *line, row *r)
{
    uint32_t flags, samples;
    if (!is_parted(line) || !is_one_of("bsyhc", line[0]) || !is_one_of(line[0] == 'c' ? "nir" : "nikr", line[2]))
        return false;
    if (!number(line + 4, 2, &flags) || flags > MOST_FLAGS || !number(line + 7, 8, &samples) || samples > MOST_SAMPLES)
        return false;
    r->voice = line[0];
    r->call = line[2];
    r->sustain = flags & 1;
    r->trigger = flags & 2;
    r->linear = flags & 4;
    r->resonance = flags & 8;
    r->two_stage_envelope = flags & 0x10;
    r->samples = samples;
    return read_words(line, r);
}

// Digests of 32 bits. That of a state has the fields in their order, nested ones in place, without the noise state, which the answer has by itself.

static const uint32_t START = 2166136261u; // of no word

static uint32_t of_word(uint32_t h, uint32_t word)
{
    return (h ^ word) * 16777619u;
}

// A NaN has one pattern here, whichever the machine made.
static uint32_t of_float(uint32_t h, float x)
{
    uint32_t pattern = 0x7fc00000;
    if (!isnan(x))
        memcpy(&pattern, &x, sizeof pattern);
    return of_word(h, pattern);
}

static uint32_t of_words(uint32_t h, const uint32_t *words, size_t count)
{
    for (size_t i = 0; i < count; i++)
        h = of_word(h, words[i]);
    return h;
}

static uint32_t of_floats(uint32_t h, const float *xs, size_t count)
{
    for (size_t i = 0; i < count; i++)
        h = of_float(h, xs[i]);
    return h;
}

static uint32_t of_one_pole(uint32_t h, const bechullpi_one_pole *f)
{
    return of_floats(h, (const float[]){f->g, f->gi, f->state}, 3);
}

static uint32_t of_svf(uint32_t h, const bechullpi_svf *f)
{
    return of_floats(h, (const float[]){f->g, f->r, f->h, f->state_1, f->state_2}, 5);
}

static uint32_t of_bass(const bechullpi_analog_bass_drum *v)
{
    uint32_t h = of_words(START, (const uint32_t[]){v->pulse_remaining_samples, v->fm_pulse_remaining_samples}, 2);
    h = of_floats(h, (const float[]){v->pulse, v->pulse_height, v->pulse_lp, v->fm_pulse_lp, v->retrig_pulse, v->lp_out, v->tone_lp}, 7);
    h = of_svf(h, &v->resonator);
    h = of_words(h, (const uint32_t[]){v->trigger_pulse_duration, v->fm_pulse_duration}, 2);
    return of_floats(h, (const float[]){v->pulse_decay_time, v->pulse_filter_time, v->retrig_pulse_duration}, 3);
}

static uint32_t of_snare(const bechullpi_analog_snare_drum *v)
{
    uint32_t h = of_word(START, v->pulse_remaining_samples);
    h = of_floats(h, (const float[]){v->pulse, v->pulse_height, v->pulse_lp, v->noise_envelope}, 4);
    for (size_t i = 0; i < 5; i++)
        h = of_svf(h, &v->resonator[i]);
    h = of_svf(h, &v->noise_filter);
    return of_words(h, (const uint32_t[]){v->trigger_pulse_duration, v->pulse_decay_time}, 2);
}

static uint32_t of_synthetic_snare(const bechullpi_synthetic_snare_drum *v)
{
    uint32_t h = of_float(START, v->sample_rate_hz);
    h = of_floats(h, v->phase, 2);
    h = of_floats(h, (const float[]){v->drum_amplitude, v->snare_amplitude, v->fm, v->sustain_gain}, 4);
    h = of_word(h, v->hold_counter);
    h = of_one_pole(h, &v->drum_lp);
    h = of_one_pole(h, &v->snare_hp);
    return of_svf(h, &v->snare_lp);
}

static uint32_t of_hihat(const bechullpi_hihat *v)
{
    uint32_t h = of_floats(START, (const float[]){v->sample_rate, v->envelope, v->noise_clock, v->noise_sample, v->sustain_gain}, 5);
    h = of_words(h, v->square_noise.phase, 6);
    h = of_svf(h, &v->noise_coloration_svf);
    return of_svf(h, &v->hpf);
}

static uint32_t of_transient(const bechullpi_synthetic_bass_drum_transient *t)
{
    uint32_t h = of_floats(START, (const float[]){t->click.sample_rate_hz, t->click.lp, t->click.hp}, 3);
    h = of_svf(h, &t->click.filter);
    return of_floats(h, (const float[]){t->attack_noise.lp, t->attack_noise.hp}, 2);
}

// A row answered by its voice, whose record becomes the one after the row.

static float out[MOST_SAMPLES];

static bool has_strike(const row *r)
{
    return r->call == 'k' || (r->call == 'r' && r->trigger);
}

// The digest of what a row rendered: of no word where nothing ran.
static uint32_t of_rendered(const row *r, uint32_t refusal)
{
    return of_floats(START, out, r->call == 'r' && refusal == 0 ? r->samples : 0);
}

// The calls of a row in turn, each on the voice that the one before answered; the first refusal ends them. `strike` and `run` are the arguments of these two, and
// the knobs come last. All are in the function's own names: the record `v`, the row `r`, its words `w`, the answer so far `a`.
#define PLAY(name, noise_state, of_state, strike, run, ...) \
    static reply play_##name(bechullpi_##name *v, const row *r) \
    { \
        const float *w = r->words; \
        bechullpi_##name##_knobs knobs = {__VA_ARGS__}; \
        bechullpi_##name##_answered a = {0, *v}; \
        if (r->call == 'n') \
            a.voice = bechullpi_##name##_zero(); \
        if (r->call == 'i') \
            a = bechullpi_##name##_init(a.voice, w[0]); \
        if (has_strike(r)) \
            a = bechullpi_##name##_strike strike; \
        if (r->call == 'r' && a.number == 0) \
            a = bechullpi_##name##_run run; \
        *v = a.voice; \
        return (reply){a.number, noise_state, of_rendered(r, a.number), of_state(v)}; \
    }

PLAY(analog_bass_drum, 0, of_bass, (a.voice, w[0]), (a.voice, knobs, out, r->samples),
     .f0 = w[1], .tone = w[2], .decay = w[3], .attack_fm_amount = w[4], .self_fm_amount = w[5])

PLAY(analog_snare_drum, v->noise, of_snare, (a.voice, w[0]), (a.voice, knobs, out, r->samples),
     .f0 = w[1], .tone = w[2], .decay = w[3], .snappy = w[4])

PLAY(synthetic_snare_drum, v->noise, of_synthetic_snare, (a.voice, w[0], w[3]), (a.voice, knobs, out, r->samples),
     .sustain = r->sustain, .accent = w[0], .f0 = w[1], .fm_amount = w[2], .decay = w[3], .snappy = w[4])

PLAY(hihat, v->noise, of_hihat, (a.voice, w[0], w[3]), (a.voice, r->linear, knobs, out, r->samples),
     .sustain = r->sustain, .accent = w[0], .f0 = w[1], .tone = w[2], .decay = w[3], .noisiness = w[4],
     .resonance = r->resonance, .two_stage_envelope = r->two_stage_envelope)

static reply play_transient(bechullpi_synthetic_bass_drum_transient *t, const row *r)
{
    bechullpi_synthetic_bass_drum_transient_answered a = {0, *t};
    if (r->call == 'n')
        a.transient = bechullpi_synthetic_bass_drum_transient_zero();
    if (r->call == 'i')
        a = bechullpi_synthetic_bass_drum_transient_init(a.transient, r->words[0]);
    if (r->call == 'r')
        a = bechullpi_synthetic_bass_drum_transient_render(a.transient, r->n, out, r->samples);
    *t = a.transient;
    return (reply){a.number, t->noise, of_rendered(r, a.number), of_transient(t)};
}

static reply play(voices *v, const row *r)
{
    switch (r->voice) {
    case 'b':
        return play_analog_bass_drum(&v->bass, r);
    case 's':
        return play_analog_snare_drum(&v->snare, r);
    case 'y':
        return play_synthetic_snare_drum(&v->synthetic_snare, r);
    case 'h':
        return play_hihat(&v->hihat, r);
    default:
        return play_transient(&v->transient, r);
    }
}

int main(void)
{
    voices v = {
        bechullpi_analog_bass_drum_zero(),
        bechullpi_analog_snare_drum_zero(),
        bechullpi_synthetic_snare_drum_zero(),
        bechullpi_hihat_zero(),
        bechullpi_synthetic_bass_drum_transient_zero(),
    };
    char line[ROW_BYTES];
    row r;
    for (uint64_t k = 1;; k++) {
        size_t bytes = fread(line, 1, sizeof line, stdin);
        if (bytes == 0)
            return 0;
        if (bytes < sizeof line || !read_row(line, &r)) {
            printf("refused,8,%" PRIu64 "\n", k);
            return 0;
        }
        reply p = play(&v, &r);
        printf("%02" PRIu32 " %08" PRIx32 " %08" PRIx32 " %08" PRIx32 "\n", p.refusal, p.noise, p.samples, p.state);
        if (fflush(stdout) != 0) // each answer before the next row is read: the driver may wait for it
            return 0;
    }
}
