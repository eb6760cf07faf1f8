// A console in small: a stick, which knows when, and a sound loop, which knows how many. The stick queues strikes. The sound loop takes them at the start of a
// block, strikes the four voices, runs each over 64 samples, adds them and the click of a stick that is let go, limits the sum and hands it out. It is the
// model of how the library is used.
// console/recorded/example is what it printed, and has to print: that file comes from the library itself, so it shows that records cross whole and that nothing
// has changed; that the samples are right is shown by the proofs and by oracle/.
#include "bechullpi.h"

#include <inttypes.h>
#include <stdatomic.h>
#include <stdio.h>
#include <string.h>

enum { BLOCK = 64, BLOCKS = 750 }; // a second
enum { CUE = 14400 };              // 0.3 seconds
enum { LONGEST = 16384 };          // of a block, and of a sheet
static const float RATE = 48000.0f;
static const float DECAY = 0.4f; // of the synthetic snare and the hi-hat on the ride, struck and run

// ---- the queue

enum { BASS, SNARE, SYNTHETIC_SNARE, HIHAT, CLICK, SOUNDS };

// What a strike takes; the analog voices take no decay. The click has no strike: accent is its level when the stick is let go.
typedef struct {
    float accent, decay;
} strike;

// All that the stick and the sound loop have in common: for each sound the strike that waits. The stick alone puts, the sound loop alone takes. A strike is one
// word, so nobody meets half of one, and there is no lock to wait for. A sound needs one place, so the queue is never full: of accepted strikes with no run
// between them the last counts, so a new one takes the place of one that waits, and nothing that would be heard is lost. A click begins where a block does, so it
// needs no second place either. What is put must be in range: a strike that will be refused would take the place of one that would be heard.
typedef struct {
    _Atomic uint64_t waiting[SOUNDS];
} queue;

_Static_assert(sizeof(strike) == sizeof(uint64_t), "a strike is one word");
_Static_assert(ATOMIC_LONG_LOCK_FREE == 2, "an atomic word needs no lock");

static const uint64_t NOTHING = UINT64_MAX; // no accepted strike: it would be of two NaNs

static void make_empty(queue *q)
{
    for (int sound = 0; sound < SOUNDS; sound++)
        atomic_init(&q->waiting[sound], NOTHING);
}

static void put(queue *q, int sound, strike s)
{
    uint64_t word;
    memcpy(&word, &s, sizeof word);
    atomic_store(&q->waiting[sound], word);
}

static bool take(queue *q, int sound, strike *s)
{
    uint64_t word = atomic_exchange(&q->waiting[sound], NOTHING);
    memcpy(s, &word, sizeof word);
    return word != NOTHING;
}

// ---- the stick's side

// The stick, asked once a block: what the crawler met, whether the stick was let go, and how fast the crawler went, from 0 to 1.
typedef struct {
    bool joint, grit, stone, slip, let_go;
    float speed;
} stick;

// A ride on paper in the place of a real one.
static stick read_stick(int block)
{
    return (stick){
        .joint = block % 190 == 0,
        .grit = block % 75 == 40,
        .stone = block % 300 == 110,
        .slip = block >= 400 && block % 35 == 15,
        .let_go = block % 240 == 150,
        .speed = (float)block / BLOCKS,
    };
}

// No record is here, and no call of a voice: they are the sound loop's.
static void move_stick(queue *q, int block)
{
    stick now = read_stick(block);
    strike s = {.accent = 0.5f + 0.5f * now.speed, .decay = DECAY};
    if (now.joint)
        put(q, BASS, s);
    if (now.grit)
        put(q, SNARE, s);
    if (now.stone)
        put(q, SYNTHETIC_SNARE, s);
    if (now.slip)
        put(q, HIHAT, s);
    if (now.let_go)
        put(q, CLICK, s);
}

// ---- the sound loop's side

// The click and the hiss, with what their record does not hold.
typedef struct {
    bechullpi_synthetic_bass_drum_transient transient;
    float level; // fades once the stick is let go, since the hiss goes on by itself; 0.0 while nothing of it is to be heard
} click;

// What the sound loop keeps between blocks: the records. Each sound that draws noise has the state of it in its own.
typedef struct {
    bechullpi_analog_bass_drum bass;
    bechullpi_analog_snare_drum snare;
    bechullpi_synthetic_snare_drum synthetic_snare;
    bechullpi_hihat hihat;
    click click;
} kit;

typedef struct {
    uint32_t digest, limited;
    float largest;
} heard;

// From the zero records. An answer other than 0 is a rate out of range: the kit is not to be played.
static uint32_t start(kit *k)
{
    bechullpi_analog_bass_drum_answered b = bechullpi_analog_bass_drum_init(bechullpi_analog_bass_drum_zero(), RATE);
    bechullpi_analog_snare_drum_answered s = bechullpi_analog_snare_drum_init(bechullpi_analog_snare_drum_zero(), RATE);
    bechullpi_synthetic_snare_drum_answered y = bechullpi_synthetic_snare_drum_init(bechullpi_synthetic_snare_drum_zero(), RATE);
    bechullpi_hihat_answered h = bechullpi_hihat_init(bechullpi_hihat_zero(), RATE);
    bechullpi_synthetic_bass_drum_transient_answered t =
        bechullpi_synthetic_bass_drum_transient_init(bechullpi_synthetic_bass_drum_transient_zero(), RATE);
    *k = (kit){b.voice, s.voice, y.voice, h.voice, {t.transient, 0.0f}};
    return b.number ? b.number : s.number ? s.number : y.number ? y.number : h.number ? h.number : t.number;
}

// The voices for which a strike waits, struck, and the click begun. A refused strike leaves the record as it was.
static uint32_t strike_kit(kit *k, queue *q)
{
    bechullpi_analog_bass_drum_answered b = {0, k->bass};
    bechullpi_analog_snare_drum_answered s = {0, k->snare};
    bechullpi_synthetic_snare_drum_answered y = {0, k->synthetic_snare};
    bechullpi_hihat_answered h = {0, k->hihat};
    strike now;
    if (take(q, BASS, &now))
        b = bechullpi_analog_bass_drum_strike(k->bass, now.accent);
    if (take(q, SNARE, &now))
        s = bechullpi_analog_snare_drum_strike(k->snare, now.accent);
    if (take(q, SYNTHETIC_SNARE, &now))
        y = bechullpi_synthetic_snare_drum_strike(k->synthetic_snare, now.accent, now.decay);
    if (take(q, HIHAT, &now))
        h = bechullpi_hihat_strike(k->hihat, now.accent, now.decay);
    if (take(q, CLICK, &now))
        k->click.level = now.accent;
    *k = (kit){b.voice, s.voice, y.voice, h.voice, k->click};
    return b.number ? b.number : s.number ? s.number : y.number ? y.number : h.number;
}

// One block of every voice, each into its own part. No voice hears of another; a refused run leaves record and part as they were. Accent is asked of y and h in
// every run, and makes a difference only in one that sustains: none does here.
static uint32_t run_kit(kit *k, float part[SOUNDS][BLOCK])
{
    bechullpi_analog_bass_drum_answered b = bechullpi_analog_bass_drum_run(
        k->bass,
        (bechullpi_analog_bass_drum_knobs){.f0 = 55.0f / RATE, .tone = 0.3f, .decay = 0.5f, .attack_fm_amount = 0.4f, .self_fm_amount = 0.2f},
        part[BASS], BLOCK);
    bechullpi_analog_snare_drum_answered s = bechullpi_analog_snare_drum_run(
        k->snare, (bechullpi_analog_snare_drum_knobs){.f0 = 180.0f / RATE, .tone = 0.4f, .decay = 0.3f, .snappy = 0.7f}, part[SNARE], BLOCK);
    bechullpi_synthetic_snare_drum_answered y = bechullpi_synthetic_snare_drum_run(
        k->synthetic_snare,
        (bechullpi_synthetic_snare_drum_knobs){.accent = 1.0f, .f0 = 210.0f / RATE, .fm_amount = 0.5f, .decay = DECAY, .snappy = 0.8f},
        part[SYNTHETIC_SNARE], BLOCK);
    bechullpi_hihat_answered h = bechullpi_hihat_run(
        k->hihat, BECHULLPI_SWING_VCA,
        (bechullpi_hihat_knobs){.accent = 1.0f, .f0 = 420.0f / RATE, .tone = 0.6f, .decay = DECAY, .noisiness = 0.5f, .resonance = true},
        part[HIHAT], BLOCK);
    *k = (kit){b.voice, s.voice, y.voice, h.voice, k->click};
    return b.number ? b.number : s.number ? s.number : y.number ? y.number : h.number;
}

// One block of click and hiss at their level. Here the stick is let go where a block begins: from then on the click is fed 1.0, until the level has faded, and
// otherwise 0.0. A console that knows the sample at which it was let go gives that for n. The level fades as the Rust's envelope does before that is smoothed, and
// ends below half a step of a converter of 24 bits: it would come to subnormal numbers, which are slow.
static uint32_t render_click(click *c, float part[BLOCK])
{
    size_t n = c->level > 0.0f ? 0 : BLOCK;
    bechullpi_synthetic_bass_drum_transient_answered t = bechullpi_synthetic_bass_drum_transient_render(c->transient, n, part, BLOCK);
    if (t.number != 0)
        return t.number;
    c->transient = t.transient;
    for (int i = 0; i < BLOCK; i++) {
        part[i] *= c->level;
        c->level = c->level < 0x1p-24f ? 0.0f : c->level * (1.0f - 1.0f / (0.005f * RATE));
    }
    return 0;
}

static const uint32_t FIRST_DIGEST = 2166136261u;

static uint32_t digest(uint32_t h, float sample)
{
    uint32_t pattern;
    memcpy(&pattern, &sample, sizeof pattern);
    return (h ^ pattern) * 16777619u;
}

// The converter takes -1 to 1 and neither voices nor click keep to that: limit first.
static void put_out(heard *to, float part[SOUNDS][BLOCK])
{
    for (int i = 0; i < BLOCK; i++) {
        float sum = part[BASS][i] + part[SNARE][i] + part[SYNTHETIC_SNARE][i] + part[HIHAT][i] + part[CLICK][i];
        float size = bechullpi_ieee754_abs(sum);
        to->limited += size > 1.0f;
        to->largest = bechullpi_ieee754_maximum_number(to->largest, size);
        to->digest = digest(to->digest, bechullpi_ieee754_clamp(sum, -1.0f, 1.0f));
    }
}

// What waits at the start of a block is struck, then the block is run. A refused strike leaves its record as it was, so the block is run all the same; one whose
// run is refused is not handed out, and a console would hand out silence in its place.
static uint32_t play_block(kit *k, queue *q, heard *to)
{
    static float part[SOUNDS][BLOCK];
    uint32_t struck = strike_kit(k, q);
    uint32_t ran = run_kit(k, part);
    uint32_t rendered = render_click(&k->click, part[CLICK]);
    if (ran == 0 && rendered == 0)
        put_out(to, part);
    return struck ? struck : ran ? ran : rendered;
}

// ---- the ride

// Both sides in turn, so that every ride sounds the same. They have nothing in common but the queue, and could as well run in two threads: `move_stick` when
// the stick is read, `play_block` when the sound card wants a block.
static uint32_t ride(kit *k)
{
    queue q;
    heard all = {FIRST_DIGEST, 0, 0.0f};
    make_empty(&q);
    for (int block = 0; block < BLOCKS; block++) {
        move_stick(&q, block);
        uint32_t number = play_block(k, &q, &all);
        if (number != 0)
            return number;
    }
    printf("%d samples, digest %08" PRIx32 "\n", BLOCK * BLOCKS, all.digest);
    printf("noise %08" PRIx32 ", %08" PRIx32 ", %08" PRIx32, k->snare.noise, k->synthetic_snare.noise, k->hihat.noise);
    printf(" and %08" PRIx32 "\n", k->click.transient.noise);
    printf("%" PRIu32 " were limited, the largest was %.6f\n", all.limited, all.largest);
    return 0;
}

// ---- single calls

static uint32_t digest_of(const float *samples, size_t count)
{
    uint32_t h = FIRST_DIGEST;
    for (size_t i = 0; i < count; i++)
        h = digest(h, samples[i]);
    return h;
}

// What an unfit call does: here accent is above 1.
static void be_refused(const kit *k)
{
    float out[BLOCK] = {0.25f}, before[BLOCK] = {0.25f};
    bechullpi_hihat_knobs knobs = {.accent = 1.5f, .f0 = 0.01f, .tone = 0.5f, .decay = 0.5f, .noisiness = 0.5f};
    bechullpi_hihat_answered h = bechullpi_hihat_run(k->hihat, BECHULLPI_LINEAR_VCA, knobs, out, BLOCK);
    bool kept = memcmp(&h.voice, &k->hihat, sizeof h.voice) == 0 && memcmp(out, before, sizeof out) == 0;
    printf("an accent of 1.5 is refused by %" PRIu32 "; the rest is %s\n", h.number, kept ? "as it was" : "CHANGED");
}

static bechullpi_hihat_knobs slip(void)
{
    return (bechullpi_hihat_knobs){.accent = 0.8f, .f0 = 420.0f / RATE, .tone = 0.6f, .decay = 0.6f, .noisiness = 0.5f, .resonance = true};
}

static bechullpi_hihat_answered struck(void)
{
    bechullpi_hihat_answered h = bechullpi_hihat_init(bechullpi_hihat_zero(), RATE);
    return h.number ? h : bechullpi_hihat_strike(h.voice, slip().accent, slip().decay);
}

// A strike, a run that is refused, and a good run: the strike stands, so the good run sounds as if it came straight after the strike.
static void be_refused_once_struck(void)
{
    float late[BLOCK] = {0.0f}, straight[BLOCK] = {0.0f};
    bechullpi_hihat_knobs unfit = slip();
    unfit.f0 = 0.75f;
    bechullpi_hihat_answered h = struck();
    bechullpi_hihat_answered refused = bechullpi_hihat_run(h.voice, BECHULLPI_SWING_VCA, unfit, late, BLOCK);
    bechullpi_hihat_answered good = bechullpi_hihat_run(refused.voice, BECHULLPI_SWING_VCA, slip(), late, BLOCK);
    bechullpi_hihat_answered alone = bechullpi_hihat_run(h.voice, BECHULLPI_SWING_VCA, slip(), straight, BLOCK);
    printf("a strike is answered %" PRIu32 ", and a run at f0 0.75 is refused by %" PRIu32 "\n", h.number, refused.number);
    printf("the run after that is answered %" PRIu32 ": digest %08" PRIx32 "\n", good.number, digest_of(late, BLOCK));
    printf("straight after the strike it is answered %" PRIu32 ": digest %08" PRIx32 "\n", alone.number, digest_of(straight, BLOCK));
}

// Why the queue has one place for a voice: here the first of two strikes is louder and shorter than the second.
static void be_struck_twice(void)
{
    bechullpi_hihat_answered unstruck = bechullpi_hihat_init(bechullpi_hihat_zero(), RATE);
    bechullpi_hihat_answered first = bechullpi_hihat_strike(unstruck.voice, 1.0f, 0.1f);
    bechullpi_hihat_answered second = bechullpi_hihat_strike(first.voice, slip().accent, slip().decay);
    bechullpi_hihat_answered alone = struck();
    bool same = memcmp(&second.voice, &alone.voice, sizeof alone.voice) == 0;
    printf("two strikes in a row leave %s\n", same ? "what the last leaves alone" : "SOMETHING ELSE");
}

// One cue in blocks of a length, the last one shorter where that does not divide: a strike, and then runs with the same knobs, the record handed on. Nothing is
// sustained, so it is the same cue at every length from 1 to 16,384.
static void play_cue(size_t length)
{
    static float out[CUE];
    bechullpi_hihat_answered h = struck();
    for (size_t at = 0; at < CUE && h.number == 0; at += length) {
        size_t left = CUE - at;
        h = bechullpi_hihat_run(h.voice, BECHULLPI_SWING_VCA, slip(), out + at, left < length ? left : length);
    }
    uint32_t d = digest_of(out, CUE);
    printf("a cue in blocks of %zu is answered %" PRIu32 ": digest %08" PRIx32 ", noise %08" PRIx32 "\n", length, h.number, d, h.voice.noise);
}

// A click in blocks of a length is the same at every length too. The stick is let go at sample 480: a block that ends before leaves the rest of that to the next
// one, and the record is handed on.
static void play_click(size_t length)
{
    static float out[CUE];
    size_t n = 480;
    bechullpi_synthetic_bass_drum_transient_answered t =
        bechullpi_synthetic_bass_drum_transient_init(bechullpi_synthetic_bass_drum_transient_zero(), RATE);
    for (size_t at = 0; at < CUE && t.number == 0; at += length) {
        size_t left = CUE - at, block = left < length ? left : length;
        t = bechullpi_synthetic_bass_drum_transient_render(t.transient, n, out + at, block);
        n = n < block ? 0 : n - block;
    }
    uint32_t d = digest_of(out, CUE);
    printf("a click in blocks of %zu is answered %" PRIu32 ": digest %08" PRIx32 ", noise %08" PRIx32 "\n", length, t.number, d, t.transient.noise);
}

// The one question that the click's blocks are asked.
static void be_refused_for_length(const kit *k)
{
    static float out[LONGEST + 1], before[LONGEST + 1];
    for (size_t i = 0; i <= LONGEST; i++)
        out[i] = before[i] = 0.25f;
    bechullpi_synthetic_bass_drum_transient was = k->click.transient;
    bechullpi_synthetic_bass_drum_transient_answered t = bechullpi_synthetic_bass_drum_transient_render(was, 0, out, LONGEST + 1);
    bool kept = memcmp(&t.transient, &was, sizeof was) == 0 && memcmp(out, before, sizeof out) == 0;
    printf("a click of %d samples is refused by %" PRIu32 "; the rest is %s\n", LONGEST + 1, t.number, kept ? "as it was" : "CHANGED");
}

// A whole sheet in one call: sheets/joint.csv.
static void play_sheet(void)
{
    static const char sheet[] = "48000,14400\n"
                                "0,b,3f666666,3a962fc9,3eb33333,3f0ccccd,3ecccccd\n"
                                "7200,b,3f000000,3a8dfea2,3e99999a,3ee66666,3e4ccccd\n";
    static float out[LONGEST];
    bechullpi_sheet_answered a = bechullpi_sheet((const uint8_t *)sheet, sizeof sheet - 1, out, LONGEST);
    uint32_t d = digest_of(out, a.length);
    printf("a sheet is answered %" PRIu32 ": %" PRIu32 " cues, %" PRIu32 " samples, digest %08" PRIx32 "\n", a.number, a.cues, a.length, d);
}

int main(void)
{
    kit k;
    uint32_t number = start(&k);
    if (number == 0)
        number = ride(&k);
    if (number != 0) {
        printf("refused by %" PRIu32 "\n", number);
        return 1;
    }
    be_refused(&k);
    be_refused_once_struck();
    be_struck_twice();
    play_cue(64);
    play_cue(441);
    play_cue(CUE);
    play_click(64);
    play_click(441);
    play_click(CUE);
    be_refused_for_length(&k);
    play_sheet();
    return 0;
}
