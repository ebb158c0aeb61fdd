/* What the floating-point environment changes: random runs of calls, each made twice, once in the default environment and once in
   another (MXCSR of x86-64). Flush-to-zero and denormals-are-zero change no answer of a stream that was opened and handed on; they change a
   made-up one, and another rounding changes answers. Exits with 1 if that is not so. */
#include "kelpladder.h"

#include <stdio.h>
#include <string.h>
#include <xmmintrin.h>

enum { AREA = 200000, SCRATCH = 15384, LONGEST = 4000, RUNS = 500 };
enum { DEFAULT = 0x1f80, FLUSH_TO_ZERO = 0x9fc0, ROUND_DOWN = 0x3f80, ROUND_UP = 0x5f80, CUT = 0x7f80 };

/* One of the two runs: its stream, its areas, and what its last call answered. */
typedef struct side {
    kelpladder_stream stream;
    int16_t input[AREA], stage[AREA], output[AREA], scratch[SCRATCH];
    float slice[AREA];
    uint32_t refusal;
    kelpladder_told told;
    size_t frames;
} side;

/* A call: its kind, its setting, and the samples of a write. */
typedef struct call {
    uint32_t kind;
    float value;
    size_t length;
    float samples[LONGEST];
} call;

static uint32_t state = 12345;

static uint32_t below(uint32_t count)
{
    state = state * 1664525u + 1013904223u;
    return (state >> 8) % count;
}

/* Loud samples, faint ones, silence, or samples that are subnormal numbers, of some period. */
static void draw(call *next)
{
    const float loudness[4] = {2.0f, 1e-4f, 0.0f, 1e-40f};
    const float loud = loudness[below(4)];
    const uint32_t period = 2 + below(200);
    size_t i;
    next->kind = below(8);
    next->value = 0.05f + (float)below(20000) / (below(2) ? 1000.0f : 10000.0f);
    next->length = below(LONGEST);
    for (i = 0; i < next->length; i++)
        next->samples[i] = ((float)(i % period) / (float)period - 0.5f) * loud;
}

static void take(side *s, kelpladder_wrote wrote)
{
    s->stream = wrote.stream;
    s->refusal = wrote.refusal;
    s->told = wrote.told;
}

static void make(side *s, const call *next)
{
    kelpladder_gave gave;
    switch (next->kind) {
    case 0: s->stream = kelpladder_set_speed(s->stream, next->value).stream; return;
    case 1: s->stream = kelpladder_set_pitch(s->stream, next->value).stream; return;
    case 2: s->stream = kelpladder_set_volume(s->stream, next->value).stream; return;
    case 3:
        take(s, kelpladder_flush(s->stream, s->input, AREA, s->stage, AREA, s->output, AREA, s->scratch, SCRATCH));
        return;
    case 4:
        gave = kelpladder_read_f32(s->stream, AREA, s->slice, AREA, s->output, AREA);
        s->stream = gave.stream;
        s->refusal = gave.refusal;
        s->frames = gave.frames;
        return;
    default:
        take(s, kelpladder_write_f32(s->stream, next->samples, next->length, s->input, AREA, s->stage, AREA, s->output, AREA, s->scratch,
                                     SCRATCH));
    }
}

static int same_bits(const float *a, const float *b, size_t count)
{
    return memcmp(a, b, count * sizeof *a) == 0;
}

static int same_samples(const int16_t *a, const int16_t *b, size_t frames, uint32_t channels)
{
    return memcmp(a, b, frames * channels * sizeof *a) == 0;
}

/* The answers, the streams and the kept samples, bit for bit; a stream has no padding. */
static int same(const side *a, const side *b)
{
    const kelpladder_stream *s = &a->stream;
    return a->refusal == b->refusal && a->told.outcome == b->told.outcome && a->told.passed == b->told.passed
        && a->told.sum == b->told.sum && a->frames == b->frames
        && memcmp(s, &b->stream, sizeof *s) == 0 && same_samples(a->input, b->input, s->held, s->channels)
        && same_samples(a->stage, b->stage, s->tail, s->channels) && same_samples(a->output, b->output, s->waiting, s->channels)
        && same_bits(a->slice, b->slice, a->frames * s->channels);
}

static void make_in(uint32_t environment, side *s, const call *next)
{
    _mm_setcsr(environment);
    make(s, next);
    _mm_setcsr(DEFAULT);
}

/* Of so many runs, those in which a call answered otherwise in this environment; the calls made are added to `calls`. */
static unsigned differing(uint32_t environment, unsigned runs, unsigned *calls)
{
    static side usual, other;
    static call next;
    const uint32_t rates[6] = {1000, 4001, 8000, 22050, 44100, 500000};
    unsigned run, left, found = 0;
    for (run = 0; run < runs; run++) {
        uint32_t rate = rates[below(6)], channels = 1 + below(2);
        usual.stream = kelpladder_open_with_ties(rate, channels, below(2)).stream;
        usual.refusal = usual.told.outcome = 0;
        usual.frames = usual.told.passed = usual.told.sum = 0;
        other = usual;
        for (left = 3 + below(20); left > 0 && same(&usual, &other); left--) {
            draw(&next);
            make_in(DEFAULT, &usual, &next);
            make_in(environment, &other, &next);
            *calls += 1;
        }
        found += !same(&usual, &other);
    }
    return found;
}

/* The play time after an empty write to a made-up stream whose play time is subnormal. */
static float made_up(uint32_t environment)
{
    static side s;
    static const call empty = {7, 0.0f, 0, {0}};
    s.stream = kelpladder_open(8000, 1).stream;
    s.stream.held = 300;
    s.stream.input_play_time = 1e-39f;
    make_in(environment, &s, &empty);
    return s.stream.input_play_time;
}

int main(void)
{
    const uint32_t roundings[3] = {ROUND_DOWN, ROUND_UP, CUT};
    unsigned calls = 0, others = 0, i;
    const unsigned flushed = differing(FLUSH_TO_ZERO, RUNS, &calls);
    const float kept = made_up(DEFAULT), lost = made_up(FLUSH_TO_ZERO), zero = 0.0f;
    printf("environment: flush-to-zero and denormals-are-zero: %u of %u runs differ, %u calls\n", flushed, (unsigned)RUNS, calls);
    if (flushed != 0 || same_bits(&kept, &lost, 1) || !same_bits(&lost, &zero, 1))
        return 1;
    for (i = 0; i < 3; i++) {
        unsigned found = differing(roundings[i], 100, &others);
        printf("environment: rounding %s: %u of 100 runs differ\n", i == 0 ? "down" : i == 1 ? "up" : "toward zero", found);
        if (found == 0)
            return 1;
    }
    return 0;
}
