/* The C interface as a C program sees it: include/kelpladder.h is compiled as C99, and the calls are held to the examples of
   docs/RULES.md, "Areas and refusals", "Figures" and "WAVE files". Exits at the first failure. */
#include "kelpladder.h"

#include <math.h>
#include <stddef.h>
#include <stdio.h>
#include <stdlib.h>
#include <string.h>

#define RATE 8000u
#define REQUIRED 246u        /* 2*(8,000/65) */
#define AREA 20000u
#define LONGEST 16777216u
#define CHECK(test) check((test) ? 1 : 0, #test, __LINE__)

static int16_t input[AREA], stage[AREA], output[AREA], scratch[REQUIRED];
static float voice[AREA];
static unsigned checks;

static void check(int holds, const char *test, int line)
{
    checks++;
    if (!holds) {
        fprintf(stderr, "header: line %d: not so: %s\n", line, test);
        exit(1);
    }
}

static int same_settings(kelpladder_stream a, kelpladder_stream b)
{
    return a.rate == b.rate && a.channels == b.channels && a.speed == b.speed && a.pitch == b.pitch && a.volume == b.volume
        && a.sample_period == b.sample_period;
}

static int same_work(kelpladder_stream a, kelpladder_stream b)
{
    return a.input_play_time == b.input_play_time && a.time_error == b.time_error && a.old_rate_position == b.old_rate_position
        && a.new_rate_position == b.new_rate_position && a.prev_period == b.prev_period && a.prev_min_diff == b.prev_min_diff;
}

static int totals_are(kelpladder_stream stream, uint64_t skipped, uint64_t inserted)
{
    return stream.balance.skipped == skipped && stream.balance.inserted == inserted;
}

static int same(kelpladder_stream a, kelpladder_stream b)
{
    return same_settings(a, b) && same_work(a, b) && a.held == b.held && a.tail == b.tail && a.waiting == b.waiting
        && totals_are(a, b.balance.skipped, b.balance.inserted) && a.step_over == b.step_over && a.ties == b.ties;
}

/* A stream with every field 0. */
static kelpladder_stream zero(void)
{
    kelpladder_stream stream = {0, 0, 0, 0, 0, 0, 0, 0, 0, 0, 0, 0, 0, 0, 0, {0, 0}, 0, 0};
    return stream;
}

static kelpladder_stream fresh(uint32_t channels)
{
    kelpladder_opened opened = kelpladder_open(RATE, channels);
    CHECK(opened.refusal == KELPLADDER_ACCEPTED);
    return opened.stream;
}

static kelpladder_stream set_both(kelpladder_stream stream, float speed, float pitch)
{
    kelpladder_changed faster = kelpladder_set_speed(stream, speed);
    kelpladder_changed changed = kelpladder_set_pitch(faster.stream, pitch);
    CHECK(faster.refusal == KELPLADDER_ACCEPTED && changed.refusal == KELPLADDER_ACCEPTED);
    return changed.stream;
}

static kelpladder_stream with(float speed, float pitch)
{
    return set_both(fresh(1), speed, pitch);
}

/* A mono stream opened with this choice of ties, then this speed and pitch. */
static kelpladder_stream choosing(uint32_t ties, float speed, float pitch)
{
    kelpladder_opened opened = kelpladder_open_with_ties(RATE, 1, ties);
    CHECK(opened.refusal == KELPLADDER_ACCEPTED && opened.given == 0);
    return set_both(opened.stream, speed, pitch);
}

/* Writes with areas of these lengths. */
static kelpladder_wrote write_in(kelpladder_stream stream, const float *samples, size_t length, size_t input_length, size_t stage_length,
                                 size_t output_length, size_t scratch_length)
{
    return kelpladder_write_f32(stream, samples, length, input, input_length, stage, stage_length, output, output_length, scratch,
                                scratch_length);
}

static kelpladder_wrote write_all(kelpladder_stream stream, const float *samples, size_t length)
{
    return write_in(stream, samples, length, AREA, AREA, AREA, REQUIRED);
}

static kelpladder_wrote flush_in(kelpladder_stream stream, size_t input_length, size_t stage_length, size_t output_length)
{
    return kelpladder_flush(stream, input, input_length, stage, stage_length, output, output_length, scratch, REQUIRED);
}

/* A saw of this period. */
static void speak(size_t from, size_t to, size_t period)
{
    size_t i;
    for (i = from; i < to; i++)
        voice[i] = (float)(i % period) / (float)period - 0.5f;
}

/* A voice of one block of 40 samples that repeats, each repeat with an offset of its own: the block differs from the next by d; two blocks
   from the next two by d and d; three from the next three by 2d, 0 and d. So the periods 40, 80 and 120 have the same mean of differences,
   d, which is far below that of any other. */
static void sing(size_t frames, int d)
{
    static const int offsets[6] = {0, 1, 1, 2, 1, 2};
    int block[40];
    uint32_t noise = 40;
    size_t i;
    for (i = 0; i < 40; i++) {
        noise = noise * 1664525u + 1013904223u;
        block[i] = 1000 + (int)((noise >> 8) % 9000);
    }
    for (i = 0; i < frames; i++)
        voice[i] = ((float)(block[i % 40] + d * offsets[i / 40 % 6]) + 0.5f) / 32767.0f;
}

static void refused_opening(kelpladder_opened opened, uint32_t refusal, uint32_t given)
{
    CHECK(opened.refusal == refusal);
    CHECK(opened.given == given);
    CHECK(same(opened.stream, zero()));
}

static void refuses_opening(uint32_t rate, uint32_t channels, uint32_t refusal, uint32_t given)
{
    refused_opening(kelpladder_open(rate, channels), refusal, given);
    refused_opening(kelpladder_open_with_ties(rate, channels, 0), refusal, given);
    refused_opening(kelpladder_open_with_ties(rate, channels, KELPLADDER_LARGEST), refusal, given);
    refused_opening(kelpladder_open_with_ties(rate, channels, 7), refusal, given);
}

static void opens(void)
{
    kelpladder_opened opened = kelpladder_open(RATE, 2);
    kelpladder_stream expected = zero();
    expected.rate = RATE;
    expected.channels = 2;
    expected.speed = expected.pitch = expected.volume = 1.0f;
    expected.sample_period = (float)(1.0 / 8000.0);
    CHECK(opened.refusal == KELPLADDER_ACCEPTED && opened.given == 0);
    CHECK(same(opened.stream, expected));
    CHECK(kelpladder_open(1000, 1).refusal == KELPLADDER_ACCEPTED);
    CHECK(kelpladder_open(500000, 32).refusal == KELPLADDER_ACCEPTED);
    refuses_opening(999, 1, KELPLADDER_BAD_RATE, 999);
    refuses_opening(500001, 1, KELPLADDER_BAD_RATE, 500001);
    refuses_opening(0, 0, KELPLADDER_BAD_RATE, 0);
    refuses_opening(RATE, 0, KELPLADDER_BAD_CHANNELS, 0);
    refuses_opening(RATE, 33, KELPLADDER_BAD_CHANNELS, 33);
}

static void sets(void)
{
    kelpladder_stream stream = fresh(1), moved = with(1.0f, 0.5f), expected = stream;
    kelpladder_changed changed = kelpladder_set_speed(stream, 2.5f);
    expected.speed = 2.5f;
    CHECK(changed.refusal == KELPLADDER_ACCEPTED && same(changed.stream, expected));
    CHECK(kelpladder_set_speed(stream, 30.0f).stream.speed == 20.0f);
    CHECK(kelpladder_set_speed(stream, (float)NAN).stream.speed == 0.05f);
    CHECK(kelpladder_set_pitch(stream, -1.0f).stream.pitch == 0.05f);
    CHECK(kelpladder_set_pitch(stream, 21.0f).stream.pitch == 20.0f);
    CHECK(kelpladder_set_volume(stream, 101.0f).stream.volume == 100.0f);
    CHECK(kelpladder_set_volume(stream, (float)NAN).stream.volume == 0.01f);
    moved.old_rate_position = 1;
    moved.new_rate_position = 2;
    CHECK(same_work(kelpladder_set_volume(moved, 0.5f).stream, moved));
    changed = kelpladder_set_pitch(moved, 0.5f);
    CHECK(changed.stream.old_rate_position == 0 && changed.stream.new_rate_position == 0);
}

static void refuses_bad_streams(void)
{
    kelpladder_stream bad = fresh(1);
    kelpladder_available available;
    kelpladder_gave gave;
    kelpladder_wrote wrote;
    float slice[1] = {7.0f};
    bad.speed = 30.0f;
    CHECK(kelpladder_set_speed(bad, 1.0f).refusal == KELPLADDER_BAD_STREAM);
    CHECK(kelpladder_set_pitch(zero(), 1.0f).refusal == KELPLADDER_BAD_STREAM);
    CHECK(same(kelpladder_set_volume(bad, 1.0f).stream, bad));
    bad.step_over = 7;
    CHECK(kelpladder_set_step_over(bad, 0).refusal == KELPLADDER_BAD_STREAM && same(kelpladder_set_step_over(bad, 0).stream, bad));
    available = kelpladder_available_frames(zero());
    CHECK(available.refusal == KELPLADDER_BAD_STREAM && available.frames == 0 && same(available.stream, zero()));
    gave = kelpladder_read_f32(bad, 1, slice, 1, output, AREA);
    CHECK(gave.refusal == KELPLADDER_BAD_STREAM && gave.frames == 0 && slice[0] == 7.0f && same(gave.stream, bad));
    wrote = flush_in(bad, AREA, AREA, AREA);
    CHECK(wrote.refusal == KELPLADDER_BAD_STREAM && same(wrote.stream, bad));
}

static void refuses_write(kelpladder_stream stream, size_t frames, size_t input_length, size_t stage_length, size_t output_length,
                          size_t scratch_length, uint32_t refusal)
{
    kelpladder_wrote wrote = write_in(stream, voice, frames, input_length, stage_length, output_length, scratch_length);
    CHECK(wrote.refusal == refusal);
    CHECK(wrote.told.outcome == 0 && wrote.told.passed == 0 && wrote.told.sum == 0);
    CHECK(same(wrote.stream, stream));
}

/* Each refusal of a write once, by the examples of docs/RULES.md, "Areas and refusals"; beside each the least area that is accepted. */
static void refuses_writes(void)
{
    kelpladder_stream stream = fresh(1), bad = stream, holding = stream;
    bad.speed = 30.0f;
    holding.held = 101;
    refuses_write(bad, 1, AREA, AREA, AREA, REQUIRED, KELPLADDER_BAD_STREAM);
    refuses_write(stream, 1, AREA, AREA, AREA, REQUIRED - 1, KELPLADDER_BAD_AREAS);
    refuses_write(holding, 1, 100, AREA, AREA, REQUIRED, KELPLADDER_BAD_AREAS);
    refuses_write(stream, 101, 100, AREA, AREA, REQUIRED, KELPLADDER_INPUT_FULL);
    refuses_write(stream, 51, AREA, 50, AREA, REQUIRED, KELPLADDER_STAGE_FULL);
    refuses_write(stream, 51, AREA, 60, 50, REQUIRED, KELPLADDER_OUTPUT_FULL);
    CHECK(write_in(stream, voice, 101, 101, AREA, AREA, REQUIRED).refusal == KELPLADDER_ACCEPTED);
    CHECK(write_in(stream, voice, 51, AREA, 51, AREA, REQUIRED).refusal == KELPLADDER_ACCEPTED);
    CHECK(write_in(stream, voice, 51, AREA, 60, 51, REQUIRED).refusal == KELPLADDER_ACCEPTED);
}

static void refuses_long_areas(void)
{
    int16_t *area = calloc(LONGEST + 1, sizeof *area);
    kelpladder_stream stream = fresh(1);
    float slice[1] = {7.0f};
    check(area != NULL, "room for the longest area", __LINE__);
    CHECK(kelpladder_read_f32(stream, 1, slice, 1, area, LONGEST + 1).refusal == KELPLADDER_BAD_AREAS);
    CHECK(kelpladder_read_f32(stream, 1, slice, 1, area, LONGEST).refusal == KELPLADDER_ACCEPTED);
    CHECK(kelpladder_write_f32(stream, voice, 1, area, LONGEST + 1, stage, AREA, output, AREA, scratch, REQUIRED).refusal
          == KELPLADDER_BAD_AREAS);
    free(area);
}

/* Whether two streams have the same bits; a stream has no padding. */
static int same_bits(kelpladder_stream a, kelpladder_stream b)
{
    CHECK(offsetof(kelpladder_stream, ties) + sizeof a.ties == sizeof a);
    return memcmp(&a, &b, sizeof a) == 0;
}

static void refused_as_it_came(kelpladder_stream stream, kelpladder_wrote wrote, uint32_t refusal)
{
    CHECK(wrote.refusal == refusal);
    CHECK(same_bits(wrote.stream, stream));
}

/* A refused call hands back the bits of a NaN. */
static void hands_back_not_a_number(uint32_t bits)
{
    kelpladder_stream stream = fresh(1);
    memcpy(&stream.input_play_time, &bits, sizeof bits);
    memcpy(&stream.time_error, &bits, sizeof bits);
    refused_as_it_came(stream, write_in(stream, voice, 101, 100, 200, 200, REQUIRED), KELPLADDER_INPUT_FULL);
    refused_as_it_came(stream, write_in(stream, voice, 51, 100, 50, 200, REQUIRED), KELPLADDER_STAGE_FULL);
    refused_as_it_came(stream, write_in(stream, voice, 51, 100, 60, 50, REQUIRED), KELPLADDER_OUTPUT_FULL);
    refused_as_it_came(stream, flush_in(stream, 100, 100, 100), KELPLADDER_INPUT_FULL);
    stream.waiting = 5;
    kelpladder_gave gave = kelpladder_read_f32(stream, 5, voice, 5, output, 4);
    CHECK(gave.refusal == KELPLADDER_BAD_AREAS && same_bits(gave.stream, stream));
    memcpy(&stream.speed, &bits, sizeof bits);
    refused_as_it_came(stream, write_all(stream, voice, 10), KELPLADDER_BAD_STREAM);
    kelpladder_changed changed = kelpladder_set_pitch(stream, 1);
    CHECK(changed.refusal == KELPLADDER_BAD_STREAM && same_bits(changed.stream, stream));
}

/* Quiet and signalling, of either sign. */
static void hands_back_not_numbers(void)
{
    hands_back_not_a_number(0x7fc12345u);
    hands_back_not_a_number(0xffc54321u);
    hands_back_not_a_number(0x7f812345u);
    hands_back_not_a_number(0xffa00001u);
}

/* A null pointer with length 0 is an empty area or slice: nothing is read or written through it, and the length alone decides. Here
   in a write; where nothing is needed of the area, the write is accepted. */
static void takes_null_pointers_in_writes(void)
{
    kelpladder_stream stream = fresh(1), waits = with(2.0f, 1.0f);
    kelpladder_wrote wrote = kelpladder_write_f32(stream, NULL, 0, input, AREA, stage, AREA, output, AREA, scratch, REQUIRED);
    CHECK(wrote.refusal == KELPLADDER_ACCEPTED && wrote.told.outcome == KELPLADDER_EMPTY && same(wrote.stream, stream));
    wrote = kelpladder_write_f32(stream, NULL, 0, NULL, 0, NULL, 0, NULL, 0, scratch, REQUIRED);
    CHECK(wrote.refusal == KELPLADDER_ACCEPTED && wrote.told.outcome == KELPLADDER_EMPTY && same(wrote.stream, stream));
    wrote = kelpladder_write_f32(waits, voice, 9, input, AREA, NULL, 0, NULL, 0, scratch, REQUIRED);
    CHECK(wrote.refusal == KELPLADDER_ACCEPTED && wrote.told.outcome == KELPLADDER_WAITING && wrote.stream.held == 9);
    wrote = kelpladder_write_f32(wrote.stream, NULL, 0, input, AREA, NULL, 0, NULL, 0, scratch, REQUIRED);
    CHECK(wrote.refusal == KELPLADDER_ACCEPTED && wrote.told.outcome == KELPLADDER_WAITING && wrote.stream.held == 9);
    wrote = kelpladder_write_f32(wrote.stream, NULL, 0, NULL, 0, stage, AREA, output, AREA, scratch, REQUIRED);
    CHECK(wrote.refusal == KELPLADDER_BAD_AREAS && wrote.stream.held == 9);
    wrote = kelpladder_write_f32(stream, voice, 1, NULL, 0, stage, AREA, output, AREA, scratch, REQUIRED);
    CHECK(wrote.refusal == KELPLADDER_INPUT_FULL && same(wrote.stream, stream));
    wrote = kelpladder_write_f32(stream, voice, 1, input, AREA, NULL, 0, output, AREA, scratch, REQUIRED);
    CHECK(wrote.refusal == KELPLADDER_STAGE_FULL && same(wrote.stream, stream));
    wrote = kelpladder_write_f32(stream, voice, 1, input, AREA, stage, AREA, NULL, 0, scratch, REQUIRED);
    CHECK(wrote.refusal == KELPLADDER_OUTPUT_FULL && same(wrote.stream, stream));
    wrote = kelpladder_write_f32(stream, NULL, 0, NULL, 0, NULL, 0, NULL, 0, NULL, 0);
    CHECK(wrote.refusal == KELPLADDER_BAD_AREAS && same(wrote.stream, stream));
}

/* The same in flushes, which always add to the input and search, and in reads. */
static void takes_null_pointers_elsewhere(void)
{
    const float sample[1] = {0.5f};
    float slice[1] = {7.0f};
    kelpladder_stream stream = fresh(1), over = kelpladder_set_step_over(with(20.0f, 0.5f), 1).stream, waiting;
    kelpladder_wrote wrote = kelpladder_flush(stream, NULL, 0, stage, AREA, output, AREA, scratch, REQUIRED);
    kelpladder_gave gave;
    CHECK(wrote.refusal == KELPLADDER_INPUT_FULL && same(wrote.stream, stream));
    CHECK(kelpladder_flush(stream, input, AREA, NULL, 0, output, AREA, scratch, REQUIRED).refusal == KELPLADDER_STAGE_FULL);
    CHECK(kelpladder_flush(stream, input, AREA, stage, AREA, NULL, 0, scratch, REQUIRED).refusal == KELPLADDER_OUTPUT_FULL);
    CHECK(kelpladder_flush(stream, input, AREA, stage, AREA, output, AREA, NULL, 0).refusal == KELPLADDER_BAD_AREAS);
    wrote = kelpladder_flush(over, input, AREA, NULL, 0, NULL, 0, scratch, REQUIRED);
    CHECK(wrote.refusal == KELPLADDER_ACCEPTED && wrote.told.passed == 13);
    gave = kelpladder_read_f32(stream, 1, NULL, 0, NULL, 0);
    CHECK(gave.refusal == KELPLADDER_ACCEPTED && gave.frames == 0 && same(gave.stream, stream));
    waiting = write_all(stream, sample, 1).stream;
    gave = kelpladder_read_f32(waiting, 1, NULL, 0, output, AREA);
    CHECK(gave.refusal == KELPLADDER_ACCEPTED && gave.frames == 0 && same(gave.stream, waiting));
    gave = kelpladder_read_f32(waiting, 1, slice, 1, NULL, 0);
    CHECK(gave.refusal == KELPLADDER_BAD_AREAS && slice[0] == 7.0f && same(gave.stream, waiting));
    gave = kelpladder_read_f32(waiting, 1, slice, 1, output, AREA);
    CHECK(gave.refusal == KELPLADDER_ACCEPTED && gave.frames == 1 && slice[0] == 16383.0f / 32767.0f);
}

static void copies(void)
{
    const float samples[5] = {1.0f, -0.5f, (float)NAN, -2.0f, 0.25f};
    kelpladder_wrote wrote = write_all(fresh(2), samples, 5);
    kelpladder_available available = kelpladder_available_frames(wrote.stream);
    CHECK(wrote.refusal == KELPLADDER_ACCEPTED && wrote.told.outcome == KELPLADDER_COPIED);
    CHECK(wrote.stream.held == 0 && wrote.stream.waiting == 2 && wrote.stream.input_play_time == 0.0f);
    CHECK(output[0] == 32767 && output[1] == -16383 && output[2] == 0 && output[3] == -32767);
    CHECK(available.refusal == KELPLADDER_ACCEPTED && available.frames == 2 && same(available.stream, wrote.stream));
    wrote = write_all(fresh(2), samples, 1);
    CHECK(wrote.refusal == KELPLADDER_ACCEPTED && wrote.told.outcome == KELPLADDER_EMPTY && same(wrote.stream, fresh(2)));
}

static void gives(void)
{
    const float samples[8] = {1.0f, -1.0f, 0.5f, -0.5f, 0.25f, -0.25f, 0.0f, 1.0f};
    float slice[5] = {7.0f, 7.0f, 7.0f, 7.0f, 7.0f};
    kelpladder_wrote wrote = write_all(fresh(2), samples, 8);
    kelpladder_gave gave = kelpladder_read_f32(wrote.stream, 1, slice, 5, output, AREA);
    CHECK(gave.refusal == KELPLADDER_ACCEPTED && gave.frames == 1 && gave.stream.waiting == 3);
    CHECK(slice[0] == 1.0f && slice[1] == -1.0f && slice[2] == 7.0f);
    CHECK(kelpladder_read_f32(gave.stream, 9, slice, 5, output, 5).refusal == KELPLADDER_BAD_AREAS);
    gave = kelpladder_read_f32(gave.stream, 9, slice, 5, output, AREA);
    CHECK(gave.frames == 2 && gave.stream.waiting == 1);
    CHECK(slice[0] == 16383.0f / 32767.0f && slice[1] == -16383.0f / 32767.0f && slice[2] == 8191.0f / 32767.0f && slice[4] == 7.0f);
    gave = kelpladder_read_f32(gave.stream, 9, slice, 5, output, AREA);
    CHECK(gave.frames == 1 && gave.stream.waiting == 0 && slice[0] == 0.0f && slice[1] == 1.0f);
    gave = kelpladder_read_f32(gave.stream, 9, slice, 5, output, AREA);
    CHECK(gave.refusal == KELPLADDER_ACCEPTED && gave.frames == 0 && slice[0] == 0.0f);
}

/* Speed 2: each step uses two periods and gives one. */
static void stretches(void)
{
    kelpladder_wrote wrote;
    speak(0, 4000, 62);
    wrote = write_all(with(2.0f, 1.0f), voice, REQUIRED - 1);
    CHECK(wrote.told.outcome == KELPLADDER_WAITING && wrote.stream.held == REQUIRED - 1 && wrote.stream.waiting == 0);
    CHECK(fabsf(wrote.stream.input_play_time - (REQUIRED - 1) / 16000.0f) < 1e-6f && wrote.stream.time_error == 0.0f);
    wrote = write_all(wrote.stream, voice + REQUIRED - 1, 1);
    CHECK(wrote.told.outcome == KELPLADDER_STRETCHED && wrote.stream.prev_period == 62);
    CHECK(wrote.stream.held == REQUIRED - 124 && wrote.stream.waiting == 62 && wrote.stream.tail == 0);
}

/* Pitch 0.5 from a fresh stream at speed 0.5: nothing is stretched, and 112 frames give 200. */
static void pitches(void)
{
    kelpladder_wrote wrote = write_all(with(0.5f, 0.5f), voice, 112);
    CHECK(wrote.told.outcome == KELPLADDER_COPIED && wrote.stream.waiting == 200 && wrote.stream.tail == 12);
}

/* A lowered voice, which leaves a tail of 12 and 24 frames waiting; then this speed and pitch. */
static kelpladder_stream lowered(float speed, float pitch)
{
    kelpladder_wrote wrote;
    speak(0, 4000, 62);
    wrote = write_all(with(0.5f, 0.5f), voice, 24);
    CHECK(wrote.told.outcome == KELPLADDER_COPIED && wrote.stream.waiting == 24 && wrote.stream.tail == 12);
    return set_both(wrote.stream, speed, pitch);
}

/* Back at pitch 1 the stage needs room for the tail or for the frames of a write, whichever are more, and not for both. The tail stays, and
   goes out first when the voice is lowered again. */
static void keeps_the_tail(void)
{
    kelpladder_stream back = lowered(1.0f, 1.0f);
    kelpladder_wrote wrote;
    int16_t tail[12], waiting[24], again[40];
    size_t i;
    memcpy(tail, stage, sizeof tail);
    memcpy(waiting, output, sizeof waiting);
    refuses_write(back, 20, AREA, 19, AREA, REQUIRED, KELPLADDER_STAGE_FULL);
    refuses_write(back, 20, AREA, 19, 24, REQUIRED, KELPLADDER_STAGE_FULL);
    refuses_write(back, 20, AREA, 20, 43, REQUIRED, KELPLADDER_OUTPUT_FULL);
    refuses_write(back, 20, AREA, 11, AREA, REQUIRED, KELPLADDER_BAD_AREAS);
    CHECK(memcmp(tail, stage, sizeof tail) == 0 && memcmp(waiting, output, sizeof waiting) == 0);
    wrote = write_in(back, voice + 24, 20, AREA, 20, 44, REQUIRED);
    CHECK(wrote.refusal == KELPLADDER_ACCEPTED && wrote.told.outcome == KELPLADDER_COPIED && wrote.stream.waiting == 44);
    CHECK(wrote.stream.tail == 12 && memcmp(tail, stage, sizeof tail) == 0 && memcmp(waiting, output, sizeof waiting) == 0);
    for (i = 24; i < 44; i++)
        CHECK(output[i] == (int16_t)(voice[i] * 32767.0f));
    wrote = write_in(wrote.stream, voice + 44, 5, AREA, 12, AREA, REQUIRED);
    CHECK(wrote.refusal == KELPLADDER_ACCEPTED && wrote.stream.waiting == 49 && memcmp(tail, stage, sizeof tail) == 0);
    wrote = write_all(set_both(wrote.stream, 0.5f, 0.5f), voice + 49, 20);
    CHECK(wrote.told.outcome == KELPLADDER_COPIED && wrote.stream.waiting == 89 && wrote.stream.tail == 12);
    memcpy(again, output + 49, sizeof again);
    wrote = write_all(lowered(0.5f, 0.5f), voice + 49, 20);
    CHECK(wrote.stream.waiting == 64 && memcmp(again, output + 24, sizeof again) == 0);
}

/* The same with three skips of 62 frames and with a flush, which copies 492 silent frames; beside pitch 1 the tail counts. */
static void counts_the_frames_alone(void)
{
    kelpladder_stream faster = lowered(2.0f, 1.0f), back, beside;
    kelpladder_wrote wrote;
    refuses_write(faster, 500, AREA, 185, AREA, REQUIRED, KELPLADDER_STAGE_FULL);
    refuses_write(faster, 500, AREA, 185, 24 + 62, REQUIRED, KELPLADDER_STAGE_FULL);
    refuses_write(faster, 500, AREA, 186, 24 + 62, REQUIRED, KELPLADDER_OUTPUT_FULL);
    wrote = write_in(faster, voice, 500, AREA, 186, 24 + 186, REQUIRED);
    CHECK(wrote.told.outcome == KELPLADDER_STRETCHED && wrote.stream.waiting == 24 + 186 && wrote.stream.tail == 12);
    back = lowered(1.0f, 1.0f);
    CHECK(flush_in(back, AREA, 491, 24).refusal == KELPLADDER_STAGE_FULL);
    CHECK(flush_in(back, AREA, 492, 24 + 491).refusal == KELPLADDER_OUTPUT_FULL);
    wrote = flush_in(back, AREA, 492, 24 + 492);
    CHECK(wrote.told.outcome == KELPLADDER_COPIED && wrote.stream.waiting == 24 + 12 && wrote.stream.tail == 0);
    beside = lowered(0.99999994f, 0.99999994f);
    refuses_write(beside, 20, AREA, 31, AREA, REQUIRED, KELPLADDER_STAGE_FULL);
    CHECK(write_in(beside, voice, 20, AREA, 32, AREA, REQUIRED).refusal == KELPLADDER_ACCEPTED);
}

/* Speed 20, pitch 0.5: a period of 62 gives one frame, one of 34 none. */
static void stalls(void)
{
    kelpladder_wrote wrote;
    size_t held;
    speak(0, 4000, 62);
    wrote = write_all(with(20.0f, 0.5f), voice, 4000);
    CHECK(wrote.told.outcome == KELPLADDER_STRETCHED && wrote.stream.held < REQUIRED);
    held = wrote.stream.held;
    speak(0, 4000, 34);
    wrote = write_all(wrote.stream, voice, 4000);
    CHECK(wrote.refusal == KELPLADDER_ACCEPTED && wrote.told.outcome == KELPLADDER_STALLED && wrote.stream.held == held + 4000);
    wrote = write_all(wrote.stream, voice, 1000);
    CHECK(wrote.told.outcome == KELPLADDER_STALLED && wrote.stream.held == held + 5000);
    wrote = flush_in(wrote.stream, AREA, AREA, AREA);
    CHECK(wrote.told.outcome == KELPLADDER_STALLED && wrote.stream.held == 0 && wrote.stream.tail == 0);
}

/* At speed 10.5 and pitch 0.5 the local speed is 21 but for its last bit, which decides whether silence, of period 20, gives a frame: a
   later write can leave a stall, and so can a setting. */
static void leaves_stalls(void)
{
    kelpladder_wrote stalled, wrote;
    memset(voice, 0, 356 * sizeof *voice);
    stalled = write_all(with(10.5f, 0.5f), voice, 355);
    CHECK(stalled.told.outcome == KELPLADDER_STALLED && stalled.stream.held == 355);
    wrote = write_all(stalled.stream, voice, 1);
    CHECK(wrote.told.outcome == KELPLADDER_STRETCHED && wrote.stream.held < REQUIRED);
    stalled = write_all(with(10.5f, 0.5f), voice, 355);
    wrote = write_all(kelpladder_set_step_over(stalled.stream, 1).stream, voice, 0);
    CHECK(wrote.told.outcome == KELPLADDER_STRETCHED && wrote.stream.held < REQUIRED);
}

/* A flush at speed 2 gives half of what is held, and has its own refusals. */
static void flushes(void)
{
    kelpladder_wrote held, wrote;
    speak(0, 4000, 62);
    held = write_all(with(2.0f, 1.0f), voice, 200);
    CHECK(held.told.outcome == KELPLADDER_WAITING);
    wrote = flush_in(held.stream, 200 + 2 * REQUIRED - 1, AREA, AREA);
    CHECK(wrote.refusal == KELPLADDER_INPUT_FULL && same(wrote.stream, held.stream));
    wrote = flush_in(held.stream, AREA, 10, AREA);
    CHECK(wrote.refusal == KELPLADDER_STAGE_FULL && same(wrote.stream, held.stream));
    wrote = flush_in(held.stream, AREA, AREA, 10);
    CHECK(wrote.refusal == KELPLADDER_OUTPUT_FULL && same(wrote.stream, held.stream));
    wrote = flush_in(held.stream, 200 + 2 * REQUIRED, AREA, AREA);
    CHECK(wrote.refusal == KELPLADDER_ACCEPTED && wrote.told.outcome == KELPLADDER_STRETCHED && wrote.stream.waiting == 100);
    CHECK(wrote.stream.held == 0 && wrote.stream.tail == 0 && wrote.stream.input_play_time == 0.0f && wrote.stream.time_error == 0.0f);
}

/* A stream at this speed and pitch with these totals. */
static kelpladder_stream counting(float speed, float pitch, uint64_t skipped, uint64_t inserted)
{
    kelpladder_stream stream = with(speed, pitch);
    stream.balance.skipped = skipped;
    stream.balance.inserted = inserted;
    return stream;
}

/* One step of period 62: a skip at speed 4 uses 82 frames and gives 20, an insert at speed 0.25 uses 20 and gives 82. */
static void counts(void)
{
    kelpladder_wrote wrote;
    float slice[1];
    speak(0, 4000, 62);
    CHECK(totals_are(fresh(2), 0, 0));
    wrote = write_all(with(4.0f, 1.0f), voice, REQUIRED);
    CHECK(wrote.stream.waiting == 20 && wrote.stream.held == REQUIRED - 82 && totals_are(wrote.stream, 62, 0));
    CHECK(totals_are(kelpladder_read_f32(wrote.stream, 1, slice, 1, output, AREA).stream, 62, 0));
    CHECK(totals_are(kelpladder_set_speed(wrote.stream, 0.5f).stream, 62, 0));
    CHECK(totals_are(kelpladder_set_pitch(wrote.stream, 2.0f).stream, 62, 0));
    CHECK(totals_are(kelpladder_set_volume(wrote.stream, 2.0f).stream, 62, 0));
    wrote = write_all(counting(0.25f, 1.0f, 62, 0), voice, REQUIRED);
    CHECK(wrote.stream.waiting == 82 && wrote.stream.held == REQUIRED - 20 && totals_are(wrote.stream, 62, 62));
    wrote = write_all(counting(1.0f, 1.0f, 62, 124), voice, REQUIRED);
    CHECK(wrote.told.outcome == KELPLADDER_COPIED && totals_are(wrote.stream, 62, 124));
}

/* The 7 skips of a flush on silence, of 20 frames each, count, though no frame is kept; a stall after frames counts nothing. */
static void counts_flushes_and_stalls(void)
{
    kelpladder_wrote wrote = flush_in(counting(2.0f, 1.0f, 5, 6), AREA, AREA, AREA);
    CHECK(wrote.told.outcome == KELPLADDER_STRETCHED && wrote.stream.waiting == 0 && totals_are(wrote.stream, 145, 6));
    speak(0, 310, 62);
    memset(voice + 310, 0, 300 * sizeof *voice);
    wrote = write_all(counting(20.0f, 0.5f, 5, 6), voice, 610);
    CHECK(wrote.told.outcome == KELPLADDER_STALLED && wrote.stream.tail == 5 && totals_are(wrote.stream, 5, 6));
    wrote = flush_in(wrote.stream, AREA, AREA, AREA);
    CHECK(wrote.told.outcome == KELPLADDER_STALLED && totals_are(wrote.stream, 5, 6));
}

/* A total may come to its end, and a call that would carry it further is refused, after 7. */
static void refuses_full_totals(void)
{
    const uint64_t end = UINT64_MAX;
    kelpladder_stream full = counting(2.0f, 1.0f, end - 61, 5);
    kelpladder_wrote wrote;
    speak(0, 4000, 62);
    wrote = write_all(counting(2.0f, 1.0f, end - 62, end), voice, REQUIRED);
    CHECK(wrote.refusal == KELPLADDER_ACCEPTED && totals_are(wrote.stream, end, end));
    wrote = write_all(counting(0.5f, 1.0f, end, end - 62), voice, REQUIRED);
    CHECK(wrote.refusal == KELPLADDER_ACCEPTED && totals_are(wrote.stream, end, end));
    refuses_write(full, REQUIRED, AREA, 62, 62, REQUIRED, KELPLADDER_TOTAL_FULL);
    refuses_write(full, REQUIRED, AREA, 62, 61, REQUIRED, KELPLADDER_OUTPUT_FULL);
    refuses_write(counting(0.5f, 1.0f, 5, end - 61), REQUIRED, AREA, AREA, AREA, REQUIRED, KELPLADDER_TOTAL_FULL);
    wrote = flush_in(counting(2.0f, 1.0f, end - 139, 5), AREA, AREA, AREA);
    CHECK(wrote.refusal == KELPLADDER_TOTAL_FULL && wrote.told.outcome == 0 && same(wrote.stream, counting(2.0f, 1.0f, end - 139, 5)));
    CHECK(totals_are(flush_in(counting(2.0f, 1.0f, end - 140, 5), AREA, AREA, AREA).stream, end, 5));
}

/* A call that counts nothing is accepted at any totals. */
static void accepts_full_totals(void)
{
    const uint64_t end = UINT64_MAX;
    kelpladder_wrote wrote = write_all(counting(1.0f, 1.0f, end, end), voice, REQUIRED);
    CHECK(wrote.told.outcome == KELPLADDER_COPIED && totals_are(wrote.stream, end, end));
    wrote = write_all(counting(2.0f, 1.0f, end, end), voice, REQUIRED - 1);
    CHECK(wrote.told.outcome == KELPLADDER_WAITING && totals_are(wrote.stream, end, end));
    speak(0, 310, 62);
    memset(voice + 310, 0, 300 * sizeof *voice);
    wrote = write_all(counting(20.0f, 0.5f, end, end), voice, 610);
    CHECK(wrote.refusal == KELPLADDER_ACCEPTED && wrote.told.outcome == KELPLADDER_STALLED && totals_are(wrote.stream, end, end));
    CHECK(kelpladder_set_speed(wrote.stream, 2.0f).refusal == KELPLADDER_ACCEPTED);
    CHECK(kelpladder_available_frames(wrote.stream).refusal == KELPLADDER_ACCEPTED);
}

/* A stream for skim tracks with this value of the setting: silence has period 20 and gives no frame. */
static kelpladder_stream skim(uint32_t step_over)
{
    kelpladder_stream stream = with(20.0f, 0.5f);
    stream.step_over = step_over;
    return stream;
}

/* The setting writes 0 or 1, and nothing else; other calls hand any value back. */
static void sets_step_over(void)
{
    kelpladder_stream moved = skim(0), expected;
    CHECK(fresh(1).step_over == 0);
    moved.old_rate_position = 1;
    moved.new_rate_position = 2;
    expected = moved;
    expected.step_over = 1;
    CHECK(kelpladder_set_step_over(moved, 1).refusal == KELPLADDER_ACCEPTED);
    CHECK(same(kelpladder_set_step_over(moved, 1).stream, expected));
    CHECK(same(kelpladder_set_step_over(moved, UINT32_MAX).stream, expected));
    CHECK(same(kelpladder_set_step_over(expected, 0).stream, moved));
    CHECK(kelpladder_set_step_over(skim(7), 2).stream.step_over == 1);
    CHECK(kelpladder_set_speed(skim(7), 2.0f).stream.step_over == 7);
    CHECK(kelpladder_set_pitch(skim(7), 2.0f).stream.step_over == 7);
    CHECK(kelpladder_set_volume(skim(7), 2.0f).stream.step_over == 7);
    CHECK(kelpladder_available_frames(skim(7)).stream.step_over == 7);
}

/* Silence: 300 frames are 3 steps that give no frame. Off they stall; on their periods are used, skipped and counted. */
static void steps_over(void)
{
    kelpladder_wrote wrote;
    memset(voice, 0, 300 * sizeof *voice);
    wrote = write_all(skim(0), voice, 300);
    CHECK(wrote.told.outcome == KELPLADDER_STALLED && wrote.told.passed == 0 && wrote.stream.held == 300);
    wrote = write_all(kelpladder_set_step_over(wrote.stream, 1).stream, voice, 0);
    CHECK(wrote.told.outcome == KELPLADDER_STRETCHED && wrote.told.passed == 3 && wrote.stream.held == 240 && wrote.stream.waiting == 0);
    CHECK(totals_are(wrote.stream, 60, 0) && wrote.stream.tail == 0 && wrote.stream.prev_period == 20);
    wrote = write_all(skim(7), voice, 300);
    CHECK(wrote.told.outcome == KELPLADDER_STRETCHED && wrote.told.passed == 3 && wrote.stream.step_over == 7);
    wrote = write_in(skim(1), voice, 300, 300, 0, 0, REQUIRED);
    CHECK(wrote.refusal == KELPLADDER_ACCEPTED && wrote.told.passed == 3);
    wrote = flush_in(skim(1), AREA, AREA, AREA);
    CHECK(wrote.told.outcome == KELPLADDER_STRETCHED && wrote.told.passed == 13 && totals_are(wrote.stream, 260, 0));
    CHECK(wrote.stream.held == 0 && wrote.stream.step_over == 1);
    wrote = write_all(with(1.0f, 1.0f), voice, 300);
    CHECK(wrote.told.outcome == KELPLADDER_COPIED && wrote.told.passed == 0);
}

/* A refused call passes over nothing; a total may come to its end by periods passed over. */
static void refuses_stepping_over(void)
{
    const uint64_t end = UINT64_MAX;
    kelpladder_stream stream = skim(1);
    memset(voice, 0, 300 * sizeof *voice);
    refuses_write(stream, 300, 299, AREA, AREA, REQUIRED, KELPLADDER_INPUT_FULL);
    stream.balance.skipped = end - 59;
    refuses_write(stream, 300, AREA, AREA, AREA, REQUIRED, KELPLADDER_TOTAL_FULL);
    stream.balance.skipped = end - 60;
    CHECK(totals_are(write_all(stream, voice, 300).stream, end, 0));
    stream.step_over = 0;
    stream.balance.skipped = end;
    CHECK(write_all(stream, voice, 300).told.outcome == KELPLADDER_STALLED);
}

/* The choice is made at the opening: 0 or 1 stands in the stream, and every call hands it back, as any other value. */
static void opens_with_ties(void)
{
    kelpladder_stream stream = fresh(1), seven = choosing(7, 2.0f, 1.0f);
    float slice[1];
    CHECK(stream.ties == KELPLADDER_SMALLEST && same(kelpladder_open_with_ties(RATE, 1, KELPLADDER_SMALLEST).stream, stream));
    stream.ties = KELPLADDER_LARGEST;
    CHECK(same(kelpladder_open_with_ties(RATE, 1, KELPLADDER_LARGEST).stream, stream));
    CHECK(same(kelpladder_open_with_ties(RATE, 1, 7).stream, stream));
    CHECK(same(kelpladder_open_with_ties(RATE, 1, UINT32_MAX).stream, stream));
    CHECK(seven.ties == 1);
    seven.ties = 7;
    CHECK(kelpladder_set_speed(seven, 2.0f).stream.ties == 7 && kelpladder_set_pitch(seven, 2.0f).stream.ties == 7);
    CHECK(kelpladder_set_volume(seven, 2.0f).stream.ties == 7 && kelpladder_set_step_over(seven, 1).stream.ties == 7);
    CHECK(kelpladder_available_frames(seven).stream.ties == 7);
    CHECK(kelpladder_read_f32(seven, 1, slice, 1, output, AREA).stream.ties == 7);
    CHECK(write_all(seven, voice, 9).stream.ties == 7 && flush_in(seven, AREA, AREA, AREA).stream.ties == 7);
    refuses_write(seven, 101, 100, AREA, AREA, REQUIRED, KELPLADDER_INPUT_FULL);
}

/* One search in the first frames of the voice, at speed 2, where a skip gives its period. */
static void finds(kelpladder_stream stream, size_t period, size_t sum)
{
    kelpladder_wrote wrote = write_all(stream, voice, REQUIRED);
    CHECK(wrote.refusal == KELPLADDER_ACCEPTED && wrote.told.outcome == KELPLADDER_STRETCHED);
    CHECK(wrote.stream.prev_period == period && wrote.stream.waiting == period);
    CHECK(wrote.told.sum == sum && wrote.stream.ties == stream.ties);
}

/* A choir's exact repeats, and repeats with a mean of 30. */
static void breaks_ties(void)
{
    kelpladder_stream seven = choosing(1, 2.0f, 1.0f);
    seven.ties = 7;
    sing(REQUIRED, 0);
    finds(with(2.0f, 1.0f), 40, 0);
    finds(choosing(KELPLADDER_SMALLEST, 2.0f, 1.0f), 40, 0);
    finds(choosing(KELPLADDER_LARGEST, 2.0f, 1.0f), 120, 0);
    finds(seven, 120, 0);
    sing(REQUIRED, 30);
    finds(with(2.0f, 1.0f), 40, 40 * 30);
    finds(choosing(KELPLADDER_SMALLEST, 2.0f, 1.0f), 40, 40 * 30);
    finds(choosing(KELPLADDER_LARGEST, 2.0f, 1.0f), 120, 120 * 30);
    finds(seven, 120, 120 * 30);
}

/* Only a call that searches tells a sum: behind one that did, these tell 0. */
static void tells_no_sum(void)
{
    kelpladder_stream stream = choosing(KELPLADDER_LARGEST, 2.0f, 1.0f);
    kelpladder_wrote wrote;
    sing(REQUIRED, 30);
    refuses_write(stream, REQUIRED, REQUIRED - 1, AREA, AREA, REQUIRED, KELPLADDER_INPUT_FULL);
    refuses_write(stream, REQUIRED, AREA, 119, AREA, REQUIRED, KELPLADDER_STAGE_FULL);
    refuses_write(stream, REQUIRED, AREA, 120, 119, REQUIRED, KELPLADDER_OUTPUT_FULL);
    stream.balance.skipped = UINT64_MAX;
    refuses_write(stream, REQUIRED, AREA, AREA, AREA, REQUIRED, KELPLADDER_TOTAL_FULL);
    stream.balance.skipped = 0;
    wrote = write_all(stream, voice, REQUIRED);
    CHECK(wrote.told.sum == 120 * 30);
    wrote = write_all(wrote.stream, voice, 9);
    CHECK(wrote.told.outcome == KELPLADDER_WAITING && wrote.told.sum == 0);
    wrote = flush_in(wrote.stream, AREA, AREA, AREA);
    wrote = write_all(wrote.stream, voice, 0);
    CHECK(wrote.told.outcome == KELPLADDER_EMPTY && wrote.told.sum == 0);
    wrote = write_all(kelpladder_set_speed(wrote.stream, 1.0f).stream, voice, REQUIRED);
    CHECK(wrote.told.outcome == KELPLADDER_COPIED && wrote.told.sum == 0);
}

/* Silence at speed 20 and pitch 0.5: its smallest period, 20, gives no frame, and its largest, 123, gives 3. */
static void skims_silence(void)
{
    kelpladder_wrote wrote;
    unsigned i;
    memset(voice, 0, 1000 * sizeof *voice);
    wrote = write_all(choosing(KELPLADDER_SMALLEST, 20.0f, 0.5f), voice, REQUIRED);
    CHECK(wrote.told.outcome == KELPLADDER_STALLED && wrote.stream.prev_period == 20 && wrote.stream.held == REQUIRED);
    wrote = write_all(choosing(KELPLADDER_LARGEST, 20.0f, 0.5f), voice, REQUIRED);
    CHECK(wrote.told.outcome == KELPLADDER_STRETCHED && wrote.stream.prev_period == 123 && wrote.stream.tail == 3);
    CHECK(wrote.stream.held == REQUIRED - 126 && totals_are(wrote.stream, 123, 0));
    for (i = 0; i < 9; i++) {
        wrote = write_all(wrote.stream, voice, 1000);
        CHECK(wrote.told.outcome == KELPLADDER_STRETCHED && wrote.stream.held < REQUIRED && wrote.told.sum == 0);
    }
    wrote = flush_in(wrote.stream, AREA, AREA, AREA);
    CHECK(wrote.told.outcome == KELPLADDER_STRETCHED && wrote.stream.prev_period == 123);
}

/* A file of two frames of two channels at 44,100 frames a second, with a partial frame left out. */
static const int16_t reel[5] = {-32768, 32767, -2, 258, 9};
static const uint8_t file[52] = {
    'R', 'I', 'F', 'F', 44, 0, 0, 0, 'W', 'A', 'V', 'E', 'f', 'm', 't', ' ', 16, 0, 0, 0, 1, 0, 2, 0, 0x44, 0xac, 0, 0, 0x10, 0xb1, 2, 0,
    4, 0, 16, 0, 'd', 'a', 't', 'a', 8, 0, 0, 0, 0x00, 0x80, 0xff, 0x7f, 0xfe, 0xff, 0x02, 0x01
};

static int wave_is(kelpladder_wave wave, uint32_t refusal, uint32_t rate, uint32_t channels, size_t frames, size_t begin)
{
    return wave.refusal == refusal && wave.rate == rate && wave.channels == channels && wave.frames == frames && wave.begin == begin;
}

static int written_is(kelpladder_wave_written written, uint32_t refusal, uint32_t given, size_t bytes)
{
    return written.refusal == refusal && written.given == given && written.bytes == bytes;
}

/* Whether all bytes have this value. */
static int all_are(const uint8_t *bytes, size_t length, uint8_t value)
{
    size_t i;
    for (i = 0; i < length && bytes[i] == value; i++)
        ;
    return i == length;
}

/* The file is written byte by byte as above and reads back; behind it the destination stays. */
static void writes_waves(void)
{
    uint8_t dest[64];
    memset(dest, 7, sizeof dest);
    CHECK(written_is(kelpladder_wave_write(dest, sizeof dest, 44100, 2, reel, 5), KELPLADDER_ACCEPTED, 0, 52));
    CHECK(memcmp(dest, file, sizeof file) == 0);
    CHECK(all_are(dest + 52, sizeof dest - 52, 7));
    CHECK(wave_is(kelpladder_wave_read(dest, 52), KELPLADDER_ACCEPTED, 44100, 2, 2, 44));
    CHECK(wave_is(kelpladder_wave_read(dest, sizeof dest), KELPLADDER_ACCEPTED, 44100, 2, 2, 44));
    memset(dest, 7, sizeof dest);
    CHECK(written_is(kelpladder_wave_write(dest, 52, 44100, 2, reel, 4), KELPLADDER_ACCEPTED, 0, 52));
    CHECK(memcmp(dest, file, sizeof file) == 0 && all_are(dest + 52, sizeof dest - 52, 7));
    CHECK(written_is(kelpladder_wave_write(dest, 44, 1000, 32, reel, 5), KELPLADDER_ACCEPTED, 0, 44));
    CHECK(wave_is(kelpladder_wave_read(dest, 44), KELPLADDER_ACCEPTED, 1000, 32, 0, 44));
    CHECK(written_is(kelpladder_wave_write(dest, sizeof dest, 500000, 1, reel, 5), KELPLADDER_ACCEPTED, 0, 54));
    CHECK(wave_is(kelpladder_wave_read(dest, sizeof dest), KELPLADDER_ACCEPTED, 500000, 1, 5, 44));
    CHECK(dest[44] == 0x00 && dest[45] == 0x80 && dest[52] == 9 && dest[53] == 0);
}

static void refuses_wave(uint32_t rate, uint32_t channels, size_t samples, size_t room, uint32_t refusal, uint32_t given)
{
    uint8_t dest[64];
    memset(dest, 7, sizeof dest);
    CHECK(written_is(kelpladder_wave_write(dest, room, rate, channels, reel, samples), refusal, given, 0));
    CHECK(all_are(dest, sizeof dest, 7));
}

/* 1, then 2, then 9; beside each, what is accepted is above. */
static void refuses_writing_waves(void)
{
    refuses_wave(999, 0, 5, 0, KELPLADDER_BAD_RATE, 999);
    refuses_wave(500001, 1, 5, 64, KELPLADDER_BAD_RATE, 500001);
    refuses_wave(0, 33, 5, 64, KELPLADDER_BAD_RATE, 0);
    refuses_wave(UINT32_MAX, 2, 0, 64, KELPLADDER_BAD_RATE, UINT32_MAX);
    refuses_wave(1000, 0, 5, 0, KELPLADDER_BAD_CHANNELS, 0);
    refuses_wave(500000, 33, 5, 64, KELPLADDER_BAD_CHANNELS, 33);
    refuses_wave(44100, 65537, 5, 64, KELPLADDER_BAD_CHANNELS, 65537);
    refuses_wave(44100, 2, 5, 51, KELPLADDER_BAD_SIZE, 0);
    refuses_wave(44100, 1, 5, 53, KELPLADDER_BAD_SIZE, 0);
    refuses_wave(44100, 32, 5, 43, KELPLADDER_BAD_SIZE, 0);
    refuses_wave(44100, 2, 0, 0, KELPLADDER_BAD_SIZE, 0);
}

/* The most samples of a file; a partial frame behind them does not count. */
static void limits_waves(void)
{
    int16_t *samples = calloc(LONGEST + 2, sizeof *samples);
    uint8_t *dest = calloc(44 + 2 * ((size_t)LONGEST + 2), 1);
    check(samples != NULL && dest != NULL, "room for the longest file", __LINE__);
    CHECK(written_is(kelpladder_wave_write(dest, 44 + 2 * ((size_t)LONGEST + 2), RATE, 1, samples, LONGEST + 1), KELPLADDER_BAD_SIZE, 0, 0));
    CHECK(written_is(kelpladder_wave_write(dest, 44 + 2 * ((size_t)LONGEST + 2), RATE, 2, samples, LONGEST + 2), KELPLADDER_BAD_SIZE, 0, 0));
    CHECK(dest[0] == 0);
    CHECK(written_is(kelpladder_wave_write(dest, 44 + 2 * (size_t)LONGEST, RATE, 2, samples, LONGEST + 1), KELPLADDER_ACCEPTED, 0,
                     44 + 2 * (size_t)LONGEST));
    CHECK(wave_is(kelpladder_wave_read(dest, 44 + 2 * (size_t)LONGEST), KELPLADDER_ACCEPTED, RATE, 2, LONGEST / 2, 44));
    free(samples);
    free(dest);
}

/* The file with one byte changed. */
static kelpladder_wave read_changed(size_t place, uint8_t byte)
{
    uint8_t changed[52];
    memcpy(changed, file, sizeof file);
    changed[place] = byte;
    return kelpladder_wave_read(changed, sizeof changed);
}

/* 8, 9 and 10, in which every other field is 0; and fields that are not read. */
static void refuses_reading_waves(void)
{
    size_t length;
    for (length = 0; length < 52; length++)
        CHECK(wave_is(kelpladder_wave_read(file, length),
                      length < 12 ? KELPLADDER_NOT_WAVE : length == 12 || length == 36 ? KELPLADDER_BAD_FORMAT : KELPLADDER_BAD_SIZE, 0, 0, 0, 0));
    CHECK(wave_is(read_changed(3, 'X'), KELPLADDER_NOT_WAVE, 0, 0, 0, 0));
    CHECK(wave_is(read_changed(8, 'w'), KELPLADDER_NOT_WAVE, 0, 0, 0, 0));
    CHECK(wave_is(read_changed(16, 255), KELPLADDER_BAD_SIZE, 0, 0, 0, 0));
    CHECK(wave_is(read_changed(43, 255), KELPLADDER_BAD_SIZE, 0, 0, 0, 0));
    CHECK(wave_is(read_changed(15, 0), KELPLADDER_BAD_FORMAT, 0, 0, 0, 0));
    CHECK(wave_is(read_changed(20, 3), KELPLADDER_BAD_FORMAT, 0, 0, 0, 0));
    CHECK(wave_is(read_changed(22, 0), KELPLADDER_BAD_FORMAT, 0, 0, 0, 0));
    CHECK(wave_is(read_changed(23, 1), KELPLADDER_BAD_FORMAT, 0, 0, 0, 0));
    CHECK(wave_is(read_changed(26, 255), KELPLADDER_BAD_FORMAT, 0, 0, 0, 0));
    CHECK(wave_is(read_changed(34, 8), KELPLADDER_BAD_FORMAT, 0, 0, 0, 0));
    CHECK(wave_is(read_changed(4, 0), KELPLADDER_ACCEPTED, 44100, 2, 2, 44));
    CHECK(wave_is(read_changed(28, 0), KELPLADDER_ACCEPTED, 44100, 2, 2, 44));
    CHECK(wave_is(read_changed(32, 0), KELPLADDER_ACCEPTED, 44100, 2, 2, 44));
    CHECK(wave_is(read_changed(40, 7), KELPLADDER_ACCEPTED, 44100, 2, 1, 44));
}

/* A null pointer with length 0, as bytes, as destination and as samples. */
static void takes_null_pointers_of_waves(void)
{
    uint8_t dest[44];
    CHECK(wave_is(kelpladder_wave_read(NULL, 0), KELPLADDER_NOT_WAVE, 0, 0, 0, 0));
    CHECK(written_is(kelpladder_wave_write(NULL, 0, RATE, 1, reel, 5), KELPLADDER_BAD_SIZE, 0, 0));
    CHECK(written_is(kelpladder_wave_write(NULL, 0, RATE, 1, NULL, 0), KELPLADDER_BAD_SIZE, 0, 0));
    CHECK(written_is(kelpladder_wave_write(NULL, 0, 999, 1, NULL, 0), KELPLADDER_BAD_RATE, 999, 0));
    CHECK(written_is(kelpladder_wave_write(dest, sizeof dest, RATE, 1, NULL, 0), KELPLADDER_ACCEPTED, 0, 44));
    CHECK(wave_is(kelpladder_wave_read(dest, sizeof dest), KELPLADDER_ACCEPTED, RATE, 1, 0, 44));
}

/* A file's samples, each as n/32767 into a write, wait as they are, but -32768 as -32767. */
static void writes_the_samples_of_a_wave(void)
{
    kelpladder_wave wave = kelpladder_wave_read(file, sizeof file);
    float samples[4];
    size_t i;
    for (i = 0; i < 4; i++)
        samples[i] = (float)(int16_t)(file[wave.begin + 2 * i] | file[wave.begin + 2 * i + 1] << 8) / 32767.0f;
    CHECK(write_all(fresh(2), samples, 4).stream.waiting == 2);
    CHECK(output[0] == -32767 && output[1] == 32767 && output[2] == -2 && output[3] == 258);
}

int main(void)
{
    speak(0, AREA, 62);
    opens();
    opens_with_ties();
    sets();
    refuses_bad_streams();
    refuses_writes();
    refuses_long_areas();
    hands_back_not_numbers();
    takes_null_pointers_in_writes();
    takes_null_pointers_elsewhere();
    copies();
    gives();
    stretches();
    pitches();
    keeps_the_tail();
    counts_the_frames_alone();
    stalls();
    leaves_stalls();
    flushes();
    counts();
    counts_flushes_and_stalls();
    refuses_full_totals();
    accepts_full_totals();
    sets_step_over();
    steps_over();
    refuses_stepping_over();
    breaks_ties();
    tells_no_sum();
    skims_silence();
    writes_waves();
    refuses_writing_waves();
    limits_waves();
    refuses_reading_waves();
    takes_null_pointers_of_waves();
    writes_the_samples_of_a_wave();
    printf("header: %u checks of the C interface hold\n", checks);
    return 0;
}
