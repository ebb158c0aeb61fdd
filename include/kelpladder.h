/* Kelpladder: the Sonic speech stretcher over lent areas, for C.
 *
 * A sample in an area is one int16_t; a frame is one sample per channel, interleaved. Counts of frames and of samples are named for
 * their unit. The stream is a value: each call takes one and hands one back. Its samples are in four areas that the caller lends:
 *   input    written frames not yet used
 *   stage    the tail of the rate conversion, and behind it the frames that a call copies or stretches. At pitch 1 these go straight from
 *            the input to the output: the stage then needs the length of the tail or of these frames, whichever is more, not of both
 *   output   frames waiting to be read
 *   scratch  averages; free after any call
 * The caller passes the stream and the areas of the call before, and changes neither. Areas may be longer or shorter from call to call.
 * A refused call changes nothing that is kept.
 *
 * What the caller owes, and no call can test. During a call each area, the samples, slices and bytes are valid for their lengths and aligned
 * as their type, no two of them overlap, and nobody else uses them. A null pointer with length 0 is an empty area or slice like any other:
 * nothing is read or written through it (a scratch of length 0 is refused with 4). A null pointer with another length is not allowed.
 * Any stream value and any lengths are allowed: bad ones are refused. The floating-point environment is the default one: round to
 * nearest even, exceptions masked, neither flush-to-zero nor denormals-are-zero. Another rounding changes frames. Flush-to-zero and
 * denormals-are-zero, which audio hosts set, are outside of what is proved; they were seen to change no answer to a stream that
 * kelpladder_open gave and the calls handed on, whose numbers are 0 or far from subnormal, but they can change that to a made-up one
 * (tests/environment.c). The library is for x86-64. A call takes less than 6,000 bytes of stack and no heap, uses memset of the C library
 * and nothing else, and shares nothing: threads may call at the same time, each with its own stream and areas. */
#ifndef KELPLADDER_H
#define KELPLADDER_H

#include <stddef.h>
#include <stdint.h>

#ifdef __cplusplus
extern "C" {
#endif

/* Numbers of refusal; 0 if a call was accepted. They are tested in this order. */
enum kelpladder_refusal {
    KELPLADDER_ACCEPTED = 0,
    KELPLADDER_BAD_RATE = 1,     /* opening: rate outside 1,000..=500,000 */
    KELPLADDER_BAD_CHANNELS = 2, /* opening: channels outside 1..=32 */
    KELPLADDER_BAD_STREAM = 3,   /* the stream value is not in order */
    KELPLADDER_BAD_AREAS = 4,    /* an area above 16,777,216 samples, a scratch below 2*(rate/65), or an area below what the stream holds */
    KELPLADDER_INPUT_FULL = 5,   /* frames held plus frames added exceed the input area */
    KELPLADDER_STAGE_FULL = 6,   /* tail plus frames copied or stretched exceed the stage; at pitch 1 these frames alone */
    KELPLADDER_OUTPUT_FULL = 7,  /* frames waiting plus frames made exceed the output area */
    KELPLADDER_NOT_WAVE = 8,     /* WAVE, reading: no RIFF and WAVE at its head */
    KELPLADDER_BAD_SIZE = 9,     /* WAVE, reading: a chunk ends past the file; writing: above 16,777,216 samples, or a destination too short */
    KELPLADDER_BAD_FORMAT = 10,  /* WAVE, reading: no data chunk, or its samples are not of a format that is read */
    KELPLADDER_TOTAL_FULL = 12   /* a total of the balance would pass 64 bits */
};

/* How an accepted write or flush went. A stream that steps over does not stall. */
enum kelpladder_outcome {
    KELPLADDER_EMPTY = 0,     /* nothing is held */
    KELPLADDER_COPIED = 1,    /* all frames held went on unstretched */
    KELPLADDER_WAITING = 2,   /* a stretch is due, and too few frames are held */
    KELPLADDER_STRETCHED = 3, /* stretched */
    KELPLADDER_STALLED = 4    /* a step gave no frame and ended the call: the frames made before it went on, nothing left the input */
};

/* Of several periods with the same least mean of differences, the one that a search finds. */
enum kelpladder_ties {
    KELPLADDER_SMALLEST = 0,
    KELPLADDER_LARGEST = 1
};

/* Totals over all accepted writes and flushes that did not stall. Over these calls, frames out of the stretch or copy, before the rate
 * conversion, plus skipped equals frames used plus inserted; frames that a flush clears are not used. */
typedef struct kelpladder_balance {
    uint64_t skipped;         /* frames of periods skipped, those passed over among them */
    uint64_t inserted;        /* frames of periods inserted */
} kelpladder_balance;

/* The stream's value. */
typedef struct kelpladder_stream {
    uint32_t rate;            /* Hz */
    uint32_t channels;
    float speed;
    float pitch;
    float volume;
    float sample_period;      /* seconds */
    float input_play_time;    /* seconds that the frames held are to last */
    float time_error;         /* seconds */
    size_t old_rate_position;
    size_t new_rate_position;
    size_t prev_period;       /* frames; 0 before the first search */
    size_t prev_min_diff;
    size_t held;              /* frames in the input area */
    size_t tail;              /* frames in the stage */
    size_t waiting;           /* frames in the output area */
    kelpladder_balance balance;
    uint32_t step_over;       /* 0: off; any other value: on */
    uint32_t ties;            /* of equal means 0: the smallest period; any other value: the largest. Fixed at the opening */
} kelpladder_stream;

/* An opening: refused, `given` is the rate or the channels given, and every field of the stream is 0. */
typedef struct kelpladder_opened {
    uint32_t refusal;
    uint32_t given;           /* 0 if accepted */
    kelpladder_stream stream;
} kelpladder_opened;

/* A setting. */
typedef struct kelpladder_changed {
    uint32_t refusal;
    kelpladder_stream stream;
} kelpladder_changed;

/* The frames waiting; 0 if refused. */
typedef struct kelpladder_available {
    uint32_t refusal;
    size_t frames;
    kelpladder_stream stream;
} kelpladder_available;

/* What is told of an accepted write or flush; every field is 0 if refused. */
typedef struct kelpladder_told {
    uint32_t outcome;
    size_t passed;            /* periods passed over in this call, those of a flush's own silence among them */
    size_t sum;               /* sum of differences of the period that the last search of this call found; 0 if it made none */
} kelpladder_told;

/* A write or a flush. */
typedef struct kelpladder_wrote {
    uint32_t refusal;
    kelpladder_told told;
    kelpladder_stream stream;
} kelpladder_wrote;

/* A read: the frames given; 0 if refused. */
typedef struct kelpladder_gave {
    uint32_t refusal;
    size_t frames;
    kelpladder_stream stream;
} kelpladder_gave;

/* Opens a stream; refusals 1 and 2. Its searches find the smallest of several periods with the same mean. */
kelpladder_opened kelpladder_open(uint32_t rate, uint32_t channels);

/* The same, with the period that searches find of several with the same mean: 0 the smallest, any other number the largest. A refused
 * opening's stream has 0. */
kelpladder_opened kelpladder_open_with_ties(uint32_t rate, uint32_t channels, uint32_t ties);

/* Set the speed or the pitch (0.05..=20) or the volume (0.01..=100), each held to its range, a NaN to its lower end; refusal 3. */
kelpladder_changed kelpladder_set_speed(kelpladder_stream stream, float speed);
kelpladder_changed kelpladder_set_pitch(kelpladder_stream stream, float pitch);
kelpladder_changed kelpladder_set_volume(kelpladder_stream stream, float volume);

/* Sets whether the stream steps over: 0 off, as at opening, any other number on; refusal 3. While it is on, a step that gives no frame
 * uses up its period and makes nothing, and the call goes on behind it; no call stalls. */
kelpladder_changed kelpladder_set_step_over(kelpladder_stream stream, uint32_t on);

/* The frames waiting to be read; refusal 3. */
kelpladder_available kelpladder_available_frames(kelpladder_stream stream);

/* Writes the whole frames of the samples; a partial last frame is dropped. Refusals 3 to 7 and 12. Each pointer is followed by its
 * length. */
kelpladder_wrote kelpladder_write_f32(kelpladder_stream stream, const float *samples, size_t samples_length,
                                      int16_t *input, size_t input_length, int16_t *stage, size_t stage_length,
                                      int16_t *output, size_t output_length, int16_t *scratch, size_t scratch_length);

/* Gives the least of the frames waiting, `most_frames` and the whole frames of the slice; its other places stay. Refusals 3 and 4. The
 * frames that wait on are moved to the front of the output, so a read of few frames out of many costs most; one of all moves nothing. */
kelpladder_gave kelpladder_read_f32(kelpladder_stream stream, size_t most_frames, float *slice, size_t slice_length,
                                    int16_t *output, size_t output_length);

/* Makes frames of what is held and of silence, keeps those expected, and clears what is held. Refusals 3 to 7 and 12. */
kelpladder_wrote kelpladder_flush(kelpladder_stream stream, int16_t *input, size_t input_length, int16_t *stage, size_t stage_length,
                                  int16_t *output, size_t output_length, int16_t *scratch, size_t scratch_length);

/* What reading a WAVE file answers; every field but the first is 0 if refused. */
typedef struct kelpladder_wave {
    uint32_t refusal;
    uint32_t rate;            /* frames a second */
    uint32_t channels;
    size_t frames;            /* whole frames; a partial last frame is left out */
    size_t begin;             /* the byte at which their samples begin: 16 bits each, the low byte first, channels interleaved */
} kelpladder_wave;

/* What writing a WAVE file answers. */
typedef struct kelpladder_wave_written {
    uint32_t refusal;
    uint32_t given;           /* with 1 the rate, with 2 the channels given; otherwise 0 */
    size_t bytes;             /* of the file: 44 and two for each sample; 0 if refused */
} kelpladder_wave_written;

/* Reads the head of a RIFF/WAVE file of 16-bit PCM, up to its data chunk, and no sample. Refused, in this order: 8 without RIFF and WAVE at
 * its head; 9 if a chunk up to and including data ends past the file, where the eight bytes of a chunk's head count, and the byte of padding
 * behind an odd size, but not that of data; 10 without a data chunk, without a fmt chunk of 16 bytes or more before it, or if the first such
 * chunk has a tag other than 1, bits other than 16, or a rate or channels that no stream takes. Not read: the size behind RIFF, the byte
 * rate, the block size, and anything behind the samples. */
kelpladder_wave kelpladder_wave_read(const uint8_t *bytes, size_t bytes_length);

/* Writes a file of the whole frames of the samples to the front of the destination. Refusals 1 and 2 as at opening, then 9. Behind the file,
 * and if refused, the destination stays as it is. The sample n of a file goes into kelpladder_write_f32 as n/32767.0f; each comes back as
 * itself, but -32768 as -32767. */
kelpladder_wave_written kelpladder_wave_write(uint8_t *dest, size_t dest_length, uint32_t rate, uint32_t channels,
                                              const int16_t *samples, size_t samples_length);

#ifdef __cplusplus
}
#endif

#endif
