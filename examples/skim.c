/* The user's job in C: 8,000 Hz mono 16-bit PCM from standard input to standard output, at speed 20 and pitch 0.5, stepping over pitch
 * periods that give no frame, for a little-endian machine. Exit status: 0, or 2 if a call was refused or a file failed.
 *
 *   make stream
 *   cc -I include examples/skim.c target/staticlib/libsonic_c.a -o skim
 *
 * or, where it is installed: cc examples/skim.c $(pkg-config --cflags --libs kelpladder) -o skim */
#include "kelpladder.h"

#include <stdio.h>

enum { FRAMES = 4096, AREA = 65536, SCRATCH = 2 * (8000 / 65) };

/* Reads the frames waiting and writes them out. */
static int write_out(kelpladder_stream *stream, int16_t *output) {
    static float values[AREA];
    static int16_t samples[AREA];
    kelpladder_gave gave = kelpladder_read_f32(*stream, AREA, values, AREA, output, AREA);
    for (size_t i = 0; i < gave.frames; i++) {
        samples[i] = (int16_t)(values[i] * 32767.0f + (values[i] < 0 ? -0.5f : 0.5f));
    }
    *stream = gave.stream;
    return gave.refusal == KELPLADDER_ACCEPTED && fwrite(samples, sizeof *samples, gave.frames, stdout) == gave.frames;
}

int main(void) {
    static int16_t input[AREA], stage[AREA], output[AREA], scratch[SCRATCH], block[FRAMES];
    static float samples[FRAMES];
    size_t count, passed = 0;

    kelpladder_stream stream = kelpladder_open(8000, 1).stream;
    stream = kelpladder_set_speed(stream, 20).stream;
    stream = kelpladder_set_pitch(stream, 0.5f).stream;
    stream = kelpladder_set_step_over(stream, 1).stream;

    while ((count = fread(block, sizeof *block, FRAMES, stdin)) > 0) {
        for (size_t i = 0; i < count; i++) {
            samples[i] = (float)block[i] / 32767.0f;
        }
        kelpladder_wrote wrote = kelpladder_write_f32(stream, samples, count, input, AREA, stage, AREA, output, AREA, scratch, SCRATCH);
        stream = wrote.stream;
        if (wrote.refusal != KELPLADDER_ACCEPTED || !write_out(&stream, output)) {
            fprintf(stderr, "refusal %u, or no output\n", wrote.refusal);
            return 2;
        }
        passed += wrote.told.passed;
    }
    fprintf(stderr, "%zu pitch periods passed over, the flush apart\n", passed);
    kelpladder_wrote wrote = kelpladder_flush(stream, input, AREA, stage, AREA, output, AREA, scratch, SCRATCH);
    stream = wrote.stream;
    return wrote.refusal == KELPLADDER_ACCEPTED && write_out(&stream, output) && !ferror(stdin) ? 0 : 2;
}
