/* The two calls for WAVE files as a program, for tests/wave_files.py:
     wave_file FILE            prints what kelpladder_wave_read answers: refusal, rate, channels, frames and begin
     wave_file RATE CHANNELS   writes a file of the samples on standard input to standard output, or prints the refusal and what was given on
                               standard error */
#include "kelpladder.h"

#include <stdio.h>
#include <stdlib.h>

#define MOST 4000000u /* bytes */

static uint8_t source[MOST], dest[MOST + 44];
static int16_t samples[MOST / 2];

static int print_read(const char *name)
{
    FILE *file = fopen(name, "rb");
    size_t length;
    kelpladder_wave wave;
    if (file == NULL) {
        perror(name);
        return 2;
    }
    length = fread(source, 1, MOST, file);
    fclose(file);
    wave = kelpladder_wave_read(source, length);
    printf("%u %u %u %zu %zu\n", (unsigned)wave.refusal, (unsigned)wave.rate, (unsigned)wave.channels, wave.frames, wave.begin);
    return 0;
}

static int write_input(uint32_t rate, uint32_t channels)
{
    size_t count = fread(samples, 2, MOST / 2, stdin);
    kelpladder_wave_written written = kelpladder_wave_write(dest, sizeof dest, rate, channels, samples, count);
    if (written.refusal != KELPLADDER_ACCEPTED) {
        fprintf(stderr, "%u %u\n", (unsigned)written.refusal, (unsigned)written.given);
        return 1;
    }
    return fwrite(dest, 1, written.bytes, stdout) == written.bytes ? 0 : 1;
}

int main(int count, char **words)
{
    if (count == 2)
        return print_read(words[1]);
    if (count == 3)
        return write_input((uint32_t)strtoul(words[1], NULL, 10), (uint32_t)strtoul(words[2], NULL, 10));
    fprintf(stderr, "wave_file FILE | RATE CHANNELS\n");
    return 2;
}
