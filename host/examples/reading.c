/* Reads a few samples through three readers and meets refusals on purpose. examples/reading.rs does the same in Rust; both print examples/reading.txt.
 * A line is the reader, the number of the call from 0, and the answer's pattern in hex, or `refused` and the number. */
#include "fugnadri.h"

#include <inttypes.h>
#include <math.h>
#include <stdio.h>
#include <stdlib.h>

static void say(const char *reader, int call, uint8_t number, int digits, uint64_t pattern)
{
    if (number == 0)
        printf("%s %d %0*" PRIX64 "\n", reader, call, digits, pattern);
    else
        printf("%s %d refused %d\n", reader, call, number);
}

/* The delay 1.5 over a ring of 8; the fourth call's delay is below zero, and the fifth goes on as if that had not been. */
static void cubic(void)
{
    static const double calls[6][2] = {{1, 1.5}, {2, 1.5}, {3, 1.5}, {4, -1}, {4, 1.5}, {NAN, 1.5}};
    double ring[8];
    uint64_t accepted, sample;
    if (fugnadri_open(0, 0, &accepted, ring, 8) != 0)
        exit(1);
    for (int n = 0; n < 6; n++) {
        uint8_t number = fugnadri_cubic_process_bits(0, 0, &accepted, ring, 8, calls[n][0], calls[n][1], &sample);
        say("cubic", n, number, 16, sample);
    }
}

/* A table of 32 taps and 64 phases over float, read at the delay that the modulation asks for. */
static void sinc(void)
{
    static float ring[1024], table[65 * 32];
    uint64_t accepted, words[15] = {0};
    double left, right;
    uint32_t sample;
    if (fugnadri_engine_new(48000, 1, words) != 0 || fugnadri_windowed_sinc_f32_new(32, 64, 1, 12, table, 65 * 32) != 0 ||
        fugnadri_open_f32(1000, 0, &accepted, ring, 1024) != 0)
        exit(1);
    for (int n = 0; n < 4; n++) {
        if (fugnadri_engine_next(words, 0.55, 8, 0, 12, 0, 0, 0, 0, &left, &right) != 0)
            exit(1);
        uint8_t number = fugnadri_windowed_sinc_f32_process_bits(1000, 0, &accepted, ring, 1024, 1.0f / (float)(n + 1), left - 63, table, 65 * 32, 32, 64, &sample);
        say("sinc", n, number, 8, sample);
    }
}

/* A bank of one set; the second call starts a change from Draft to Normal that takes two calls. */
static void quality(void)
{
    static float ring[256];
    size_t length = fugnadri_bank_length(1);
    float sample, *sets = calloc(length, sizeof *sets);
    uint64_t accepted;
    uint8_t current, target, rule, direction;
    uint32_t position;
    if (sets == NULL || fugnadri_bank_build(1, sets, length) != 0 ||
        fugnadri_quality_open(100, 64, 0, 2, &accepted, &current, &target, &position, &rule, &direction, ring, 256) != 0)
        exit(1);
    for (int n = 0; n < 4; n++) {
        uint8_t number = fugnadri_quality_process(100, 64, &accepted, &current, &target, &position, 2, rule, &direction, ring, 256, sets, length, 1, (float)(n + 1), 0.5, n > 0, &sample);
        say("quality", n, number, 8, fugnadri_bits_of_f32(sample));
    }
    free(sets);
}

int main(void)
{
    float none[1];
    cubic();
    sinc();
    quality();
    /* a table of an odd number of taps */
    say("table", 0, fugnadri_windowed_sinc_f32_new(5, 64, 1, 12, none, 1), 8, 0);
    return 0;
}
