/* fugnadri.h: every function that Fugnadri's static libraries export, for C. Version 0.2.0.
 *
 * The libraries are x86-64 code for Linux (System V calls), for processors with SSE4.2 (x86-64-v2), and host/libraries
 * makes them: libfugnadri.a, libfugnadri_wander.a, libfugnadri_numbers.a, libfugnadri_tables.a, libfugnadri_bank.a,
 * libfugnadri_told.a, libfugnadri_stretches.a, libfugnadri_room.a, libfugnadri_oversampled.a,
 * libfugnadri_oversampled_told.a, libfugnadri_wav.a, libfugnadri_wav_write.a, libfugnadri_aiff.a,
 * libfugnadri_residual.a. They want `memset` and nothing else of a C library, allocate nothing, keep nothing between
 * calls, and may be called by any thread that owns what it lends.
 *
 * Lent memory: a slice is a pointer to its first element and a length in elements. A pointer is never null; that of an
 * empty slice may be any other aligned address. What is written through must not overlap anything else that is lent in
 * the same call.
 *
 * Answers: where a function returns uint8_t, that is the refusal's number, 0 for none. A refused call writes 0 through
 * each pointer to an answer (a sample, a value, offsets, a choice of sets, a file's part or length). It leaves a state,
 * also one that it was to open, and every lent element as they were; of a whole stretch this holds item by item. Each
 * function is proved to answer as said for all arguments.
 *
 *   1  a setting or an argument is outside its range
 *   2  a lent ring, table, bank or stretch has not the needed length, or more of a file's first bytes are needed
 *   3  a field of the state is outside its range
 *   4  the input sample is NaN or infinite
 *   5  the delay is NaN, infinite or below zero
 *   6  the delay is above 2^36
 *   7  the playback rate is NaN
 *   8  2^36 samples were accepted already
 *   9  the file is not RIFF WAVE (where headers are read, none of RIFF, RF64 and BW64 with WAVE), or its RIFF size is
 *      under 4
 *  10  a chunk of the file, or its RIFF or FORM, runs past the end
 *  11  the file has no `fmt ` before its first `data`
 *  12  the file has no `data`
 *  13  the samples are of a kind that is not read or written, the file's `fmt ` is under 16 bytes, or its sizes do not
 *      agree
 *  14  the buffer is shorter than the file or the header that is to be written
 *  15  a sample that is to be written is NaN or does not fit
 *  16  every slot of the room is held, and none has this rate and mode
 *  17  the desk does not hold the set that it gives up
 *  18  the RF64 or BW64 file's ds64 is missing or not first
 *  19  a size of the file is above 2^40 bytes
 *  20  the file is not AIFF, or its FORM size is under 4
 *  21  `COMM` or `SSND` is missing or too short, its offset lies past the end, or it has fewer frames than it says
 *  22  the AIFF's rate is not a whole number from 8000 to 768000
 *
 * They are tested in this order, and the first that is due is given; of a WAV file's header in the order 1, 2, 9, 18,
 * 19, 10 to 13, where one is written 1, 2, 19, 13, 14, 15, and of an AIFF file 20, 10, 21, 13, 21 for the frames, 22.
 * `maximum`, `margin`, taps, phases, rates and the fade length are settings (1) wherever they are handed in. Of the
 * NaNs only two patterns are handed out, as a float too: 7FF8000000000000, and 7FC00000 for float. A name that ends in
 * _bits is the same call with floats as IEEE 754 patterns.
 */
#ifndef FUGNADRI_H
#define FUGNADRI_H

#include <stddef.h>
#include <stdint.h>

#define FUGNADRI_VERSION "0.2.0"

#ifdef __cplusplus
extern "C" {
#endif

enum {
    FUGNADRI_SETTING = 1,
    FUGNADRI_LENGTH = 2,
    FUGNADRI_STATE = 3,
    FUGNADRI_INPUT = 4,
    FUGNADRI_DELAY = 5,
    FUGNADRI_LONG_DELAY = 6,
    FUGNADRI_RATE = 7,
    FUGNADRI_FULL = 8,
    FUGNADRI_NOT_WAVE = 9,
    FUGNADRI_OVERRUN = 10,
    FUGNADRI_NO_FORMAT = 11,
    FUGNADRI_NO_DATA = 12,
    FUGNADRI_KIND = 13,
    FUGNADRI_ROOM = 14,
    FUGNADRI_SAMPLE = 15,
    FUGNADRI_ALL_HELD = 16,
    FUGNADRI_NOT_HELD = 17,
    FUGNADRI_NO_SIZES = 18,
    FUGNADRI_LARGE_SIZE = 19,
    FUGNADRI_NOT_AIFF = 20,
    FUGNADRI_SOUND = 21,
    FUGNADRI_SOUND_RATE = 22
};

/* ---- libfugnadri.a: delay readers without a table -------------------------------------------------------------------
 *
 * A reader is `maximum` (the longest delay, in samples), `margin` (the kernel's), `accepted` (how many samples it has
 * accepted) and a ring, whose length is maximum + 2 * margin + 8 raised to the next power of two, at most 2^24. Open it
 * once; hand the four on as the last call left them. */

/* Zeroes the ring and the count. Refused by 1 or 2; reset by 3 too. */
uint8_t fugnadri_open(size_t maximum, size_t margin, uint64_t *accepted, double *ring, size_t ring_len);
uint8_t fugnadri_reset(size_t maximum, size_t margin, uint64_t *accepted, double *ring, size_t ring_len);

/* One call: `input` is stored, `accepted` grows by 1, `*sample` is what the kernel reads `delay` samples behind it.
 * Refused by 1 to 6 or 8. cubic: four points. lagrange: `taps` even, 2 to 16, else 1. farrow8: eight points. */
uint8_t fugnadri_cubic_process(size_t maximum, size_t margin, uint64_t *accepted, double *ring, size_t ring_len,
    double input, double delay, double *sample);
uint8_t fugnadri_cubic_process_bits(size_t maximum, size_t margin, uint64_t *accepted, double *ring, size_t ring_len,
    double input, double delay, uint64_t *sample);
uint8_t fugnadri_lagrange_process(size_t maximum, size_t margin, uint64_t *accepted, double *ring, size_t ring_len,
    double input, double delay, uint64_t taps, double *sample);
uint8_t fugnadri_lagrange_process_bits(size_t maximum, size_t margin, uint64_t *accepted, double *ring, size_t ring_len,
    double input, double delay, uint64_t taps, uint64_t *sample);
uint8_t fugnadri_farrow8_process(size_t maximum, size_t margin, uint64_t *accepted, double *ring, size_t ring_len,
    double input, double delay, double *sample);
uint8_t fugnadri_farrow8_process_bits(size_t maximum, size_t margin, uint64_t *accepted, double *ring, size_t ring_len,
    double input, double delay, uint64_t *sample);

/* A kernel over a slice at a position from -2^36 to 2^36; before the start and past the end stands zero. `count` is
 * source_len for a plain slice; with another count the slice is a ring that has accepted so many samples. Refused by 1:
 * the position, or the taps. */
uint8_t fugnadri_cubic_sample(const double *source, size_t source_len, uint64_t count, double position, double *sample);
uint8_t fugnadri_cubic_sample_bits(const double *source, size_t source_len, uint64_t count, double position,
    uint64_t *sample);
uint8_t fugnadri_lagrange_sample(const double *source, size_t source_len, uint64_t count, double position,
    uint64_t taps, double *sample);
uint8_t fugnadri_lagrange_sample_bits(const double *source, size_t source_len, uint64_t count, double position,
    uint64_t taps, uint64_t *sample);
uint8_t fugnadri_farrow8_sample(const double *source, size_t source_len, uint64_t count, double position,
    double *sample);
uint8_t fugnadri_farrow8_sample_bits(const double *source, size_t source_len, uint64_t count, double position,
    uint64_t *sample);

/* ---- libfugnadri_wander.a: modulation -------------------------------------------------------------------------------
 *
 * The engine's state is 15 words: the sample rate, the two phases, then six for each generator; a float is its pattern.
 * Sample rate 8000 to 768000. A refusal by 1 is for an argument or the kept sample rate, by 3 for any other word. */

/* Refused by 1. The words may hold anything before; a refusal leaves them. */
uint8_t fugnadri_engine_new(double sample_rate, uint64_t seed, uint64_t words[15]);
/* Refused by 1 or 3. A seed that a generator holds already leaves it as it is. */
uint8_t fugnadri_engine_set_sample_rate(uint64_t words[15], double sample_rate);
uint8_t fugnadri_engine_set_seed(uint64_t words[15], uint64_t seed);
uint8_t fugnadri_engine_reset(uint64_t words[15]);
/* The two sides' delay offsets in samples, then one step. All eight finite, rates -1000 to 1000, depths -1200 to 1200;
 * shapes are clamped to -1..1, drift and stereo to 0..1. Refused by 1 or 3. */
uint8_t fugnadri_engine_next(uint64_t words[15], double wow_rate_hz, double wow_depth_cents, double wow_shape,
    double flutter_rate_hz, double flutter_depth_cents, double flutter_shape, double drift_amount, double stereo_amount,
    double *left, double *right);

/* What stands outside the engine; each refused by 1 alone. Depths, rates and sample rates as above; the phase of
 * advance_phase at least 0 and below 2 pi, the others' -51 to 51; min_rate_hz 0.001 to 1000; shape finite. An empty
 * list of depths gives -0.0. */
uint8_t fugnadri_speed_delta(double depth_cents, double *result);
uint8_t fugnadri_advance_phase(double phase, double rate_hz, double sample_rate, double *result);
uint8_t fugnadri_shape_primitive(double phase, double shape, double *result);
uint8_t fugnadri_oscillator_delay(double phase, double rate_hz, double depth_cents, double shape, double sample_rate,
    double *result);
uint8_t fugnadri_maximum_delay_excursion_samples(double max_depth_cents, double min_rate_hz, double sample_rate,
    double *result);
uint8_t fugnadri_maximum_rate_delta(const double *depths_cents, size_t depths_cents_len, double *result);

/* ---- libfugnadri_numbers.a: numbers ------------------------------------------------------------------------------ */

/* Sine and cosine of a magnitude up to 256, 2^x of one up to 1: refused by 1 beyond, and at NaN. _value hands the value
 * out, 0.0 where refused. */
uint8_t fugnadri_sine(double x, double *result);
double fugnadri_sine_value(double x);
uint8_t fugnadri_cosine(double x, double *result);
double fugnadri_cosine_value(double x);
uint8_t fugnadri_exp2(double x, double *result);
double fugnadri_exp2_value(double x);

/* What follows serves every argument, and refuses nothing. */

/* To the nearest float, ties to even. */
float fugnadri_narrow(double x);
uint32_t fugnadri_narrow_bits(uint64_t x);
/* a * b + c, rounded once. */
float fugnadri_fused32(float a, float b, float c);
uint32_t fugnadri_fused32_bits(uint32_t a, uint32_t b, uint32_t c);
double fugnadri_fused64(double a, double b, double c);
uint64_t fugnadri_fused64_bits(uint64_t a, uint64_t b, uint64_t c);
/* Correctly rounded. */
double fugnadri_square_root(double x);
uint64_t fugnadri_square_root_bits(uint64_t x);
/* Towards minus infinity; past an end of the range that end, 0 at NaN. */
int64_t fugnadri_floor(double x);
/* x minus its floor, rounded: it may be exactly 1. */
double fugnadri_fraction(double x);
uint64_t fugnadri_fraction_bits(uint64_t x);
/* Of a NaN and a number the number; of two that compare equal the second. */
double fugnadri_max(double x, double least);
double fugnadri_min(double x, double most);
float fugnadri_min_f32(float a, float b);
/* A NaN stays a NaN. */
double fugnadri_clamp(double x, double low, double high);
float fugnadri_clamp_f32(float a, float low, float high);
/* Modulo 2^64; a shift by 64 or more gives 0. */
uint64_t fugnadri_wrapping_mul(uint64_t a, uint64_t b);
uint64_t fugnadri_shl(uint64_t a, uint64_t n);
/* A float's pattern, with one pattern for every NaN, and the float of a pattern, with one NaN. */
uint64_t fugnadri_bits_of(double x);
double fugnadri_float_of(uint64_t n);
uint32_t fugnadri_bits_of_f32(float a);
float fugnadri_float_of_f32(uint32_t n);

/* ---- libfugnadri_tables.a: the windowed sinc ------------------------------------------------------------------------
 *
 * A table of taps and phases has (phases + 1) * taps elements. Taps even, 4 to 128; phases 2 to 4096; cutoff 1/1024 to
 * 1; beta 0 to 20. */

/* Build a table. for_max_rate: rate 1 to 2, passband above 0 to 1, cutoff = passband / max_rate. Refused by 1 or 2. */
uint8_t fugnadri_windowed_sinc_new(size_t taps, size_t phases, double cutoff, double beta, double *table,
    size_t table_len);
uint8_t fugnadri_windowed_sinc_for_max_rate(size_t taps, size_t phases, double max_rate, double passband, double beta,
    double *table, size_t table_len);
uint8_t fugnadri_windowed_sinc_f32_new(size_t taps, size_t phases, double cutoff, double beta, float *table,
    size_t table_len);
uint8_t fugnadri_windowed_sinc_f32_for_max_rate(size_t taps, size_t phases, double max_rate, double passband,
    double beta, float *table, size_t table_len);

/* The same with the window in a mode of the sum called I0: 0 the original's, which 24 terms end, so that it is not I0
 * for a beta above about 10.9; 1 full, which goes on until its terms no longer count. Any other number is refused
 * by 1. */
uint8_t fugnadri_windowed_sinc_new_in(size_t taps, size_t phases, double cutoff, double beta, uint8_t mode,
    double *table, size_t table_len);
uint8_t fugnadri_windowed_sinc_for_max_rate_in(size_t taps, size_t phases, double max_rate, double passband,
    double beta, uint8_t mode, double *table, size_t table_len);
uint8_t fugnadri_windowed_sinc_f32_new_in(size_t taps, size_t phases, double cutoff, double beta, uint8_t mode,
    float *table, size_t table_len);
uint8_t fugnadri_windowed_sinc_f32_for_max_rate_in(size_t taps, size_t phases, double max_rate, double passband,
    double beta, uint8_t mode, float *table, size_t table_len);

/* A table's reading of a slice, as the kernels' above. Refused by 1 or 2. */
uint8_t fugnadri_windowed_sinc_sample(const double *table, size_t table_len, size_t taps, size_t phases,
    const double *source, size_t source_len, uint64_t count, double position, double *sample);
uint8_t fugnadri_windowed_sinc_sample_bits(const double *table, size_t table_len, size_t taps, size_t phases,
    const double *source, size_t source_len, uint64_t count, double position, uint64_t *sample);
uint8_t fugnadri_windowed_sinc_f32_sample(const float *table, size_t table_len, size_t taps, size_t phases,
    const float *source, size_t source_len, uint64_t count, double position, float *sample);
uint8_t fugnadri_windowed_sinc_f32_sample_bits(const float *table, size_t table_len, size_t taps, size_t phases,
    const float *source, size_t source_len, uint64_t count, double position, uint32_t *sample);

/* The readers over a table; a double reader is opened by fugnadri_open. Refused as the readers above. */
uint8_t fugnadri_open_f32(size_t maximum, size_t margin, uint64_t *accepted, float *ring, size_t ring_len);
uint8_t fugnadri_reset_f32(size_t maximum, size_t margin, uint64_t *accepted, float *ring, size_t ring_len);
uint8_t fugnadri_windowed_sinc_process(size_t maximum, size_t margin, uint64_t *accepted, double *ring, size_t ring_len,
    double input, double delay, const double *table, size_t table_len, size_t taps, size_t phases, double *sample);
uint8_t fugnadri_windowed_sinc_process_bits(size_t maximum, size_t margin, uint64_t *accepted, double *ring,
    size_t ring_len, double input, double delay, const double *table, size_t table_len, size_t taps, size_t phases,
    uint64_t *sample);
uint8_t fugnadri_windowed_sinc_f32_process(size_t maximum, size_t margin, uint64_t *accepted, float *ring,
    size_t ring_len, float input, double delay, const float *table, size_t table_len, size_t taps, size_t phases,
    float *sample);
uint8_t fugnadri_windowed_sinc_f32_process_bits(size_t maximum, size_t margin, uint64_t *accepted, float *ring,
    size_t ring_len, float input, double delay, const float *table, size_t table_len, size_t taps, size_t phases,
    uint32_t *sample);

/* ---- libfugnadri_bank.a: the bank, and the reader whose quality may change ------------------------------------------
 *
 * A bank of a rate from 1 to 2 is fugnadri_bank_length(max_rate) floats: sets of 1081648, each with three tables. A
 * quality is 0 Draft, 1 Normal, 2 Hq, 3 Ultra. */

/* How many floats, how many sets (0 out of range), and the rate of a set, counted from 0 (0.0 where there is no such
 * set). */
size_t fugnadri_bank_length(double max_rate);
size_t fugnadri_bank_steps(double max_rate);
double fugnadri_bank_set_rate(double max_rate, size_t set);
/* Which sets a rate reads, counted from 0: `which` is 0 for the safe one alone, 1 for the tighter alone, 2 for both,
 * mixed by `blend`. Refused by 1 (max_rate) or 7 (rate), and then all four are zero. */
uint8_t fugnadri_bank_choose(double max_rate, double rate, size_t *safe, size_t *tighter, uint8_t *which, float *blend);
/* Build one set of a rate, or the whole bank. Refused by 1 or 2. */
uint8_t fugnadri_bank_build_set(double rate, float *set, size_t set_len);
uint8_t fugnadri_bank_build(double max_rate, float *sets, size_t sets_len);
/* The same with every window in a mode, as for a table above. */
uint8_t fugnadri_bank_build_set_in(double rate, uint8_t mode, float *set, size_t set_len);
uint8_t fugnadri_bank_build_in(double max_rate, uint8_t mode, float *sets, size_t sets_len);

/* A quality reader's state is a reader's and current, target, crossfade_position, rule, direction; crossfade_samples,
 * 0 to 16777216, is the fade's length. The opening chooses the rule for a change of quality, which stays: 0 is the
 * original's, by which asking for the current quality during a fade jumps to it; 1 runs the weight down again from
 * where it stands, and a third quality waits until the running fade has ended. The direction is 0 for a fade on its way
 * to the target, and where none runs, and 1 for one on its way back. Opening is refused by 1 or 2, and then leaves the
 * six as they were; reset by 3 too. A rule's or a direction's number above 1 is 3. */
uint8_t fugnadri_quality_open(size_t maximum, size_t margin, uint8_t quality, uint32_t crossfade_samples,
    uint64_t *accepted, uint8_t *current, uint8_t *target, uint32_t *crossfade_position, uint8_t *rule,
    uint8_t *direction, float *ring, size_t ring_len);
uint8_t fugnadri_quality_open_returning(size_t maximum, size_t margin, uint8_t quality, uint32_t crossfade_samples,
    uint64_t *accepted, uint8_t *current, uint8_t *target, uint32_t *crossfade_position, uint8_t *rule,
    uint8_t *direction, float *ring, size_t ring_len);
uint8_t fugnadri_quality_reset(size_t maximum, size_t margin, uint64_t *accepted, uint8_t *current, uint8_t *target,
    uint32_t *crossfade_position, uint32_t crossfade_samples, uint8_t rule, uint8_t *direction, float *ring,
    size_t ring_len);
/* One call at the bank's rate, or at a rate of its own, which is clamped. Refused by 1 to 6 or 8, with a rate of its
 * own by 7 too; a refused call forgets the quality that it asked for. */
uint8_t fugnadri_quality_process(size_t maximum, size_t margin, uint64_t *accepted, uint8_t *current, uint8_t *target,
    uint32_t *crossfade_position, uint32_t crossfade_samples, uint8_t rule, uint8_t *direction, float *ring,
    size_t ring_len, const float *sets, size_t sets_len, double max_rate, float input, double delay, uint8_t quality,
    float *sample);
uint8_t fugnadri_quality_process_bits(size_t maximum, size_t margin, uint64_t *accepted, uint8_t *current,
    uint8_t *target, uint32_t *crossfade_position, uint32_t crossfade_samples, uint8_t rule, uint8_t *direction,
    float *ring, size_t ring_len, const float *sets, size_t sets_len, double max_rate, float input, double delay,
    uint8_t quality, uint32_t *sample);
uint8_t fugnadri_quality_process_rate_aware(size_t maximum, size_t margin, uint64_t *accepted, uint8_t *current,
    uint8_t *target, uint32_t *crossfade_position, uint32_t crossfade_samples, uint8_t rule, uint8_t *direction,
    float *ring, size_t ring_len, const float *sets, size_t sets_len, double max_rate, float input, double delay,
    uint8_t quality, double playback_rate, float *sample);
uint8_t fugnadri_quality_process_rate_aware_bits(size_t maximum, size_t margin, uint64_t *accepted, uint8_t *current,
    uint8_t *target, uint32_t *crossfade_position, uint32_t crossfade_samples, uint8_t rule, uint8_t *direction,
    float *ring, size_t ring_len, const float *sets, size_t sets_len, double max_rate, float input, double delay,
    uint8_t quality, double playback_rate, uint32_t *sample);

/* ---- libfugnadri_room.a: one room of tables for two desks -----------------------------------------------------------
 *
 * A room is three lent slices: a rate and a mark for each slot, and the 1081648 floats of a set for each. A mark is
 * 0 for a free slot, otherwise 1, 2 or 3 if desk one, desk two or both hold it, and 4 more in the full mode. Hand all
 * three on as the last call left them. fugnadri_room_open makes every slot free and leaves the floats; it is refused by
 * 2 where the three lengths do not agree. */
uint8_t fugnadri_room_open(double *rates, size_t rates_len, uint8_t *marks, size_t marks_len, const float *slots,
    size_t slots_len);

/* A desk, 1 or 2, asks for the set of a rate from 1 to 2 in a mode, 0 (ported) or 1 (full), or gives it up. If the set
 * is there the desk shares it, whoever holds it; otherwise the first free slot is built, which takes a while. Asking
 * again for a set that the desk holds changes nothing. `*slot` is the number of the granted slot, 0 if refused. A slot
 * that nobody holds any more is free. No other slot changes. Refused by 1 (rate, desk or mode), 2 (lengths), 3 (a mark
 * of 4 or above 7, a held slot's rate outside 1 to 2, two held slots of one rate and mode), then asking by 16, giving
 * up by 17; a refused call changes nothing but `*slot`. Two desks on two threads take turns: one call at a time may
 * write a room, and none may read it meanwhile. */
uint8_t fugnadri_room_ask(uint8_t desk, double rate, uint8_t mode, double *rates, size_t rates_len, uint8_t *marks,
    size_t marks_len, float *slots, size_t slots_len, size_t *slot);
uint8_t fugnadri_room_give_up(uint8_t desk, double rate, uint8_t mode, const double *rates, size_t rates_len,
    uint8_t *marks, size_t marks_len, const float *slots, size_t slots_len);

/* A desk's call of the quality reader: `sets` gives way to a room (rates, marks and slots, as for fugnadri_room_open),
 * of which desk 1 or 2 reads the slots that it holds itself in the mode, 0 or 1. The two sets that max_rate and rate
 * choose are looked for there by their rates; where one is missing the call is refused by 2, in Draft also, and where
 * the rate is NaN none is looked for (7). A room whose lengths do not agree is 2, one that is outside its ranges 3, a
 * desk's or a mode's number that names none 1. Opening and reset are fugnadri_quality_open, _open_returning, _reset. */
uint8_t fugnadri_desk_process(uint8_t desk, uint8_t mode, size_t maximum, size_t margin, uint64_t *accepted,
    uint8_t *current, uint8_t *target, uint32_t *crossfade_position, uint32_t crossfade_samples, uint8_t rule,
    uint8_t *direction, float *ring, size_t ring_len, const double *rates, size_t rates_len, const uint8_t *marks,
    size_t marks_len, const float *slots, size_t slots_len, double max_rate, float input, double delay,
    uint8_t quality, float *sample);
uint8_t fugnadri_desk_process_rate_aware(uint8_t desk, uint8_t mode, size_t maximum, size_t margin, uint64_t *accepted,
    uint8_t *current, uint8_t *target, uint32_t *crossfade_position, uint32_t crossfade_samples, uint8_t rule,
    uint8_t *direction, float *ring, size_t ring_len, const double *rates, size_t rates_len, const uint8_t *marks,
    size_t marks_len, const float *slots, size_t slots_len, double max_rate, float input, double delay,
    uint8_t quality, double playback_rate, float *sample);

/* ---- libfugnadri_wav.a: WAV files -----------------------------------------------------------------------------------
 *
 * A RIFF WAVE file that lies in memory: `*start` and `*size` are the bytes of its first `data`, `*kind` is 0 for PCM of
 * 16 bits, 1 for PCM of 24, 2 for IEEE float of 32; `*channels` is 1 or 2. Refused by 9 to 13, and then all five are
 * 0. */
uint8_t fugnadri_wav_read(const uint8_t *file, size_t file_len, uint8_t *kind, uint8_t *channels, uint32_t *rate,
    size_t *start, size_t *size);

/* The same, but that a kind wrapped as WAVE_FORMAT_EXTENSIBLE (tag FFFE, as sox and ffmpeg write 24 bits and more) is
 * read by the kind inside: a `fmt ` of 40 bytes or more, an extension of 22 or more, all bits valid, and the standard
 * tail. */
uint8_t fugnadri_wav_read_wrapped(const uint8_t *file, size_t file_len, uint8_t *kind, uint8_t *channels,
    uint32_t *rate, size_t *start, size_t *size);

/* What a file says of its samples, to explain a refusal: the size of its first `fmt `, the tag, channels, block size
 * and bits that stand there, and the size of its first `data`; zeros where there is none. It refuses nothing. */
void fugnadri_wav_told(const uint8_t *file, size_t file_len, size_t *size, uint32_t *tag, uint32_t *channels,
    uint32_t *block, uint32_t *bits, size_t *samples);

/* A file of any length, RIFF, RF64 or BW64, by its first bytes: `length` is the file's, in bytes, and of the bytes only
 * those up to the first of `data` are looked at. Of a RIFF file that is wholly at hand the answer is that of the two
 * calls above. Refused by 1 (more bytes than the file has), 2 (more of them are needed: `fugnadri_wav_needs` says how
 * many; 0 where enough are at hand), 9, 18, 19, 10 to 13, in this order, and then all five are 0. */
uint8_t fugnadri_wav_read_header(const uint8_t *prefix, size_t prefix_len, size_t length, uint8_t *kind,
    uint8_t *channels, uint32_t *rate, size_t *start, size_t *size);
uint8_t fugnadri_wav_read_header_wrapped(const uint8_t *prefix, size_t prefix_len, size_t length, uint8_t *kind,
    uint8_t *channels, uint32_t *rate, size_t *start, size_t *size);
size_t fugnadri_wav_needs(const uint8_t *prefix, size_t prefix_len, size_t length);

/* The second of these readings by turns, where the header is too long to be held. `fugnadri_wav_begin` takes as many of
 * the first bytes as it asks for (2, `fugnadri_wav_needs`): 12, of RF64 and BW64 48 and 12 for each entry of the table;
 * more may be lent. It is refused by 1, 2, 9, 18, 19, or 10 of the RIFF, and then `*end` and `*left` are 0. While
 * `*left` is 8 or more `fugnadri_wav_turn` takes the same bytes again and the file's 8 bytes from `end - *left` on, and
 * carries the walk on: whether a chunk ran past the end, and place and size of the first `fmt ` and of the first
 * `data`, five zeros before the first turn. It refuses nothing. `fugnadri_wav_finish` takes these five and the first 40
 * bytes of `fmt `, or all of it where it is shorter; refused by 10 to 13, and then all five answers are 0. */
uint8_t fugnadri_wav_begin(const uint8_t *opening, size_t opening_len, size_t length, size_t *end, size_t *left);
void fugnadri_wav_turn(const uint8_t *opening, size_t opening_len, size_t end, const uint8_t *head, size_t head_len,
    size_t *left, uint8_t *overruns, size_t *format, size_t *format_size, size_t *samples, size_t *samples_size);
uint8_t fugnadri_wav_finish(uint8_t overruns, size_t format, size_t format_size, size_t samples, size_t samples_size,
    const uint8_t *fmt, size_t fmt_len, uint8_t *kind, uint8_t *channels, uint32_t *rate, size_t *start, size_t *size);

/* One channel, counted from 0, of a part: PCM as whole multiples of 2^-15 or 2^-23, float as it is stored. `out` has an
 * element for each frame. Refused by 1 (kind, channels, channel) or 2 (broken frames, or another number of them), and
 * then nothing is written. */
uint8_t fugnadri_wav_samples(uint8_t kind, uint8_t channels, uint8_t channel, const uint8_t *part, size_t part_len,
    double *out, size_t out_len);
uint8_t fugnadri_wav_samples_f32(uint8_t kind, uint8_t channels, uint8_t channel, const uint8_t *part, size_t part_len,
    float *out, size_t out_len);

/* The same as whole numbers in units of 2^-23, as the residual takes them: 24 bits as they are stored, 16 bits times
 * 256. A float's kind is refused by 1. */
uint8_t fugnadri_wav_whole(uint8_t kind, uint8_t channels, uint8_t channel, const uint8_t *part, size_t part_len,
    int32_t *out, size_t out_len);

/* ---- libfugnadri_told.a: which taps were missing --------------------------------------------------------------------
 *
 * The calls of the readers, of libfugnadri.a, libfugnadri_tables.a, libfugnadri_bank.a and libfugnadri_room.a, that
 * also tell how many of the taps that they read were absent: `*unwritten` below the first sample, `*ahead` of the
 * newest, `*overwritten` by newer ones. All else is as in the call without `_told`; absent taps count as zero there
 * too. A refused call writes three zeros. */
uint8_t fugnadri_cubic_process_told(size_t maximum, size_t margin, uint64_t *accepted, double *ring, size_t ring_len,
    double input, double delay, double *sample, uint64_t *unwritten, uint64_t *ahead, uint64_t *overwritten);
uint8_t fugnadri_farrow8_process_told(size_t maximum, size_t margin, uint64_t *accepted, double *ring, size_t ring_len,
    double input, double delay, double *sample, uint64_t *unwritten, uint64_t *ahead, uint64_t *overwritten);
uint8_t fugnadri_lagrange_process_told(size_t maximum, size_t margin, uint64_t *accepted, double *ring,
    size_t ring_len, double input, double delay, uint64_t taps, double *sample, uint64_t *unwritten, uint64_t *ahead,
    uint64_t *overwritten);
uint8_t fugnadri_windowed_sinc_process_told(size_t maximum, size_t margin, uint64_t *accepted, double *ring,
    size_t ring_len, double input, double delay, const double *table, size_t table_len, size_t taps, size_t phases,
    double *sample, uint64_t *unwritten, uint64_t *ahead, uint64_t *overwritten);
uint8_t fugnadri_windowed_sinc_f32_process_told(size_t maximum, size_t margin, uint64_t *accepted, float *ring,
    size_t ring_len, float input, double delay, const float *table, size_t table_len, size_t taps, size_t phases,
    float *sample, uint64_t *unwritten, uint64_t *ahead, uint64_t *overwritten);
/* The quality reader's numbers are those of all that a call reads: of both qualities in mid-fade, and of both sets if
 * its rate lies between two; Draft reads four taps, once. */
uint8_t fugnadri_quality_process_told(size_t maximum, size_t margin, uint64_t *accepted, uint8_t *current,
    uint8_t *target, uint32_t *crossfade_position, uint32_t crossfade_samples, uint8_t rule, uint8_t *direction,
    float *ring, size_t ring_len, const float *sets, size_t sets_len, double max_rate, float input, double delay,
    uint8_t quality, float *sample, uint64_t *unwritten, uint64_t *ahead, uint64_t *overwritten);
uint8_t fugnadri_quality_process_rate_aware_told(size_t maximum, size_t margin, uint64_t *accepted, uint8_t *current,
    uint8_t *target, uint32_t *crossfade_position, uint32_t crossfade_samples, uint8_t rule, uint8_t *direction,
    float *ring, size_t ring_len, const float *sets, size_t sets_len, double max_rate, float input, double delay,
    uint8_t quality, double playback_rate, float *sample, uint64_t *unwritten, uint64_t *ahead, uint64_t *overwritten);
/* A desk's numbers are those of the quality reader's call over a bank of its own for max_rate. */
uint8_t fugnadri_desk_process_told(uint8_t desk, uint8_t mode, size_t maximum, size_t margin, uint64_t *accepted,
    uint8_t *current, uint8_t *target, uint32_t *crossfade_position, uint32_t crossfade_samples, uint8_t rule,
    uint8_t *direction, float *ring, size_t ring_len, const double *rates, size_t rates_len, const uint8_t *marks,
    size_t marks_len, const float *slots, size_t slots_len, double max_rate, float input, double delay,
    uint8_t quality, float *sample, uint64_t *unwritten, uint64_t *ahead, uint64_t *overwritten);
uint8_t fugnadri_desk_process_rate_aware_told(uint8_t desk, uint8_t mode, size_t maximum, size_t margin,
    uint64_t *accepted, uint8_t *current, uint8_t *target, uint32_t *crossfade_position, uint32_t crossfade_samples,
    uint8_t rule, uint8_t *direction, float *ring, size_t ring_len, const double *rates, size_t rates_len,
    const uint8_t *marks, size_t marks_len, const float *slots, size_t slots_len, double max_rate, float input,
    double delay, uint8_t quality, double playback_rate, float *sample, uint64_t *unwritten, uint64_t *ahead,
    uint64_t *overwritten);

/* ---- libfugnadri_stretches.a: a whole stretch per call --------------------------------------------------------------
 *
 * As many calls of a delay reader as there are inputs, in order: input k at delay k gives output k, and state, ring and
 * outputs are those of the single calls. `*done` is the number of items done. Before the first item only 1 to 3 can be
 * due, with zero done and nothing stored; 2 also if the lengths of inputs, delays and out differ. An item is refused
 * by 4 to 8 and ends the stretch: the outputs before it are written, its own and the later ones are as they were. An
 * empty stretch is otherwise zero done, on a full state too. */
uint8_t fugnadri_cubic_stretch(size_t maximum, size_t margin, uint64_t *accepted, double *ring, size_t ring_len,
    const double *inputs, size_t inputs_len, const double *delays, size_t delays_len, double *out, size_t out_len,
    size_t *done);
uint8_t fugnadri_lagrange_stretch(size_t maximum, size_t margin, uint64_t *accepted, double *ring, size_t ring_len,
    const double *inputs, size_t inputs_len, const double *delays, size_t delays_len, uint64_t taps, double *out,
    size_t out_len, size_t *done);
uint8_t fugnadri_farrow8_stretch(size_t maximum, size_t margin, uint64_t *accepted, double *ring, size_t ring_len,
    const double *inputs, size_t inputs_len, const double *delays, size_t delays_len, double *out, size_t out_len,
    size_t *done);
uint8_t fugnadri_windowed_sinc_stretch(size_t maximum, size_t margin, uint64_t *accepted, double *ring, size_t ring_len,
    const double *inputs, size_t inputs_len, const double *delays, size_t delays_len, const double *table,
    size_t table_len, size_t taps, size_t phases, double *out, size_t out_len, size_t *done);
uint8_t fugnadri_windowed_sinc_f32_stretch(size_t maximum, size_t margin, uint64_t *accepted, float *ring,
    size_t ring_len, const float *inputs, size_t inputs_len, const double *delays, size_t delays_len,
    const float *table, size_t table_len, size_t taps, size_t phases, float *out, size_t out_len, size_t *done);
/* One quality and one rate for the stretch; a fade goes on from item to item as by single calls. A quality's number
 * above 3 is refused by 1 before the first item, a field's by 3; a rate that is a NaN by 7 at the first item. */
uint8_t fugnadri_quality_stretch(size_t maximum, size_t margin, uint64_t *accepted, uint8_t *current, uint8_t *target,
    uint32_t *crossfade_position, uint32_t crossfade_samples, uint8_t rule, uint8_t *direction, float *ring,
    size_t ring_len, const float *sets, size_t sets_len, double max_rate, const float *inputs, size_t inputs_len,
    const double *delays, size_t delays_len, uint8_t quality, double playback_rate, float *out, size_t out_len,
    size_t *done);

/* The same, with the absent taps of all items done, added up by kind, as libfugnadri_told.a tells them. */
uint8_t fugnadri_cubic_stretch_told(size_t maximum, size_t margin, uint64_t *accepted, double *ring, size_t ring_len,
    const double *inputs, size_t inputs_len, const double *delays, size_t delays_len, double *out, size_t out_len,
    size_t *done, uint64_t *unwritten, uint64_t *ahead, uint64_t *overwritten);
uint8_t fugnadri_lagrange_stretch_told(size_t maximum, size_t margin, uint64_t *accepted, double *ring, size_t ring_len,
    const double *inputs, size_t inputs_len, const double *delays, size_t delays_len, uint64_t taps, double *out,
    size_t out_len, size_t *done, uint64_t *unwritten, uint64_t *ahead, uint64_t *overwritten);
uint8_t fugnadri_farrow8_stretch_told(size_t maximum, size_t margin, uint64_t *accepted, double *ring, size_t ring_len,
    const double *inputs, size_t inputs_len, const double *delays, size_t delays_len, double *out, size_t out_len,
    size_t *done, uint64_t *unwritten, uint64_t *ahead, uint64_t *overwritten);
uint8_t fugnadri_windowed_sinc_stretch_told(size_t maximum, size_t margin, uint64_t *accepted, double *ring,
    size_t ring_len, const double *inputs, size_t inputs_len, const double *delays, size_t delays_len,
    const double *table, size_t table_len, size_t taps, size_t phases, double *out, size_t out_len, size_t *done,
    uint64_t *unwritten, uint64_t *ahead, uint64_t *overwritten);
uint8_t fugnadri_windowed_sinc_f32_stretch_told(size_t maximum, size_t margin, uint64_t *accepted, float *ring,
    size_t ring_len, const float *inputs, size_t inputs_len, const double *delays, size_t delays_len,
    const float *table, size_t table_len, size_t taps, size_t phases, float *out, size_t out_len, size_t *done,
    uint64_t *unwritten, uint64_t *ahead, uint64_t *overwritten);
uint8_t fugnadri_quality_stretch_told(size_t maximum, size_t margin, uint64_t *accepted, uint8_t *current,
    uint8_t *target, uint32_t *crossfade_position, uint32_t crossfade_samples, uint8_t rule, uint8_t *direction,
    float *ring, size_t ring_len, const float *sets, size_t sets_len, double max_rate, const float *inputs,
    size_t inputs_len, const double *delays, size_t delays_len, uint8_t quality, double playback_rate, float *out,
    size_t out_len, size_t *done, uint64_t *unwritten, uint64_t *ahead, uint64_t *overwritten);

/* ---- libfugnadri_aiff.a: AIFF files ---------------------------------------------------------------------------------
 *
 * A file that lies in memory: `*start` and `*size` are the bytes of its frames, behind the offset of its first `SSND`;
 * `*kind` is 0 for PCM of 16 bits, 1 for PCM of 24, the high byte first; `*channels` is 1 or 2, `*rate` 8000 to 768000.
 * AIFC is not read. Refused by 20, 10, 21, 13, 21 (frames) or 22, and then all five are 0. */
uint8_t fugnadri_aiff_read(const uint8_t *file, size_t file_len, uint8_t *kind, uint8_t *channels, uint32_t *rate,
    size_t *start, size_t *size);

/* What a file says of its samples, to explain a refusal: the size of its first `COMM`, the channels, frames and bits
 * that stand there, the rate as it stands (its sign and exponent, its digits), the size of its first `SSND` and its
 * offset; zeros where there is none. It refuses nothing. */
void fugnadri_aiff_told(const uint8_t *file, size_t file_len, size_t *comm, uint32_t *channels, uint32_t *frames,
    uint32_t *bits, uint32_t *exponent, uint64_t *digits, size_t *ssnd, uint32_t *offset);

/* One channel, counted from 0, of such a part: as whole multiples of 2^-15 or 2^-23, and as whole numbers in units of
 * 2^-23, as the residual takes them. `out` has an element for each frame. Refused by 1 (kind, a float's among them,
 * channels, channel) or 2 (broken frames, or another number of them), and then nothing is written. */
uint8_t fugnadri_aiff_samples(uint8_t kind, uint8_t channels, uint8_t channel, const uint8_t *part, size_t part_len,
    double *out, size_t out_len);
uint8_t fugnadri_aiff_samples_f32(uint8_t kind, uint8_t channels, uint8_t channel, const uint8_t *part, size_t part_len,
    float *out, size_t out_len);
uint8_t fugnadri_aiff_whole(uint8_t kind, uint8_t channels, uint8_t channel, const uint8_t *part, size_t part_len,
    int32_t *out, size_t out_len);

/* ---- libfugnadri_wav_write.a: WAV files written ---------------------------------------------------------------------
 *
 * A file is RIFF where its sizes fit 32 bits, and past that RF64 (`form` 0) or BW64 (`form` 1). `kind` is as above, the
 * rate 8000 to 768000, the channels 1 or 2. Samples are those of all channels, frame by frame. Each is rounded to
 * nearest, ties to even: PCM to whole multiples of 2^-15 or 2^-23, float to 32 bits. One that is NaN, or whose rounded
 * value does not fit (PCM: -1 to just below 1; float: infinite), is refused by 15 and not clipped. */

/* How long the file of `count` samples is, over all channels: 44 bytes of header for PCM, 58 for float, past RIFF 36
 * more, the samples, and a pad byte behind an odd number of bytes. 0 where it is refused by 1, 19 or 13 whatever the
 * rate. */
size_t fugnadri_wav_file_length(uint8_t kind, uint8_t channels, size_t count);

/* The file into `out`; `*written` is its length, and what stands behind it stays as it was. Refused by 1 (the form, the
 * rate, broken frames), 19 (more than 2^40 bytes of samples), 13 (the kind, the channels), 14 (`out` is shorter than
 * the file) or 15, in this order, and then nothing is written but 0 to `*written`. */
uint8_t fugnadri_wav_write(uint8_t form, uint8_t kind, uint8_t channels, uint32_t rate, const double *samples,
    size_t samples_len, uint8_t *out, size_t out_len, size_t *written);
uint8_t fugnadri_wav_write_f32(uint8_t form, uint8_t kind, uint8_t channels, uint32_t rate, const float *samples,
    size_t samples_len, uint8_t *out, size_t out_len, size_t *written);

/* The same piece by piece: the bytes before `count` samples (`fugnadri_wav_header_length` says how many they are, 0 for
 * an unknown kind) into as many or more (refused by 1, 19, 13 or 14, as above), then block by block the samples, into
 * 2, 3 or 4 bytes each (refused by 2, 13 or 15; an unknown kind has no length that could be wrong). A pad byte behind
 * an odd number of bytes is the caller's. What stands behind a header stays; a refused call writes nothing. */
size_t fugnadri_wav_header_length(uint8_t kind, size_t count);
uint8_t fugnadri_wav_header(uint8_t form, uint8_t kind, uint8_t channels, uint32_t rate, size_t count, uint8_t *out,
    size_t out_len);
uint8_t fugnadri_wav_store(uint8_t kind, const double *samples, size_t samples_len, uint8_t *out, size_t out_len);
uint8_t fugnadri_wav_store_f32(uint8_t kind, const float *samples, size_t samples_len, uint8_t *out, size_t out_len);

/* ---- libfugnadri_oversampled.a: the oversampled readers and their filters -------------------------------------------
 *
 * `taps` is odd, 17 to 129; `factor` is 2 or 4, and for the decimating filter 1; `cutoff` 1/1024 to below 1, `beta` 0
 * to 20. */

/* The coefficients of a low-pass filter, in all 1, into `out` of as many elements as there are taps. Refused by 1 or 2,
 * and then nothing is written. */
uint8_t fugnadri_design_lowpass(size_t taps, double cutoff, double beta, double *out, size_t out_len);

/* How many samples a filter holds, taps / factor rounded up, and by how many two of them delay, (taps - 1) / factor for
 * a factor of 2 or 4. 0 if the taps or the factor is out of range. */
size_t fugnadri_filter_history(size_t taps, size_t factor);
double fugnadri_filter_latency(size_t taps, size_t factor);

/* By how many samples the cascade delays: 64.0. */
double fugnadri_cascaded_latency(void);

/* Writes 0.0 over each coefficient whose magnitude is not above 1.0e-15. A filter leaves these out. */
void fugnadri_filter_keep(double *coefficients, size_t coefficients_len);

/* One filter, for upsampling by a factor (an output for each phase from 0 to factor - 1) and for decimating (factor 1,
 * phase 0). Start with a history of zeros and 0 pushes. To a push hand in how many there were before it, to the outputs
 * after it one more; in place of that number its remainder by the history's length will do. The output is the sum over
 * the lags, from 0 on, of coefficient number lag * factor + phase times the sample that was pushed so many pushes
 * before the last one. Coefficients of 0.0 and those past the end are left out, so that they meet no infinity. */
void fugnadri_filter_push(double *history, size_t history_len, uint64_t pushes, double input);
double fugnadri_filter_output(const double *coefficients, size_t coefficients_len, const double *history,
    size_t history_len, uint64_t pushes, size_t factor, size_t phase);

/* The outputs of a phase and of the next one; at a factor of 2 in one pass, which costs less than two. */
void fugnadri_filter_outputs(const double *coefficients, size_t coefficients_len, const double *history,
    size_t history_len, uint64_t pushes, size_t factor, size_t phase, double *first, double *second);

/* The oversampled readers: the direct one with a factor of 2 or 4 and a number of taps, and the cascade, four times in
 * two stages. A reader's numbers are `accepted`, `inner` (samples accepted by the reader inside) and `previous` (the
 * last accepted delay); it also has its coefficients, its histories, and the inner ring of the next power of two from
 * factor * maximum + 2 * margin + 8 on. The direct one has `taps` coefficients, `up` of fugnadri_filter_history(taps,
 * factor) samples and `down` of `taps`; the cascade 65 of `halfband`, 129 of `last`, 33 of `up1`, 33 of `up2`, 65 of
 * `down2` and 129 of `down1`. The latency of the direct one fugnadri_filter_latency gives, the
 * cascade's fugnadri_cascaded_latency.
 *
 * A kernel is 0 for the cubic, 1 for Lagrange of `points` taps, 2 for Farrow-8, and 3 for the windowed sinc of `points`
 * taps and `phases`, whose table is lent; the others have a table of length 0. `points` and `phases` are read where the
 * kernel has them.
 *
 * Refused by 1 (a setting, or a kernel's number above 3), 2 (a length), 3 (the numbers), 4 (the input), 5 or 6 (the
 * delay, which is at most 2^34) or 8 (2^34 samples were accepted); a refused call changes nothing, and its sample is
 * 0.0. Opening writes the coefficients; opening and reset write zeros over the rest. */
uint8_t fugnadri_oversampled_open(size_t maximum, size_t margin, size_t factor, size_t taps, uint64_t *accepted,
    uint64_t *inner, double *previous, double *coefficients, size_t coefficients_len, double *up, size_t up_len,
    double *down, size_t down_len, double *ring, size_t ring_len);
uint8_t fugnadri_oversampled_reset(size_t maximum, size_t margin, size_t factor, size_t taps, uint64_t *accepted,
    uint64_t *inner, double *previous, double *up, size_t up_len, double *down, size_t down_len, double *ring,
    size_t ring_len);
uint8_t fugnadri_oversampled_process(size_t maximum, size_t margin, size_t factor, size_t taps, uint64_t *accepted,
    uint64_t *inner, double *previous, uint8_t kernel, size_t points, size_t phases, const double *table,
    size_t table_len, const double *coefficients, size_t coefficients_len, double *up, size_t up_len, double *down,
    size_t down_len, double *ring, size_t ring_len, double input, double delay, double *sample);
uint8_t fugnadri_cascaded_open(size_t maximum, size_t margin, uint64_t *accepted, uint64_t *inner, double *previous,
    double *halfband, size_t halfband_len, double *last, size_t last_len, double *up1, size_t up1_len, double *up2,
    size_t up2_len, double *down2, size_t down2_len, double *down1, size_t down1_len, double *ring, size_t ring_len);
uint8_t fugnadri_cascaded_reset(size_t maximum, size_t margin, uint64_t *accepted, uint64_t *inner, double *previous,
    double *up1, size_t up1_len, double *up2, size_t up2_len, double *down2, size_t down2_len, double *down1,
    size_t down1_len, double *ring, size_t ring_len);
uint8_t fugnadri_cascaded_process(size_t maximum, size_t margin, uint64_t *accepted, uint64_t *inner, double *previous,
    uint8_t kernel, size_t points, size_t phases, const double *table, size_t table_len, const double *halfband,
    size_t halfband_len, const double *last, size_t last_len, double *up1, size_t up1_len, double *up2, size_t up2_len,
    double *down2, size_t down2_len, double *down1, size_t down1_len, double *ring, size_t ring_len, double input,
    double delay, double *sample);

/* ---- libfugnadri_oversampled_told.a: which taps of the oversampled readers were missing -----------------------------
 *
 * The calls of the oversampled readers that also tell how many taps were absent, as libfugnadri_told.a tells them:
 * added up over the readings of the reader inside, of which an accepted call makes `factor`. A sample that overflowed
 * in the filter before it is not read, and adds none. A refused call writes three zeros. */
uint8_t fugnadri_oversampled_process_told(size_t maximum, size_t margin, size_t factor, size_t taps, uint64_t *accepted,
    uint64_t *inner, double *previous, uint8_t kernel, size_t points, size_t phases, const double *table,
    size_t table_len, const double *coefficients, size_t coefficients_len, double *up, size_t up_len, double *down,
    size_t down_len, double *ring, size_t ring_len, double input, double delay, double *sample, uint64_t *unwritten,
    uint64_t *ahead, uint64_t *overwritten);
uint8_t fugnadri_cascaded_process_told(size_t maximum, size_t margin, uint64_t *accepted, uint64_t *inner,
    double *previous, uint8_t kernel, size_t points, size_t phases, const double *table, size_t table_len,
    const double *halfband, size_t halfband_len, const double *last, size_t last_len, double *up1, size_t up1_len,
    double *up2, size_t up2_len, double *down2, size_t down2_len, double *down1, size_t down1_len, double *ring,
    size_t ring_len, double input, double delay, double *sample, uint64_t *unwritten, uint64_t *ahead,
    uint64_t *overwritten);

/* ---- libfugnadri_residual.a: the residual in whole numbers ----------------------------------------------------------
 *
 * A report: how many samples were compared, the largest absolute difference, whether it has a place (0 or 1) and the
 * place where it stands first, counted from 0 at the first sample of all calls, and the sum of the squared differences
 * as high * 2^64 + low. Start with six zeros; hand the six on as the last call left them; cutting the stretches
 * differently gives the same report. Refused by 1 (a value outside -2^23 to 2^23 - 1), 2 (unequal lengths), 3 (the
 * report: number above 2^36, largest above 2^24 - 1, a place when empty, one missing or not below the number when not,
 * or a sum outside largest squared to number * largest squared) or 8 (past 2^36 samples), in this order, and then the
 * six are as they were. */
uint8_t fugnadri_residual_compare(uint64_t *number, uint32_t *largest, uint8_t *placed, uint64_t *place, uint64_t *high,
    uint64_t *low, const int32_t *a, size_t a_len, const int32_t *b, size_t b_len);

#ifdef __cplusplus
}
#endif

#endif
