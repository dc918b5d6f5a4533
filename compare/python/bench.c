/* The calls of the library with a clock before and after each, for bench.py: timed_.. calls tono_.. with the same
 * arguments, and in_c is how long that took, in nanoseconds. */
#include "tono.h"

#include <time.h>

double in_c;

static double now(void)
{
    struct timespec at;
    clock_gettime(CLOCK_MONOTONIC, &at);
    return 1e9 * (double)at.tv_sec + (double)at.tv_nsec;
}

uint32_t timed_render_seq(const uint64_t *seeds, size_t seeds_len, uint64_t *counts, size_t counts_len, uint64_t *draws,
                          uint32_t station, uint32_t rate, float tempo, uint32_t steps_per_beat, const uint32_t *points,
                          size_t points_len, float swing, float humanize, uint32_t hop, uint32_t wave, uint32_t style, float duty,
                          const float *knobs, size_t knobs_len, const float *bars, size_t bars_len, const float *env,
                          size_t env_len, const uint32_t *notes, size_t notes_len, const float *lane, size_t lane_len,
                          float *out, size_t out_len, float *note_buf, size_t note_buf_len, float *string, size_t string_len)
{
    double begun = now();
    uint32_t number = tono_render_seq(seeds, seeds_len, counts, counts_len, draws, station, rate, tempo, steps_per_beat, points,
                                      points_len, swing, humanize, hop, wave, style, duty, knobs, knobs_len, bars, bars_len,
                                      env, env_len, notes, notes_len, lane, lane_len, out, out_len, note_buf, note_buf_len,
                                      string, string_len);
    in_c = now() - begun;
    return number;
}

uint32_t timed_note(uint32_t rate, uint32_t wave, uint32_t style, const float *knobs, size_t knobs_len, const float *bars,
                    size_t bars_len, float gain, uint64_t *state, uint64_t *draws, const float *pitch, size_t pitch_len,
                    const float *duty, size_t duty_len, float *out, size_t out_len, float *string, size_t string_len)
{
    double begun = now();
    uint32_t number = tono_note(rate, wave, style, knobs, knobs_len, bars, bars_len, gain, state, draws, pitch, pitch_len, duty,
                                duty_len, out, out_len, string, string_len);
    in_c = now() - begun;
    return number;
}

int64_t timed_play(const uint8_t *score, size_t score_len, uint8_t *reply, size_t reply_len)
{
    double begun = now();
    int64_t length = tono_play(score, score_len, reply, reply_len);
    in_c = now() - begun;
    return length;
}

int64_t timed_wave_write(uint32_t rate, const uint32_t *samples, size_t count, uint8_t *file, size_t file_len)
{
    double begun = now();
    int64_t length = tono_wave_write(rate, samples, count, file, file_len);
    in_c = now() - begun;
    return length;
}
