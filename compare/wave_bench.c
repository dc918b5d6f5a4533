/* Nanoseconds a sample of tono_wave_write and tono_wave_read, of memcpy of the samples' bytes, and of plain
 * C loops that store and load byte by byte; the least of seven turns each.
 *
 *     tools/build libtono.a
 *     cc -std=c11 -O3 -Iinclude compare/wave_bench.c target/staticlib/libtono.a -o wave_bench */
#define _POSIX_C_SOURCE 199309L
#include "tono.h"

#include <stdio.h>
#include <stdlib.h>
#include <string.h>
#include <time.h>

enum { HEADER = 58, TURNS = 7 };
enum what { COPY, WRITE, PLAIN_WRITE, READ, PLAIN_READ, WHATS };

static double seconds(void)
{
    struct timespec t;
    clock_gettime(CLOCK_MONOTONIC, &t);
    return (double)t.tv_sec + (double)t.tv_nsec * 1e-9;
}

static void plain_write(const uint32_t *samples, size_t count, uint8_t *file)
{
    for (size_t i = 0; i < count; i++)
        for (size_t k = 0; k < 4; k++)
            file[HEADER + 4 * i + k] = (uint8_t)(samples[i] >> 8 * k);
}

static void plain_read(const uint8_t *file, size_t count, uint32_t *samples)
{
    for (size_t i = 0; i < count; i++) {
        const uint8_t *at = file + HEADER + 4 * i;
        samples[i] = (uint32_t)at[0] | (uint32_t)at[1] << 8 | (uint32_t)at[2] << 16 | (uint32_t)at[3] << 24;
    }
}

static uint32_t *samples, *again;
static uint8_t *file;

static void once(enum what what, size_t count)
{
    uint32_t rate;
    switch (what) {
    case COPY: memcpy(file + HEADER, samples, 4 * count); break;
    case WRITE: tono_wave_write(48000, samples, count, file, HEADER + 4 * count); break;
    case PLAIN_WRITE: plain_write(samples, count, file); break;
    case READ: tono_wave_read(file, HEADER + 4 * count, &rate, again, count); break;
    default: plain_read(file, count, again); break;
    }
    __asm__ volatile("" : : "r"(file), "r"(again) : "memory");
}

static void measure(size_t count)
{
    size_t calls = 100000000 / count;
    double least[WHATS];
    samples = malloc(4 * count);
    again = malloc(4 * count);
    file = malloc(HEADER + 4 * count);
    if (samples == NULL || again == NULL || file == NULL)
        exit(2);
    for (size_t i = 0; i < count; i++)
        samples[i] = (uint32_t)i * 2654435761u;
    memset(again, 1, 4 * count);
    tono_wave_write(48000, samples, count, file, HEADER + 4 * count);
    for (int turn = 0; turn < TURNS; turn++)
        for (int what = 0; what < WHATS; what++) {
            double begun = seconds();
            for (size_t i = 0; i < calls; i++)
                once((enum what)what, count);
            double each = (seconds() - begun) / (double)calls / (double)count * 1e9;
            if (turn == 0 || each < least[what])
                least[what] = each;
        }
    printf("| %zu | %.3f | %.3f (%.2f) | %.3f | %.3f (%.2f) | %.3f |\n", count, least[COPY], least[WRITE],
           least[WRITE] / least[COPY], least[PLAIN_WRITE], least[READ], least[READ] / least[COPY], least[PLAIN_READ]);
    free(samples);
    free(again);
    free(file);
}

int main(void)
{
    printf("| samples | memcpy | write | plain C | read | plain C |\n|---|---|---|---|---|---|\n");
    measure(2048);
    measure(65536);
    measure(1048576);
    measure(16777216);
    return 0;
}
