/* Reads a WAVE file of mono 32-bit float samples and writes it anew, with the 58 header bytes that
 * tono_wave_write gives. A file that is refused is named with the number and the reason.
 *
 *     tools/build libtono.a
 *     cc -std=c11 -O2 -Iinclude examples/wave_copy.c target/staticlib/libtono.a -o wave_copy
 *     ./wave_copy IN.wav OUT.wav
 *
 * The status is 0 if the file was written, 1 if it was refused, and 2 if a file could not be read or written. */
#include "tono.h"

#include <errno.h>
#include <inttypes.h>
#include <stdio.h>
#include <stdlib.h>
#include <string.h>

static _Noreturn void fail(const char *name, const char *why)
{
    fprintf(stderr, "wave_copy: %s: %s; usage: wave_copy IN.wav OUT.wav\n", name, why);
    exit(2);
}

static void *room_for(size_t size)
{
    void *at = malloc(size > 0 ? size : 1);
    if (at == NULL)
        fail("memory", strerror(errno));
    return at;
}

/* The whole of a file, and its length. */
static uint8_t *bytes_of(const char *name, size_t *length)
{
    FILE *in = fopen(name, "rb");
    uint8_t *bytes;
    long size;
    if (in == NULL || fseek(in, 0, SEEK_END) != 0 || (size = ftell(in)) < 0 || fseek(in, 0, SEEK_SET) != 0)
        fail(name, strerror(errno));
    *length = (size_t)size;
    bytes = room_for(*length);
    if (fread(bytes, 1, *length, in) != *length)
        fail(name, "it could not be read whole");
    fclose(in);
    return bytes;
}

static void put_bytes(const char *name, const uint8_t *bytes, size_t length)
{
    FILE *out = fopen(name, "wb");
    if (out == NULL)
        fail(name, strerror(errno));
    if (fwrite(bytes, 1, length, out) != length || fclose(out) != 0)
        fail(name, "it could not be written whole");
}

static int64_t accepted(const char *name, int64_t answer)
{
    if (answer >= 0)
        return answer;
    fprintf(stderr, "wave_copy: %s is refused with %d: %s\n", name, (int)-answer, tono_reason((int)-answer));
    exit(1);
}

int main(int count, char **words)
{
    size_t length, room;
    uint32_t rate, *samples;
    uint8_t *file, *copy;
    if (count != 3)
        fail("arguments", "give two files");
    file = bytes_of(words[1], &length);
    samples = room_for(length / 4 * sizeof *samples); /* a file has no more samples than that */
    int64_t read = accepted(words[1], tono_wave_read(file, length, &rate, samples, length / 4));
    room = TONO_WAVE_BYTES(read);
    copy = room_for(room);
    int64_t written = accepted(words[1], tono_wave_write(rate, samples, (size_t)read, copy, room));
    put_bytes(words[2], copy, (size_t)written);
    printf("%" PRId64 " samples at %" PRIu32 " a second\n", read, rate);
    free(file);
    free(samples);
    free(copy);
    return 0;
}
