/* A host in C: plays the text score in a file or on standard input, and decodes its listing into float
 * frames.
 *
 * usage: host [SCORE [FRAMES]]
 *
 * Prints one line: frames, end state, draw count and peak. If FRAMES is given, the frames are written to
 * that file as raw floats of this machine, for example for `aplay -t raw -f FLOAT_LE -r 8000 FRAMES`. If the
 * score is refused, its number and reason are printed to standard error, and the status is 1; any other
 * trouble gives status 2. */
#include "tono.h"

#include <errno.h>
#include <stdio.h>
#include <stdlib.h>
#include <string.h>

/* One byte more than a score may have, so that a longer one is seen to be too long. */
#define SCORE_MOST 65537

/* What a listing says: a refusal's number, or frames and where the noise stream ended. */
struct played {
    int refusal; /* 0 if the score was played */
    uint64_t state;
    uint64_t draws;
    size_t count;
    float frames[TONO_FRAMES_MOST];
};

/* A place in a listing, and where the listing ends. */
struct cursor {
    const char *at;
    const char *end;
};

/* Each of these steps over one thing and says whether it was there. */

static int take(struct cursor *from, char byte)
{
    if (from->at == from->end || *from->at != byte)
        return 0;
    from->at++;
    return 1;
}

static int take_hex(struct cursor *from, int digits, uint64_t *value)
{
    *value = 0;
    for (int i = 0; i < digits; i++) {
        static const char names[] = "0123456789abcdef";
        const char *digit = from->at == from->end ? NULL : (const char *)memchr(names, *from->at, 16);
        if (digit == NULL)
            return 0;
        *value = *value * 16 + (uint64_t)(digit - names);
        from->at++;
    }
    return 1;
}

static int take_decimal(struct cursor *from, uint64_t *value)
{
    const char *first = from->at;
    *value = 0;
    while (from->at != from->end && *from->at >= '0' && *from->at <= '9') {
        *value = *value * 10 + (uint64_t)(*from->at - '0');
        from->at++;
    }
    return from->at != first;
}

static float float_of(uint64_t bits)
{
    uint32_t pattern = (uint32_t)bits;
    float value;
    memcpy(&value, &pattern, sizeof value);
    return value;
}

static int take_frame(struct cursor *from, struct played *played)
{
    uint64_t index, bits;
    if (played->count == TONO_FRAMES_MOST)
        return 0;
    if (!take(from, 'F') || !take(from, '\t') || !take_decimal(from, &index) || index != played->count)
        return 0;
    if (!take(from, '\t') || !take_hex(from, 8, &bits) || !take(from, '\n'))
        return 0;
    played->frames[played->count++] = float_of(bits);
    return 1;
}

/* Decodes a listing; 0 if it is none, which tono_play never gives. */
static int decode(const char *listing, size_t length, struct played *played)
{
    struct cursor from = {listing, listing + length};
    uint64_t number;
    played->refusal = 0;
    played->count = 0;
    if (take(&from, 'R')) {
        if (!take(&from, '\t') || !take_decimal(&from, &number) || !take(&from, '\n'))
            return 0;
        played->refusal = (int)number;
        return from.at == from.end;
    }
    if (!take(&from, 'G') || !take(&from, '\t') || !take_hex(&from, 16, &played->state))
        return 0;
    if (!take(&from, '\t') || !take_decimal(&from, &played->draws) || !take(&from, '\n'))
        return 0;
    while (from.at != from.end)
        if (!take_frame(&from, played))
            return 0;
    return 1;
}

/* The largest magnitude of a frame; a NaN counts for nothing. */
static float peak_of(const struct played *played)
{
    float peak = 0;
    for (size_t i = 0; i < played->count; i++) {
        float size = played->frames[i] < 0 ? -played->frames[i] : played->frames[i];
        if (size > peak)
            peak = size;
    }
    return peak;
}

static int trouble(const char *what, const char *why)
{
    fprintf(stderr, "host: %s: %s; usage: host [SCORE [FRAMES]]\n", what, why);
    return 2;
}

static int write_frames(const struct played *played, const char *path)
{
    FILE *file = fopen(path, "wb");
    if (file == NULL)
        return trouble(path, strerror(errno));
    int is_written = fwrite(played->frames, sizeof(float), played->count, file) == played->count;
    is_written = fclose(file) == 0 && is_written;
    return is_written ? 0 : trouble(path, "the frames could not be written");
}

static int report(const struct played *played, const char *name)
{
    if (played->refusal != 0) {
        const char *reason = tono_reason(played->refusal);
        fprintf(stderr, "host: %s is refused with %d: %s\n", name, played->refusal, reason ? reason : "no known reason");
        return 1;
    }
    printf("%zu frames, end state %016llx, draw count %llu, peak %g\n", played->count,
           (unsigned long long)played->state, (unsigned long long)played->draws, (double)peak_of(played));
    return fflush(stdout) == 0 ? 0 : trouble("standard output", strerror(errno));
}

int main(int count, char **words)
{
    static uint8_t score[SCORE_MOST], reply[TONO_LISTING_MOST];
    static struct played played;
    const char *name = count > 1 ? words[1] : "standard input";
    FILE *file = count > 1 ? fopen(words[1], "rb") : stdin;
    if (count > 3)
        return trouble(words[3], "one file too many");
    if (file == NULL)
        return trouble(name, strerror(errno));
    size_t length = fread(score, 1, sizeof score, file);
    if (ferror(file))
        return trouble(name, strerror(errno));
    if (file != stdin)
        fclose(file);

    int64_t written = tono_play(score, length, reply, sizeof reply);
    if (written == TONO_REPLY_SHORT || !decode((const char *)reply, (size_t)written, &played))
        return trouble(name, "the library gave no listing; header and library may differ in version");
    if (played.refusal == 0 && count > 2) {
        int status = write_frames(&played, words[2]);
        if (status != 0)
            return status;
    }
    return report(&played, name);
}
