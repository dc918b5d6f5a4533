/* Reads cases from standard input, as `compare wave-cases` writes them, makes each call on WAVE files
 * with its buffers in the three places of places.h, and holds the answer, the rate and every byte to
 * what is asked. The pages of what is read may not be written during a call. */
#define _DEFAULT_SOURCE
#include "places.h"
#include "tono.h"

#include <string.h>

enum { READ, WRITE };

/* What stands at the rate's place before a read. */
enum { NO_RATE = 0x5a5aa5a5 };

struct asked {
    uint64_t call;
    uint64_t given;   /* bytes of the file that is read, or of the samples that are written */
    uint64_t lent;    /* bytes of the buffer that is written */
    uint64_t rate;    /* that is written, or that is read; NO_RATE where none is */
    int64_t answer;
    uint64_t written; /* bytes of the buffer that change */
};

static int is_as_asked(const struct asked *asked, const uint8_t *written, const uint8_t *out)
{
    size_t i;
    if (memcmp(out, written, asked->written) != 0)
        return 0;
    for (i = asked->written; i < asked->lent; i++)
        if (out[i] != filler(i))
            return 0;
    return 1;
}

static int64_t call(const struct asked *asked, const uint8_t *in, uint8_t *out, uint32_t *rate)
{
    if (asked->call == READ)
        return tono_wave_read(in, asked->given, rate, (uint32_t *)(void *)out, asked->lent / 4);
    *rate = (uint32_t)asked->rate;
    return tono_wave_write((uint32_t)asked->rate, (const uint32_t *)(const void *)in,
                           asked->given / 4, out, asked->lent);
}

static uint8_t *in_pages, *out_pages;

/* Whether the call in one place gives what is asked. */
static int try_place(enum place place, const struct asked *asked, const uint8_t *given,
                     const uint8_t *written)
{
    uint8_t *in = placed(place, in_pages, asked->given);
    uint8_t *out = placed(place, out_pages, asked->lent);
    uint32_t rate = NO_RATE;
    size_t i;
    memcpy(in, given, asked->given);
    for (i = 0; i < asked->lent; i++)
        out[i] = filler(i);
    allow(in_pages, PROT_READ);
    int64_t answer = call(asked, in, out, &rate);
    allow(in_pages, PROT_READ | PROT_WRITE);
    int is_same = answer == asked->answer && rate == asked->rate
        && is_as_asked(asked, written, out) && memcmp(in, given, asked->given) == 0;
    if (!is_same)
        printf("case %" PRIu64 ", %s: answer %" PRId64 " for %" PRId64 "\n", case_number, NAMES[place],
               answer, asked->answer);
    if (place == HEAP) {
        free(in);
        free(out);
    }
    return is_same;
}

int main(int count, char **words)
{
    static uint8_t given[MOST], written[MOST];
    struct asked asked;
    uint64_t calls = 0, differ = 0;
    in_pages = between_guards();
    out_pages = between_guards();
    case_number = count > 1 ? strtoull(words[1], NULL, 10) : 0;
    for (; fread(&asked, sizeof asked, 1, stdin) == 1; case_number++) {
        read_bytes(given, asked.given);
        read_bytes(written, asked.written);
        for (int place = HEAP; place < PLACES; place++, calls++)
            differ += !try_place((enum place)place, &asked, given, written);
    }
    printf("%" PRIu64 " calls, %" PRIu64 " differ\n", calls, differ);
    return calls == 0 || differ != 0;
}
