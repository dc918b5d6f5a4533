/* Reads cases from standard input, as `compare cases` writes them, makes each call with its buffers in
 * the three places of places.h, and holds the answer and every byte to what is asked. The score's pages
 * may not be written during a call. */
#define _DEFAULT_SOURCE
#include "places.h"
#include "tono.h"

#include <string.h>

struct asked {
    uint64_t text_length;
    uint64_t reply_length;
    int64_t answer;
    uint64_t written;
};

/* Whether the reply starts with what is asked and holds its filler after it. */
static int is_as_asked(const struct asked *asked, const uint8_t *written, const uint8_t *reply)
{
    size_t i;
    if (memcmp(reply, written, asked->written) != 0)
        return 0;
    for (i = asked->written; i < asked->reply_length; i++)
        if (reply[i] != filler(i))
            return 0;
    return 1;
}

static uint8_t *score_pages, *reply_pages;

/* Whether the call in one place gives what is asked. */
static int try_place(enum place place, const struct asked *asked, const uint8_t *text,
                     const uint8_t *written)
{
    uint8_t *score = placed(place, score_pages, asked->text_length);
    uint8_t *reply = placed(place, reply_pages, asked->reply_length);
    size_t i;
    memcpy(score, text, asked->text_length);
    for (i = 0; i < asked->reply_length; i++)
        reply[i] = filler(i);
    allow(score_pages, PROT_READ);
    int64_t answer = tono_play(score, asked->text_length, reply, asked->reply_length);
    allow(score_pages, PROT_READ | PROT_WRITE);
    int is_same = answer == asked->answer && is_as_asked(asked, written, reply)
        && memcmp(score, text, asked->text_length) == 0;
    if (!is_same)
        printf("case %" PRIu64 ", %s: answer %" PRId64 " for %" PRId64 "\n", case_number, NAMES[place],
               answer, asked->answer);
    if (place == HEAP) {
        free(score);
        free(reply);
    }
    return is_same;
}

int main(int count, char **words)
{
    static uint8_t text[MOST], written[MOST];
    struct asked asked;
    uint64_t calls = 0, differ = 0;
    score_pages = between_guards();
    reply_pages = between_guards();
    case_number = count > 1 ? strtoull(words[1], NULL, 10) : 0;
    for (; fread(&asked, sizeof asked, 1, stdin) == 1; case_number++) {
        read_bytes(text, asked.text_length);
        read_bytes(written, asked.written);
        for (int place = HEAP; place < PLACES; place++, calls++)
            differ += !try_place((enum place)place, &asked, text, written);
    }
    printf("%" PRIu64 " calls, %" PRIu64 " differ\n", calls, differ);
    return calls == 0 || differ != 0;
}
