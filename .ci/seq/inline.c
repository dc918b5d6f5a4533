/* The inline calls on texts and WAVE files, beside the calls by arrays that they rest on: NULL where a length is 0 and
 * where it is not, samples as floats, and what tono_wave_info says of each file of crates/wave_vectors.
 *
 * usage: inline FILE       FILE has the vectors' cases. Prints what is wrong; the status is 1 then. The last line has the
 *                          number of tests */
#include "lent.h"

static int tests;

static void holds(int is, const char *where, const char *what)
{
    tests++;
    expect(is, where, what);
}

static const int64_t no_call = -(int64_t)TONO_MALFORMED;

static void texts(void)
{
    uint8_t reply[16], page[16];
    uint64_t draws = DRAWS_BEFORE;
    memset(reply, '.', sizeof reply);
    holds(tono_play_text(NULL, 0, reply, sizeof reply) == 5 && memcmp(reply, "R\t15\n", 5) == 0, "no score", "another listing");
    holds(tono_play_text(NULL, 0, NULL, 0) == TONO_REPLY_SHORT, "no score and no reply", "another answer");
    holds(tono_play_text(NULL, 1, reply, sizeof reply) == no_call, "a score that is missing", "another answer");
    holds(tono_play_text(reply, 1, NULL, 9) == no_call, "a reply that is missing", "another answer");
    holds(tono_plan_text(NULL, 0, &draws) == -15 && draws == DRAWS_BEFORE, "no score to plan", "another answer");
    holds(tono_plan_text(NULL, 0, NULL) == no_call && tono_plan_text(NULL, 1, &draws) == no_call, "no plan", "another answer");
    holds(tono_cue_sheet_text(NULL, 0, NULL, 0) == -15, "no score and no page", "another answer");
    holds(tono_cue_sheet_text(NULL, 1, page, sizeof page) == no_call, "a score that is missing", "another answer");
    holds(tono_cue_sheet_text(reply, 1, NULL, 1) == no_call, "a page that is missing", "another answer");
}

static void no_samples(void)
{
    uint8_t file[TONO_WAVE_BYTES(0)];
    uint32_t rate = 7;
    float one = 0.0f;
    holds(tono_wave_write_f32(8000, NULL, 0, file, sizeof file) == 58, "no samples", "are not written");
    holds(tono_wave_info(file, sizeof file, &rate) == 0 && rate == 8000, "no samples", "another info");
    rate = 7;
    holds(tono_wave_read_f32(file, sizeof file, &rate, NULL, 0) == 0 && rate == 8000, "no samples", "are not read");
    holds(tono_wave_write_f32(8000, NULL, 0, NULL, 0) == -23, "no file", "another answer");
    holds(tono_wave_write_f32(8000, NULL, 1, file, sizeof file) == no_call, "samples that are missing", "another answer");
    holds(tono_wave_write_f32(8000, &one, 1, NULL, 62) == no_call, "a file that is missing", "another answer");
    holds(tono_wave_read_f32(NULL, 0, &rate, NULL, 0) == -37, "no bytes", "another answer");
    holds(tono_wave_read_f32(NULL, 1, &rate, NULL, 0) == no_call, "bytes that are missing", "another answer");
    holds(tono_wave_read_f32(file, sizeof file, &rate, NULL, 1) == no_call, "room that is missing", "another answer");
    holds(tono_wave_read_f32(file, sizeof file, NULL, NULL, 0) == no_call, "no place for the rate", "another answer");
    rate = 7;
    holds(tono_wave_info(NULL, 0, &rate) == -37 && tono_wave_info(NULL, 1, &rate) == no_call && rate == 7, "no bytes", "another info");
    holds(tono_wave_info(file, sizeof file, NULL) == no_call, "no place for the rate", "another info");
}

/* A file of the vectors: what is said of it, and its samples as floats and as words. */
static void file_case(const uint8_t *data, size_t length, const char *where)
{
    uint8_t *file = (uint8_t *)copied(data, length);
    size_t most = length / 4 + 1;
    uint32_t *words = (uint32_t *)block(most * sizeof(uint32_t)), rate = 7, found = 7, again = 7;
    float *floats = (float *)block(most * sizeof(float));
    uint8_t *anew = (uint8_t *)block(TONO_WAVE_BYTES(most)), *other = (uint8_t *)block(TONO_WAVE_BYTES(most));
    int64_t read = tono_wave_read(file, length, &rate, words, most);
    holds(tono_wave_info(file, length, &found) == read && found == rate, where, "another info");
    holds(tono_wave_read_f32(file, length, &again, floats, most) == read && again == rate, where, "another answer");
    if (read > 0) {
        int64_t written = tono_wave_write(48000, words, (size_t)read, anew, TONO_WAVE_BYTES(most));
        holds(memcmp(words, floats, (size_t)read * 4) == 0, where, "other samples");
        holds(tono_wave_write_f32(48000, floats, (size_t)read, other, TONO_WAVE_BYTES(most)) == written
                  && memcmp(anew, other, (size_t)written) == 0,
              where, "another file");
        holds(tono_wave_read_f32(file, length, &again, floats, (size_t)read - 1) == -23, where, "room for too few");
    }
    free(file);
    free(words);
    free(floats);
    free(anew);
    free(other);
}

int main(int count, char **words)
{
    static uint8_t data[1 << 20];
    FILE *file = count == 2 ? fopen(words[1], "rb") : NULL;
    size_t size, at = 0;
    if (file == NULL) {
        fprintf(stderr, "usage: inline FILE\n");
        return 2;
    }
    size = fread(data, 1, sizeof data, file);
    fclose(file);
    texts();
    no_samples();
    while (at < size) {
        const uint8_t *end = (const uint8_t *)memchr(data + at, '\n', size - at);
        char line[96];
        size_t long_is = end != NULL ? (size_t)(end - data) - at : sizeof line, length;
        if (long_is >= sizeof line)
            return 2;
        memcpy(line, data + at, long_is);
        line[long_is] = 0;
        length = strtoull(strchr(line, ' '), NULL, 16);
        if (line[0] == 'r')
            file_case(data + at + long_is + 1, length, line);
        at += long_is + 1 + length;
    }
    printf("%d tests\n", tests);
    return wrong;
}
