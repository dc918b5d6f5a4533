/* A planning screen in C: prints how many draws the text score in a file or on standard input would make,
 * without playing it.
 *
 * usage: plan [SCORE]
 *
 * Prints one line: the draws. If the score is refused, its number and reason are printed to standard error,
 * and the status is 1; any other trouble gives status 2. */
#include "tono.h"

#include <errno.h>
#include <inttypes.h>
#include <stdio.h>
#include <string.h>

/* One byte more than a score may have, so that a longer one is seen to be too long. */
#define SCORE_MOST 65537

static int trouble(const char *name, const char *what)
{
    fprintf(stderr, "plan: %s: %s; usage: plan [SCORE]\n", name, what);
    return 2;
}

int main(int argc, char **argv)
{
    static uint8_t score[SCORE_MOST];
    const char *name = argc > 1 ? argv[1] : "standard input";
    if (argc > 2)
        return trouble(argv[2], "one score at a time");
    FILE *file = argc > 1 ? fopen(name, "rb") : stdin;
    if (file == NULL)
        return trouble(name, strerror(errno));
    size_t length = fread(score, 1, sizeof score, file);
    int failed = ferror(file);
    if (argc > 1)
        fclose(file);
    if (failed)
        return trouble(name, "cannot be read");
    uint64_t draws = 0;
    int64_t answer = tono_plan(score, length, &draws);
    if (answer < 0) {
        const char *reason = tono_reason((int)-answer);
        fprintf(stderr, "plan: %s is refused with %d: %s\n", name, (int)-answer, reason ? reason : "");
        return 1;
    }
    if (printf("%" PRIu64 " draws\n", draws) < 0 || fflush(stdout) != 0)
        return trouble("standard output", "cannot be written");
    return 0;
}
