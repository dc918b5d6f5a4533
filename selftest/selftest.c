/* tono-selftest: holds libtono on this machine to the original's answers.
 *
 * The answers are inside the program (selftest/pack). It needs libtono and the C library, and reads and writes no file but
 * /proc and, for its sum, the library. */
#include "cases.h"
#include "report.h"

#include <stdio.h>
#include <string.h>

static const char help[] =
    "usage: tono-selftest             holds the library to the original's answers: scores, notes, text scores, cue\n"
    "                                 sheets, WAVE files and exponentials, each wave, style and refusal. The last line is\n"
    "                                 'N passed, M failed'\n"
    "       tono-selftest --report    the same, as a page for the rig's log: machine, library, times, and the same run in\n"
    "                                 other floating-point modes\n"
    "       tono-selftest --help      prints this\n"
    "       tono-selftest --version   prints the version\n"
    "\n"
    "The status is 0 if all passed, 1 if some failed, and 2 if nothing was tested or the page could not be written.\n";

/* The status, if all that was printed is written. */
static int ended(int status)
{
    if (fflush(stdout) != 0 || ferror(stdout)) {
        fprintf(stderr, "tono-selftest: standard output could not be written; free some space or write elsewhere\n");
        return 2;
    }
    return status;
}

int main(int count, char **words)
{
    struct counts counts;
    if (count == 2 && strcmp(words[1], "--help") == 0) {
        fputs(help, stdout);
        return ended(0);
    }
    if (count == 2 && strcmp(words[1], "--version") == 0) {
        printf("tono %s\n", tono_version());
        return ended(0);
    }
    if (count == 2 && strcmp(words[1], "--report") == 0)
        return ended(report());
    if (count != 1) {
        fprintf(stderr, "tono-selftest: %s: no such option; see tono-selftest --help\n", words[1]);
        return 2;
    }
    counts = run_cases(TONO_FP_USUAL, 1);
    counts.failed += !is_of_version();
    printf("%u passed, %u failed\n", counts.passed, counts.failed);
    return ended(counts.failed > 0);
}
