/* The cases of selftest/vectors.bin, and what a run over them counts. */
#ifndef SELFTEST_CASES_H
#define SELFTEST_CASES_H

#include "tono.h"

/* What a run counts. A case passes if each call gives the original's answer. */
struct counts {
    unsigned passed, failed;
    unsigned of_kind[128], failed_of_kind[128]; /* by the case's letter */
    unsigned asked, declined;                   /* inline calls, and how many of them answered TONO_FP_MODE */
};

/* Runs every case with this register MXCSR. In the usual mode the inline calls are held to the answers too; in another
 * they are counted, and the calls by arrays alone decide. A line for each case that fails goes to standard output if
 * `tells`. */
struct counts run_cases(uint32_t mode, int tells);

/* Whether the library has this program's version. Only libtono.so says one; of another version a line says so. */
int is_of_version(void);

/* The cases' letters, in words for a reader; NULL after the last. */
struct kind {
    char letter;
    const char *name;
};
extern const struct kind kinds[];

#endif
