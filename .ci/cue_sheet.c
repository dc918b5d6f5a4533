/* Prints what tono_cue_sheet returns for the score on standard input and a page of so many bytes, and then the
 * bytes of the page that the call left other than they were. */
#include "tono.h"
#include <stdio.h>
#include <stdlib.h>
#include <string.h>

static uint8_t score[65537];
static uint8_t page[TONO_CUE_SHEET_MOST + 64];

int main(int count, char **words)
{
    size_t room = count > 1 ? (size_t)atol(words[1]) : TONO_CUE_SHEET_MOST;
    if (room > sizeof page)
        return 2;
    memset(page, 0, sizeof page);
    size_t length = fread(score, 1, sizeof score, stdin);
    int64_t said = tono_cue_sheet(score, length, page, room);
    printf("%lld\n", (long long)said);
    for (size_t i = 0; i < sizeof page; i++)
        if (page[i] != 0)
            putchar(page[i]);
    return 0;
}
