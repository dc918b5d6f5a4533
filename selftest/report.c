#define _POSIX_C_SOURCE 200809L
#include "report.h"
#include "cases.h"
#include "sha256.h"

#include <limits.h>
#include <stdio.h>
#include <stdlib.h>
#include <sys/utsname.h>
#include <time.h>

/* Only libtono.so has the name; in a program that is linked with libtono.a it is at no address. */
#pragma weak tono_library_version

enum { WAVES = 18, SECONDS = 12, LONG_FRAMES = 8000 * SECONDS, SECOND = 48000 };

static const char *const wave_names[WAVES] = {
    "square", "triangle", "sawtooth", "sine", "noise", "fm", "pluck", "piano", "epiano", "organ", "strings", "brass", "flute",
    "mallet", "bell", "bass", "kit", "cowbell",
};

static const struct { const char *name; uint32_t bits; int rounds; } modes[] = {
    {"rounding down", 0x2000, 1}, {"rounding up", 0x4000, 1}, {"rounding toward zero", 0x6000, 1},
    {"FTZ", 0x8000, 0}, {"DAZ", 0x0040, 0}, {"FTZ and DAZ", 0x8040, 0},
};

static float frames[LONG_FRAMES], usual[WAVES][LONG_FRAMES], note_room[LONG_FRAMES], string_room[TONO_STRING_LENGTH];

static double now(void)
{
    struct timespec at;
    clock_gettime(CLOCK_MONOTONIC, &at);
    return (double)at.tv_sec + 1e-9 * (double)at.tv_nsec;
}

/* Prints what follows the first line of a file that begins with a word and has a colon, or `unknown`. */
static void print_field(const char *path, const char *word)
{
    char line[256];
    FILE *file = fopen(path, "r");
    const char *found = NULL;
    while (file != NULL && found == NULL && fgets(line, sizeof line, file) != NULL)
        if (strncmp(line, word, strlen(word)) == 0 && (found = strchr(line, ':')) != NULL)
            line[strcspn(line, "\n")] = 0;
    printf("%s", found != NULL ? found + 2 : "unknown");
    if (file != NULL)
        fclose(file);
}

/* The path of the library in this process, or of the program where it is inside. */
static void library_path(char *path, size_t room)
{
    static char line[PATH_MAX + 128];
    FILE *file = fopen("/proc/self/maps", "r");
    snprintf(path, room, "/proc/self/exe");
    while (file != NULL && fgets(line, sizeof line, file) != NULL) {
        char *at = strchr(line, '/');
        if (at != NULL && strstr(at, "/libtono.so") != NULL) {
            at[strcspn(at, "\n")] = 0;
            snprintf(path, room, "%s", at);
            break;
        }
    }
    if (file != NULL)
        fclose(file);
}

static void print_machine(void)
{
    struct utsname name;
    char path[PATH_MAX], digits[65];
    char date[32];
    time_t at = time(NULL);
    struct tm *utc = gmtime(&at);
    if (utc == NULL || strftime(date, sizeof date, "%Y-%m-%d %H:%M:%S UTC", utc) == 0)
        snprintf(date, sizeof date, "unknown");
    printf("# tono-selftest %s\n\n- date: %s\n", tono_version(), date);
    if (uname(&name) == 0)
        printf("- machine: %s\n- kernel: %s %s, %s\n", name.nodename, name.sysname, name.release, name.machine);
    printf("- processor: ");
    print_field("/proc/cpuinfo", "model name");
    printf(", microcode ");
    print_field("/proc/cpuinfo", "microcode");
    library_path(path, sizeof path);
    printf("\n- library: %s%s\n", strcmp(path, "/proc/self/exe") == 0 ? "inside this program" : path,
           tono_library_version != NULL ? "" : ", without a version");
    if (tono_library_version != NULL)
        printf("- library's version: %s\n", tono_library_version);
    printf("- library's SHA-256: %s\n", sha256_of_file(path, digits) == 0 ? digits : "unknown");
    printf("- floating-point mode at the start: MXCSR %08x, %s\n", (unsigned)_mm_getcsr(),
           tono_fp_ok() ? "rounds to nearest and keeps subnormals" : "NOT that of the library");
}

/* Twelve seconds of a wave at 8,000 frames a second, or one at 48,000, by arrays. */
static uint32_t sound(uint32_t wave, uint32_t rate, size_t count)
{
    static const uint64_t seeds[TONO_STATIONS] = {0x5eed};
    const struct tono_seq_note note = tono_note_at_pitch(0, 4 * 2 * SECONDS, 82.5f, 0.7f);
    struct tono_session session;
    struct tono_seq seq;
    uint64_t draws;
    const uint32_t no_point = 0;
    const float no_lane = 0.0f;
    tono_session_open(&session, seeds);
    tono_seq_usual(&seq);
    return tono_render_seq(session.seeds, TONO_STATIONS, session.draws, TONO_STATIONS, &draws, 0, rate, seq.tempo,
                           seq.steps_per_beat, &no_point, 0, seq.swing, seq.humanize, seq.hop, wave, seq.style, seq.duty,
                           seq.knobs, TONO_KNOBS, seq.bars, TONO_BARS, seq.env, TONO_ENVELOPE, &note.step, TONO_NOTE_WORDS,
                           &no_lane, 0, frames, count, note_room, LONG_FRAMES, string_room, TONO_STRING_LENGTH);
}

static void print_times(void)
{
    uint32_t wave;
    printf("\n## One second at 48,000 frames a second\n\n| wave | ms |\n|---|---|\n");
    for (wave = 0; wave < WAVES; wave++) {
        double best = 1e9;
        int tries;
        for (tries = 0; tries < 5; tries++) {
            double began = now(), took;
            sound(wave, SECOND, SECOND);
            took = now() - began;
            best = took < best ? took : best;
        }
        printf("| %s | %.2f |\n", wave_names[wave], 1e3 * best);
    }
}

static void print_cases(const struct counts *counts, double took)
{
    const struct kind *kind;
    printf("\n## The original's answers\n\n| cases | number | failed |\n|---|---|---|\n");
    for (kind = kinds; kind->name != NULL; kind++)
        printf("| %s | %u | %u |\n", kind->name, counts->of_kind[(int)kind->letter], counts->failed_of_kind[(int)kind->letter]);
    printf("\nThey took %.2f s.\n", took);
}

/* One row for a mode; returns whether it was noticed by every inline call, and the calls by arrays differed. */
static int print_mode(size_t place)
{
    uint32_t mode = TONO_FP_USUAL | modes[place].bits, wave;
    struct counts counts = run_cases(mode, 0);
    int others = 0, is_noticed;
    for (wave = 0; wave < WAVES; wave++) {
        _mm_setcsr(mode);
        sound(wave, 8000, LONG_FRAMES);
        _mm_setcsr(TONO_FP_USUAL);
        others += memcmp(frames, usual[wave], sizeof frames) != 0;
    }
    is_noticed = counts.declined == counts.asked && counts.asked > 0 && (counts.failed > 0 || others > 0);
    printf("| %s | %u | %d | %u of %u | %s |\n", modes[place].name, counts.failed, others, counts.declined, counts.asked,
           is_noticed ? "noticed" : "NOT NOTICED");
    return is_noticed;
}

static int print_modes(void)
{
    size_t place;
    uint32_t wave;
    int are_noticed = 1;
    printf("\n## Other floating-point modes\n\nThe same cases in a mode that the library's bits do not hold in, and %d s of each "
           "wave. The calls by arrays\ndo not look at the mode; the inline calls of tono.h answer TONO_FP_MODE and change "
           "nothing.\n\n| mode | cases that differ by arrays | waves that differ, of %d | inline calls that decline | mode "
           "|\n|---|---|---|---|---|\n",
           SECONDS, WAVES);
    for (wave = 0; wave < WAVES; wave++) {
        sound(wave, 8000, LONG_FRAMES);
        memcpy(usual[wave], frames, sizeof frames);
    }
    for (place = 0; place < sizeof modes / sizeof modes[0]; place++)
        are_noticed &= print_mode(place);
    return are_noticed;
}

int report(void)
{
    struct counts counts;
    double began;
    int are_noticed;
    print_machine();
    _mm_setcsr(TONO_FP_USUAL);
    began = now();
    counts = run_cases(TONO_FP_USUAL, 0);
    print_cases(&counts, now() - began);
    print_times();
    are_noticed = print_modes();
    printf("\n");
    counts.failed += !is_of_version();
    printf("%u passed, %u failed\n", counts.passed, counts.failed);
    return counts.failed > 0 || !are_noticed;
}
