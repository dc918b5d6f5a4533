/* How much stack the C calls take: plays the scores that the command line names, plans them after the word
 * `plan`, or prints their cue sheets after the word `sheet`, each on a thread whose stack was filled with one
 * byte, and prints how far down other bytes stand, less what a thread takes that makes no call. After the word
 * `seq` alone it measures tono_render_seq, tono_planned_draws and tono_note so, on every wave and style, with and
 * without tempo points, and at both ends of the rates. */
#define _DEFAULT_SOURCE
#include "tono.h"

#include <pthread.h>
#include <stdio.h>
#include <stdlib.h>
#include <string.h>

enum { STACK = 1 << 20, FILLER = 0xa5 };

static uint8_t score[1 << 18], reply[TONO_LISTING_MOST];

static uint64_t draws;

enum { FRAMES = 3000, WAVES = 18, STYLES = 4 };

enum kind { NONE, PLAY, PLAN, SHEET, RENDER, PLANNED, NOTE };

struct call {
    enum kind kind;
    size_t score_length;
    int64_t answer;
};

/* What the calls on whole stimuli are lent. */
static struct tono_session session;
static struct tono_seq seq;
static struct tono_seq_note notes[3];
static struct tono_tempo_point points[TONO_TEMPO_POINTS_MOST];
static float lane[FRAMES], out[FRAMES], note_buf[FRAMES], string[TONO_STRING_LENGTH];
static struct tono_buffers buffers = {note_buf, FRAMES, string, TONO_STRING_LENGTH};

static void *work(void *at)
{
    struct call *call = at;
    uint64_t state = 1;
    switch (call->kind) {
    case NONE: break;
    case PLAY: call->answer = tono_play(score, call->score_length, reply, sizeof reply); break;
    case PLAN: call->answer = tono_plan(score, call->score_length, &draws); break;
    case SHEET: call->answer = tono_cue_sheet(score, call->score_length, reply, sizeof reply); break;
    case RENDER:
        call->answer = tono_play_seq(&session, 0, &seq, notes, 3, lane, FRAMES, out, FRAMES, &buffers, &draws);
        break;
    case PLANNED: call->answer = tono_plan_seq(&session, 0, &seq, notes, 3, lane, FRAMES, FRAMES, &draws); break;
    case NOTE:
        call->answer = tono_play_note(&seq, 0.5f, &state, lane, FRAMES, lane, FRAMES, out, FRAMES, string,
                                      TONO_STRING_LENGTH, &draws);
        break;
    }
    return NULL;
}

/* The bytes of the stack from the lowest that changed up to its top. */
static size_t depth(struct call *call)
{
    static _Alignas(4096) uint8_t stack[STACK];
    pthread_attr_t attributes;
    pthread_t thread;
    size_t low = 0;
    memset(stack, FILLER, STACK);
    if (pthread_attr_init(&attributes) != 0 || pthread_attr_setstack(&attributes, stack, STACK) != 0
        || pthread_create(&thread, &attributes, work, call) != 0 || pthread_join(thread, NULL) != 0) {
        fprintf(stderr, "stack: no thread\n");
        exit(1);
    }
    pthread_attr_destroy(&attributes);
    while (low < STACK && stack[low] == FILLER)
        low++;
    return STACK - low;
}

/* The most that a kind of call takes over the waves, the styles, both ends of the rates, and with tempo points or none. */
static size_t most_of(enum kind kind, size_t idle)
{
    size_t most = 0;
    for (unsigned i = 0; i < WAVES * STYLES * 4; i++) {
        struct call call = {kind, 0, 0};
        uint64_t seeds[TONO_STATIONS] = {i};
        tono_session_open(&session, seeds);
        seq.wave = i % WAVES;
        seq.style = i / WAVES % STYLES;
        seq.rate = i / (WAVES * STYLES) % 2 == 0 ? 8000 : 192000;
        seq.points_count = i / (WAVES * STYLES * 2) == 0 ? 0 : TONO_TEMPO_POINTS_MOST;
        size_t taken = depth(&call) - idle;
        if (call.answer != 0) {
            fprintf(stderr, "stack: a call of wave %u is refused with %lld\n", (unsigned)seq.wave, (long long)call.answer);
            exit(1);
        }
        most = taken > most ? taken : most;
    }
    return most;
}

static void whole_stimuli(size_t idle)
{
    tono_seq_usual(&seq);
    seq.tempo = 1000.0f;
    seq.humanize = seq.swing = 0.5f;
    seq.points = points;
    for (int k = 0; k < TONO_TEMPO_POINTS_MOST; k++)
        points[k] = tono_tempo_point_at(k, 64, 900.0f + (float)k);
    for (int k = 0; k < FRAMES; k++)
        lane[k] = 300.0f;
    notes[0] = tono_note_at_pitch(0, 8, 66.0f, 0.5f);
    notes[1] = tono_note_on_curve(1, 1, 0, 0.5f);
    notes[2] = tono_note_at_quarter_tone(0, 1, 100, 0.5f);
    printf("%zu bytes at most, tono_render_seq\n", most_of(RENDER, idle));
    printf("%zu bytes at most, tono_planned_draws\n", most_of(PLANNED, idle));
    printf("%zu bytes at most, tono_note\n", most_of(NOTE, idle));
}

int main(int count, char **words)
{
    struct call none = {NONE, 0, 0};
    size_t most = 0, idle = depth(&none);
    enum kind kind = PLAY;
    if (count == 2 && strcmp(words[1], "seq") == 0) {
        whole_stimuli(idle);
        return 0;
    }
    if (count > 1 && strcmp(words[1], "plan") == 0)
        kind = PLAN;
    else if (count > 1 && strcmp(words[1], "sheet") == 0)
        kind = SHEET;
    for (int i = kind == PLAY ? 1 : 2; i < count; i++) {
        FILE *file = fopen(words[i], "rb");
        struct call call = {kind, 0, 0};
        if (file == NULL) {
            perror(words[i]);
            return 1;
        }
        call.score_length = fread(score, 1, sizeof score, file);
        fclose(file);
        size_t taken = depth(&call) - idle;
        printf("%7zu bytes of stack, answer %6lld: %s\n", taken, (long long)call.answer, words[i]);
        most = taken > most ? taken : most;
    }
    printf("%zu bytes at most\n", most);
    return 0;
}
