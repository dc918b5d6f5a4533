/* What the tests of the calls on whole stimuli share: buffers that remember what they held, a score call with
 * all that is tested of every one, and what a failed test prints. Each buffer is a block of the heap of just its
 * size, so that the sanitizers see a stray access. */
#ifndef SEQ_LENT_H
#define SEQ_LENT_H

#include "tono.h"

#include <stdio.h>
#include <stdlib.h>
#include <string.h>

static int wrong;

/* One line for each test that fails. */
static inline void expect(int holds, const char *where, const char *what)
{
    if (!holds) {
        wrong = 1;
        printf("%s: %s\n", where, what);
    }
}

static inline void *block(size_t size)
{
    void *at = malloc(size > 0 ? size : 1);
    if (at == NULL) {
        fprintf(stderr, "seq: no memory\n");
        exit(2);
    }
    return at;
}

/* A copy of an array, of just its size. */
static inline void *copied(const void *values, size_t size)
{
    void *at = block(size);
    if (size > 0)
        memcpy(at, values, size);
    return at;
}

/* A buffer that is lent, and what it held before. */
struct lent {
    float *at, *was;
    size_t count;
};

static inline struct lent lend(size_t count)
{
    struct lent lent;
    size_t i;
    lent.count = count;
    lent.at = (float *)block(count * sizeof(float));
    for (i = 0; i < count; i++)
        lent.at[i] = 1.0f + (float)(i % 1024) / 1024.0f;
    lent.was = (float *)copied(lent.at, count * sizeof(float));
    return lent;
}

/* Whether all is as it was from a place on. */
static inline int stays_from(const struct lent *lent, size_t from)
{
    size_t first = from < lent->count ? from : lent->count;
    return lent->count == first
           || memcmp(lent->at + first, lent->was + first, (lent->count - first) * sizeof(float)) == 0;
}

static inline void give_back(struct lent *lent)
{
    free(lent->at);
    free(lent->was);
}

/* The pattern of a frame, where one NaN counts as any other. */
static inline uint32_t pattern(float x)
{
    uint32_t bits = tono_bits(x);
    return (bits & UINT32_C(0x7fffffff)) > UINT32_C(0x7f800000) ? UINT32_C(0x7fc00000) : bits;
}

/* FNV-1a of the frames' patterns, low byte first. */
static inline uint64_t sum_of(const float *frames, size_t count)
{
    uint64_t sum = UINT64_C(0xcbf29ce484222325);
    size_t i;
    int k;
    for (i = 0; i < count; i++) {
        uint32_t bits = pattern(frames[i]);
        for (k = 0; k < 4; k++)
            sum = (sum ^ (bits >> (8 * k) & 255u)) * UINT64_C(0x100000001b3);
    }
    return sum;
}

/* The arguments of a score call by value; lengths of notes and points are in words. */
struct score {
    uint32_t station, rate, steps_per_beat, hop, wave, style;
    float tempo, swing, humanize, duty;
    float *knobs, *bars, *env, *lane;
    uint32_t *points, *notes;
    size_t knobs_len, bars_len, env_len, lane_len, points_len, notes_len;
    size_t out, note_buf, string;
};

static inline void free_score(struct score *s)
{
    free(s->knobs);
    free(s->bars);
    free(s->env);
    free(s->lane);
    free(s->points);
    free(s->notes);
}

/* A score with its lists copied to blocks of just their sizes. */
static inline struct score own(struct score s)
{
    s.knobs = (float *)copied(s.knobs, s.knobs_len * sizeof(float));
    s.bars = (float *)copied(s.bars, s.bars_len * sizeof(float));
    s.env = (float *)copied(s.env, s.env_len * sizeof(float));
    s.lane = (float *)copied(s.lane, s.lane_len * sizeof(float));
    s.points = (uint32_t *)copied(s.points, s.points_len * sizeof(uint32_t));
    s.notes = (uint32_t *)copied(s.notes, s.notes_len * sizeof(uint32_t));
    return s;
}

/* What a call left: the number, the draws, the counts and the frames. */
struct left {
    uint32_t number;
    uint64_t draws, counts[TONO_STATIONS];
    struct lent out;
};

#define DRAWS_BEFORE UINT64_C(0x5555)

/* Plays a score through tono_render_seq and tests all that is said of what it leaves but the frames. The frames
 * stay with the caller. */
static inline struct left play(const struct score *s, const struct tono_session *session, const char *where)
{
    struct left left;
    struct lent note_buf = lend(s->note_buf), string = lend(s->string);
    struct score was = own(*s);
    uint64_t *seeds = (uint64_t *)copied(session->seeds, sizeof session->seeds);
    uint64_t *counts = (uint64_t *)copied(session->draws, sizeof session->draws);
    uint64_t asked[TONO_STATIONS];
    int played;
    left.out = lend(s->out);
    left.draws = DRAWS_BEFORE;
    left.number = tono_render_seq(seeds, TONO_STATIONS, counts, TONO_STATIONS, &left.draws, s->station, s->rate,
                                  s->tempo, s->steps_per_beat, s->points, s->points_len, s->swing, s->humanize,
                                  s->hop, s->wave, s->style, s->duty, s->knobs, s->knobs_len, s->bars,
                                  s->bars_len, s->env, s->env_len, s->notes, s->notes_len, s->lane, s->lane_len,
                                  left.out.at, s->out, note_buf.at, s->note_buf, string.at, s->string);
    played = left.number == 0;
    expect(memcmp(seeds, session->seeds, sizeof session->seeds) == 0, where, "a seed changed");
    memcpy(asked, session->draws, sizeof asked);
    if (played)
        asked[s->station] += left.draws;
    expect(memcmp(counts, asked, sizeof asked) == 0, where, "the counts are others");
    if (!played)
        expect(left.draws == (left.number == TONO_MALFORMED ? DRAWS_BEFORE : 0), where, "the draws of no call");
    expect(played || stays_from(&left.out, 0), where, "a frame changed");
    expect(stays_from(&note_buf, played ? s->out : 0), where, "the note buffer changed");
    expect(stays_from(&string, played ? TONO_STRING_LENGTH : 0), where, "the string buffer changed");
    expect(memcmp(s->knobs, was.knobs, s->knobs_len * sizeof(float)) == 0, where, "a knob changed");
    expect(memcmp(s->bars, was.bars, s->bars_len * sizeof(float)) == 0, where, "a drawbar changed");
    expect(memcmp(s->env, was.env, s->env_len * sizeof(float)) == 0, where, "the envelope changed");
    expect(memcmp(s->lane, was.lane, s->lane_len * sizeof(float)) == 0, where, "the lane changed");
    expect(memcmp(s->points, was.points, s->points_len * sizeof(uint32_t)) == 0, where, "a point changed");
    expect(memcmp(s->notes, was.notes, s->notes_len * sizeof(uint32_t)) == 0, where, "a note changed");
    memcpy(left.counts, counts, sizeof left.counts);
    free(counts);
    free(seeds);
    free_score(&was);
    give_back(&note_buf);
    give_back(&string);
    return left;
}

/* Whether the score can be handed in as structs: the lists have their lengths, and notes and points are whole. */
static inline int has_structs(const struct score *s)
{
    return s->knobs_len == TONO_KNOBS && s->bars_len == TONO_BARS && s->env_len == TONO_ENVELOPE
           && s->points_len % TONO_POINT_WORDS == 0 && s->notes_len % TONO_NOTE_WORDS == 0;
}

static inline struct tono_seq seq_of(const struct score *s, const struct tono_tempo_point *points)
{
    struct tono_seq seq;
    tono_seq_usual(&seq);
    seq.rate = s->rate;
    seq.tempo = s->tempo;
    seq.steps_per_beat = s->steps_per_beat;
    seq.points = s->points_len > 0 ? points : NULL;
    seq.points_count = s->points_len / TONO_POINT_WORDS;
    seq.swing = s->swing;
    seq.humanize = s->humanize;
    seq.hop = s->hop;
    seq.wave = s->wave;
    seq.style = s->style;
    seq.duty = s->duty;
    memcpy(seq.knobs, s->knobs, sizeof seq.knobs);
    memcpy(seq.bars, s->bars, sizeof seq.bars);
    memcpy(seq.env, s->env, sizeof seq.env);
    return seq;
}

/* Holds tono_play_seq and tono_plan_seq, and tono_planned_draws, to what tono_render_seq left. */
static inline void hold_others(const struct score *s, const struct tono_session *session, const struct left *left,
                               const char *where)
{
    struct tono_tempo_point *points = (struct tono_tempo_point *)copied(s->points, s->points_len * sizeof(uint32_t));
    struct tono_seq_note *notes = (struct tono_seq_note *)copied(s->notes, s->notes_len * sizeof(uint32_t));
    struct tono_session other = *session;
    uint64_t draws = DRAWS_BEFORE;
    uint32_t number = tono_planned_draws(session->seeds, TONO_STATIONS, session->draws, TONO_STATIONS, &draws,
                                         s->station, s->rate, s->tempo, s->steps_per_beat, s->points,
                                         s->points_len, s->swing, s->humanize, s->hop, s->wave, s->style, s->duty,
                                         s->knobs, s->knobs_len, s->bars, s->bars_len, s->env, s->env_len,
                                         s->notes, s->notes_len, s->lane, s->lane_len, s->out);
    int is_lent = left->number != TONO_REFUSED_NOTE_BUFFER && left->number != TONO_REFUSED_STRING_BUFFER;
    expect(!is_lent || (number == left->number && draws == left->draws), where, "the plan is another");
    if (has_structs(s)) {
        struct tono_seq seq = seq_of(s, points);
        struct lent out = lend(s->out), note_buf = lend(s->note_buf), string = lend(s->string);
        struct tono_buffers buffers;
        size_t count = s->notes_len / TONO_NOTE_WORDS;
        buffers.note = note_buf.at;
        buffers.note_len = s->note_buf;
        buffers.string = string.at;
        buffers.string_len = s->string;
        draws = DRAWS_BEFORE;
        number = tono_plan_seq(&other, s->station, &seq, count > 0 ? notes : NULL, count,
                               s->lane_len > 0 ? s->lane : NULL, s->lane_len, s->out, &draws);
        expect(!is_lent || (number == left->number && draws == left->draws), where, "the plan by structs is another");
        draws = DRAWS_BEFORE;
        number = tono_play_seq(&other, s->station, &seq, count > 0 ? notes : NULL, count,
                               s->lane_len > 0 ? s->lane : NULL, s->lane_len, s->out > 0 ? out.at : NULL, s->out,
                               &buffers, &draws);
        expect(number == left->number && draws == left->draws, where, "the answer by structs is another");
        expect(sum_of(out.at, s->out) == sum_of(left->out.at, s->out), where, "the frames by structs are others");
        expect(memcmp(other.draws, left->counts, sizeof other.draws) == 0, where, "the counts by structs are others");
        expect(memcmp(other.seeds, session->seeds, sizeof other.seeds) == 0, where, "a seed by structs changed");
        give_back(&out);
        give_back(&note_buf);
        give_back(&string);
    }
    free(points);
    free(notes);
}

#endif
