/* Random calls through tono_render_seq, tono_planned_draws, tono_note and the functions by structs: sessions of
 * eight calls each, every wave, straight and mapped tempos, curves, quarter tones, hops, and one call in three
 * with something wrong.
 *
 * usage: random print COUNT     prints the calls, one a line, for `compare answers`, which has the original answer them
 *        random FILE            makes the calls and holds them to the answers in FILE; prints what differs, and the number
 *                               of calls in the last line. The status is 1 where any differ
 *
 * Both runs make the same calls with any compiler: no expression takes two numbers from the source in an order
 * that C leaves open. */
#include "lent.h"

static uint64_t state;

/* SplitMix64, as a source of cases. */
static uint64_t next(void)
{
    uint64_t z = state += UINT64_C(0x9e3779b97f4a7c15);
    z = (z ^ z >> 30) * UINT64_C(0xbf58476d1ce4e5b9);
    z = (z ^ z >> 27) * UINT64_C(0x94d049bb133111eb);
    return z ^ z >> 31;
}

static uint32_t below(uint32_t n)
{
    return (uint32_t)(next() % n);
}

/* From low to high in steps of 1 / 64. */
static float between(int32_t low, int32_t high)
{
    return (float)(low * 64 + (int32_t)below((uint32_t)(high - low) * 64 + 1)) / 64.0f;
}

static float of_bits(uint32_t bits)
{
    float value;
    memcpy(&value, &bits, sizeof value);
    return value;
}

/* A number that is not sized: above 65,536, an infinity or a NaN. */
static float not_sized(void)
{
    static const uint32_t odd[] = {0x47800001, 0xc7800001, 0x7f7fffff, 0x7f800000, 0xff800000, 0x7fc00000, 0x7f800001};
    return of_bits(odd[below(7)]);
}

/* Spoils one of some values. */
static void spoil_one(float *values, size_t count)
{
    uint32_t place = below((uint32_t)count);
    values[place] = not_sized();
}

/* 0 in every other call, else up to 1. */
static float part(void)
{
    uint32_t is_there = below(2);
    return (float)(is_there * below(65)) / 64.0f;
}

static uint32_t rate(void)
{
    static const uint32_t usual[] = {8000, 22050, 44100, 48000, 96000, 192000};
    return below(3) == 0 ? 8000 + below(184001) : usual[below(6)];
}

static float pitch(void)
{
    return below(16) == 0 ? between(-100, 30000) : between(20, 2000);
}

static float hit(void)
{
    return 440.0f * (float)(1 + below(64)) / 48.0f;
}

/* Room for the lists of one call. */
static float knobs[TONO_KNOBS + 1], bars[TONO_BARS + 1], env[TONO_ENVELOPE + 1], lane[512], pitches[512], duties[512];
static uint32_t points[4 * 66 + 1], notes[5 * 8 + 1];

static void make_voice(uint32_t wave)
{
    struct tono_seq usual;
    size_t i;
    tono_seq_usual(&usual);
    memcpy(knobs, usual.knobs, sizeof usual.knobs);
    memcpy(bars, usual.bars, sizeof usual.bars);
    knobs[TONO_KNOBS] = bars[TONO_BARS] = env[TONO_ENVELOPE] = 0.5f;
    for (i = 0; i < TONO_KNOBS; i++)
        if (below(4) == 0)
            knobs[i] = knobs[i] * (float)(1 + below(96)) / 64.0f;
    if (below(16) == 0) {
        i = below(TONO_KNOBS);
        knobs[i] = between(-1000, 1000);
    }
    if (wave == TONO_WAVE_ORGAN && below(2) == 0)
        for (i = 0; i < TONO_BARS; i++)
            bars[i] = between(0, 8);
    for (i = 0; i < TONO_ENVELOPE; i++)
        if (below(2) == 0)
            env[i] = i == TONO_ENV_SUSTAIN ? 1.0f : 0.0f;
        else
            env[i] = (float)below(65) / (i == TONO_ENV_SUSTAIN ? 64.0f : 4096.0f);
}

static void put_note(uint32_t *at, const struct score *s)
{
    struct tono_seq_note note;
    uint32_t step = below(10), length = below(8) == 0 ? 0 : below(6);
    float gain = (float)below(129) / 128.0f;
    switch (below(4)) {
    case 0:
        note = tono_note_on_curve(step, length, below(64), gain);
        break;
    case 1:
        note = tono_note_at_quarter_tone(step, length, below(256), gain);
        break;
    default:
        note = tono_note_at_pitch(step, length, s->wave == TONO_WAVE_KIT ? hit() : pitch(), gain);
    }
    at[0] = note.step;
    at[1] = note.length;
    at[2] = note.kind;
    at[3] = note.pitch;
    at[4] = note.gain;
}

static void make_points(struct score *s)
{
    size_t count = below(4) == 0 ? 1 + below(6) : 0, i;
    int64_t beat = 0;
    for (i = 0; i < count; i++) {
        struct tono_tempo_point point = tono_tempo_point_at(beat, 3, between(200, 1000));
        points[4 * i] = point.num_low;
        points[4 * i + 1] = point.num_high;
        points[4 * i + 2] = point.den;
        points[4 * i + 3] = point.tempo;
        beat += 1 + (int64_t)below(3);
    }
    s->points_len = 4 * count;
}

/* One thing wrong, or a limit. */
static void spoil_score(struct score *s)
{
    size_t n = s->notes_len / TONO_NOTE_WORDS;
    uint32_t *note = notes + TONO_NOTE_WORDS * (n > 0 ? below((uint32_t)n) : 0);
    static const uint32_t rates[] = {0, 7999, 8000, 192000, 192001, UINT32_MAX};
    static const float tempos[] = {0.0f, 0.984375f, 1.0f, 1000.0f, 1000.015625f, -120.0f};
    static const uint32_t most[] = {0, 1, 64, 65, UINT32_MAX};
    static const uint32_t hops[] = {0, 1, 4096, 4097, UINT32_MAX};
    switch (below(24)) {
    case 0: s->rate = rates[below(6)]; break;
    case 1: s->tempo = below(4) == 0 ? not_sized() : tempos[below(6)]; break;
    case 2: s->steps_per_beat = most[below(5)]; break;
    case 3: s->swing = below(2) == 0 ? -0.015625f : 1.015625f; break;
    case 4: s->humanize = below(2) == 0 ? not_sized() : 1.0f; break;
    case 5: spoil_one(knobs, TONO_KNOBS); break;
    case 6: spoil_one(bars, TONO_BARS); break;
    case 7: spoil_one(env, TONO_ENVELOPE); break;
    case 8: s->duty = not_sized(); break;
    case 9: s->note_buf = s->out > 0 ? s->out - 1 : 0; break;
    case 10: s->string = TONO_STRING_LENGTH - 1 - below(2); break;
    case 11: s->hop = hops[below(5)]; break;
    case 12: s->notes_len += below(2) == 0 && s->notes_len > 0 ? (size_t)-1 : 1; break;
    case 13: spoil_one(lane, 64); break;
    case 14: note[2] = 3 + below(3); break;
    case 15: note[n % 2] = 1048575 + below(3); break;
    case 16: note[4] = tono_bits(not_sized()); break;
    case 17: note[2] = 0; note[3] = tono_bits(not_sized()); break;
    case 18: note[2] = 2; note[3] = 255 + below(2); break;
    case 19: s->station = 8 + below(3); break;
    case 20: s->wave = 18 + below(3); break;
    case 21: s->style = 4 + below(3); break;
    case 22: s->points_len += 1; break;
    default:
        s->points_len = 8;
        memset(points, 0, 8 * sizeof(uint32_t));
        points[2] = points[6] = 1;
        points[3] = points[7] = tono_bits(120.0f);
        points[4] = below(3);
        points[5] = below(8) == 0 ? UINT32_MAX : 0;
        points[6] = below(2);
    }
    switch (below(16)) {
    case 0: s->knobs_len += below(2) == 0 ? 1 : (size_t)-1; break;
    case 1: s->bars_len += below(2) == 0 ? 1 : (size_t)-1; break;
    case 2: s->env_len += below(2) == 0 ? 1 : (size_t)-1; break;
    default: break;
    }
}

static struct score make_score(void)
{
    struct score s;
    size_t i, count = below(7);
    s.station = below(8);
    s.rate = rate();
    s.tempo = between(200, 1000);
    s.steps_per_beat = 1 + below(8) * 8;
    s.swing = part();
    s.humanize = part();
    s.hop = below(2) == 0 ? 1 : 1 + below(64);
    s.wave = below(18);
    s.style = below(4);
    s.duty = (float)below(65) / 64.0f;
    s.out = below(32) == 0 ? 0 : below(8) == 0 ? below(3000) : below(400);
    s.note_buf = s.out + below(2) * 7;
    s.string = TONO_STRING_LENGTH + below(2) * 5;
    s.knobs_len = TONO_KNOBS;
    s.bars_len = TONO_BARS;
    s.env_len = TONO_ENVELOPE;
    s.lane_len = below(8) == 0 ? below(100) : 512;
    s.notes_len = TONO_NOTE_WORDS * count;
    make_voice(s.wave);
    make_points(&s);
    for (i = 0; i < 512; i++)
        lane[i] = pitch();
    memset(notes, 0, sizeof notes);
    for (i = 0; i < count; i++)
        put_note(notes + TONO_NOTE_WORDS * i, &s);
    if (below(3) == 0)
        spoil_score(&s);
    s.knobs = knobs;
    s.bars = bars;
    s.env = env;
    s.lane = lane;
    s.points = points;
    s.notes = notes;
    return s;
}

struct note {
    uint32_t rate, wave, style;
    float gain;
    uint64_t state;
    size_t out, string, knobs_len, bars_len, pitch_len, duty_len;
};

static void spoil_note(struct note *n)
{
    switch (below(12)) {
    case 0: n->rate = below(2) == 0 ? 7999 : 192001; break;
    case 1: spoil_one(knobs, TONO_KNOBS); break;
    case 2: spoil_one(bars, TONO_BARS); break;
    case 3: n->string = TONO_STRING_LENGTH - 1; break;
    case 4: n->gain = not_sized(); break;
    case 5: spoil_one(pitches, n->pitch_len); break;
    case 6: spoil_one(duties, n->duty_len); break;
    case 7: n->pitch_len = 0; break;
    case 8: n->duty_len += below(2) == 0 ? 1 : (size_t)-1; break;
    case 9: n->out += below(2) == 0 ? 1 : (size_t)-1; break;
    case 10: n->wave = 18 + below(3); break;
    default: n->style = 4 + below(3);
    }
    switch (below(16)) {
    case 0: n->knobs_len += below(2) == 0 ? 1 : (size_t)-1; break;
    case 1: n->bars_len += below(2) == 0 ? 1 : (size_t)-1; break;
    default: break;
    }
}

static struct note make_note(void)
{
    struct note n;
    size_t i;
    int curve = below(2) == 0;
    n.rate = rate();
    n.wave = below(18);
    n.style = below(4);
    n.gain = between(0, 1);
    n.state = next();
    n.out = n.pitch_len = n.duty_len = 1 + below(400);
    n.string = TONO_STRING_LENGTH + below(2) * 5;
    n.knobs_len = TONO_KNOBS;
    n.bars_len = TONO_BARS;
    make_voice(n.wave);
    for (i = 0; i < 512; i++) {
        pitches[i] = curve || i == 0 ? (n.wave == TONO_WAVE_KIT ? hit() : pitch()) : pitches[i - 1];
        duties[i] = curve || i == 0 ? (float)below(65) / 64.0f : duties[i - 1];
    }
    if (below(3) == 0)
        spoil_note(&n);
    return n;
}

static void open_session(struct tono_session *session)
{
    uint64_t seeds[TONO_STATIONS];
    size_t k;
    for (k = 0; k < TONO_STATIONS; k++)
        seeds[k] = next();
    tono_session_open(session, seeds);
    for (k = 0; k < TONO_STATIONS; k++)
        if (below(4) == 0)
            session->draws[k] = below(4) == 0 ? UINT64_MAX - below(500) : next();
}

static void print_floats(const float *values, size_t count)
{
    size_t i;
    for (i = 0; i < count; i++)
        printf(" %x", tono_bits(values[i]));
}

static void print_words(const uint32_t *values, size_t count)
{
    size_t i;
    for (i = 0; i < count; i++)
        printf(" %x", values[i]);
}

static void print_session(const struct tono_session *session)
{
    size_t k;
    printf("open");
    for (k = 0; k < TONO_STATIONS; k++)
        printf(" %llx %llx", (unsigned long long)session->seeds[k], (unsigned long long)session->draws[k]);
    printf("\n");
}

static void print_score(const struct score *s)
{
    printf("score %x %x %x %x %x %x %x %zx %zx %zx %zx %zx %zx %zx %zx %x %x %zx %x", s->rate, tono_bits(s->tempo),
           s->steps_per_beat, tono_bits(s->swing), tono_bits(s->humanize), s->wave, tono_bits(s->duty), s->out,
           s->note_buf, s->string, s->knobs_len, s->env_len, s->notes_len, s->lane_len, s->points_len, s->hop,
           s->station, s->bars_len, s->style);
    print_floats(s->knobs, s->knobs_len);
    print_floats(s->bars, s->bars_len);
    print_floats(s->env, s->env_len);
    print_words(s->notes, s->notes_len);
    print_floats(s->lane, s->lane_len);
    print_words(s->points, s->points_len);
    printf("\n");
}

static void print_note(const struct note *n)
{
    printf("note %x %x %x %x %llx %zx %zx %zx %zx %zx %zx", n->rate, n->wave, n->style, tono_bits(n->gain),
           (unsigned long long)n->state, n->out, n->string, n->knobs_len, n->bars_len, n->pitch_len, n->duty_len);
    print_floats(knobs, n->knobs_len);
    print_floats(bars, n->bars_len);
    print_floats(pitches, n->pitch_len);
    print_floats(duties, n->duty_len);
    printf("\n");
}

/* A call's answer: its number, its draws, and the sum of its frames. */
struct answer {
    unsigned long long number, draws, sum;
};

static void hold_score(struct tono_session *session, const struct score *made, const struct answer *asked,
                       const char *where)
{
    struct score s = own(*made);
    struct left left = play(&s, session, where);
    uint64_t sum = left.number == 0 ? sum_of(left.out.at, s.out) : 0;
    expect(left.number == asked->number, where, "the number is another");
    expect(left.number == TONO_MALFORMED || left.draws == asked->draws, where, "the draws are others");
    expect(sum == asked->sum, where, "the frames are others");
    hold_others(&s, session, &left, where);
    memcpy(session->draws, left.counts, sizeof session->draws);
    give_back(&left.out);
    free_score(&s);
}

static void hold_note(const struct note *n, const struct answer *asked, const char *where)
{
    float *k = (float *)copied(knobs, n->knobs_len * sizeof(float));
    float *b = (float *)copied(bars, n->bars_len * sizeof(float));
    float *p = (float *)copied(pitches, n->pitch_len * sizeof(float));
    float *d = (float *)copied(duties, n->duty_len * sizeof(float));
    struct lent out = lend(n->out), string = lend(n->string);
    uint64_t at = n->state, draws = DRAWS_BEFORE;
    uint32_t number = tono_note(n->rate, n->wave, n->style, k, n->knobs_len, b, n->bars_len, n->gain, &at, &draws, p,
                                n->pitch_len, d, n->duty_len, out.at, n->out, string.at, n->string);
    int played = number == 0;
    expect(number == asked->number, where, "the number is another");
    expect(draws == (number == TONO_MALFORMED ? DRAWS_BEFORE : asked->draws), where, "the draws are others");
    expect(at == n->state + asked->draws * UINT64_C(0x9e3779b97f4a7c15), where, "the state is another");
    expect((played ? sum_of(out.at, n->out) : 0) == asked->sum, where, "the frames are others");
    expect(played || stays_from(&out, 0), where, "a frame changed");
    expect(stays_from(&string, played ? TONO_STRING_LENGTH : 0), where, "the string buffer changed");
    expect(memcmp(k, knobs, n->knobs_len * sizeof(float)) == 0 && memcmp(b, bars, n->bars_len * sizeof(float)) == 0
               && memcmp(p, pitches, n->pitch_len * sizeof(float)) == 0
               && memcmp(d, duties, n->duty_len * sizeof(float)) == 0,
           where, "what was handed in changed");
    free(k);
    free(b);
    free(p);
    free(d);
    give_back(&out);
    give_back(&string);
}

/* Call i, printed, or held to its answer. */
static void call(unsigned long i, struct tono_session *session, const struct answer *asked)
{
    char where[32];
    snprintf(where, sizeof where, "call %lu", i);
    state = i * UINT64_C(0x100000000);
    if (i % 8 == 0) {
        open_session(session);
        if (asked == NULL)
            print_session(session);
    }
    if (i % 4 == 3) {
        struct note n = make_note();
        if (asked == NULL)
            print_note(&n);
        else
            hold_note(&n, asked, where);
    } else {
        struct score s = make_score();
        if (asked == NULL)
            print_score(&s);
        else
            hold_score(session, &s, asked, where);
    }
}

int main(int count, char **words)
{
    struct tono_session session;
    struct answer asked;
    unsigned long i = 0;
    FILE *file;
    if (count == 3 && strcmp(words[1], "print") == 0) {
        unsigned long all = strtoul(words[2], NULL, 10);
        for (i = 0; i < all; i++)
            call(i, &session, NULL);
        return 0;
    }
    file = count == 2 ? fopen(words[1], "r") : NULL;
    if (file == NULL) {
        fprintf(stderr, "usage: random print COUNT, or random FILE\n");
        return 2;
    }
    while (fscanf(file, "%llx %llx %llx", &asked.number, &asked.draws, &asked.sum) == 3)
        call(i++, &session, &asked);
    fclose(file);
    printf("%lu calls\n", i);
    return wrong;
}
