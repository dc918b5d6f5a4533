/* Every refusal that tono_render_seq, tono_planned_draws and tono_note can give, once each, and what is no
 * call, through the arrays and the structs. Each is held to its number, and nothing that was lent may change.
 *
 * usage: refusals          prints what is wrong; the status is 1 then. The last line has the number of tests
 *        refusals usual    prints the bits of the usual duty and knobs, one a line */
#include "lent.h"

static float knobs[TONO_KNOBS + 1], bars[TONO_BARS + 1], env[TONO_ENVELOPE + 1], lane[4];
static uint32_t points[4 * (TONO_TEMPO_POINTS_MOST + 1)], notes[11];
static struct tono_session session;
static int tests;

static float of_bits(uint32_t bits)
{
    float value;
    memcpy(&value, &bits, sizeof value);
    return value;
}

/* A score of two noises, which is accepted, on station 3. */
static struct score base(void)
{
    struct score s;
    struct tono_seq usual;
    struct tono_seq_note note[2];
    uint64_t seeds[TONO_STATIONS] = {1, 2, 3, 4, 5, 6, 7, 8};
    size_t k;
    tono_seq_usual(&usual);
    memcpy(knobs, usual.knobs, sizeof usual.knobs);
    memcpy(bars, usual.bars, sizeof usual.bars);
    memcpy(env, usual.env, sizeof usual.env);
    for (k = 0; k < 4; k++)
        lane[k] = 440.0f;
    note[0] = tono_note_at_pitch(0, 1, 440.0f, 0.5f);
    note[1] = tono_note_on_curve(0, 0, 0, 0.25f);
    memcpy(notes, note, sizeof note);
    for (k = 0; k <= TONO_TEMPO_POINTS_MOST; k++) {
        struct tono_tempo_point point = tono_tempo_point_at((int64_t)k, 2, 120.0f);
        memcpy(points + 4 * k, &point, sizeof point);
    }
    tono_session_open(&session, seeds);
    for (k = 0; k < TONO_STATIONS; k++)
        session.draws[k] = 100 * k;
    s.station = 3;
    s.rate = 8000;
    s.steps_per_beat = usual.steps_per_beat;
    s.hop = usual.hop;
    s.wave = TONO_WAVE_NOISE;
    s.style = usual.style;
    s.tempo = 1000.0f;
    s.swing = usual.swing;
    s.humanize = usual.humanize;
    s.duty = usual.duty;
    s.knobs = knobs;
    s.bars = bars;
    s.env = env;
    s.lane = lane;
    s.points = points;
    s.notes = notes;
    s.knobs_len = TONO_KNOBS;
    s.bars_len = TONO_BARS;
    s.env_len = TONO_ENVELOPE;
    s.lane_len = 4;
    s.points_len = 0;
    s.notes_len = 10;
    s.out = 64;
    s.note_buf = 70;
    s.string = TONO_STRING_LENGTH + 8;
    return s;
}

/* The score's number, with all that `play` and `hold_others` test; then the lists are as at first. */
static void gives(uint32_t asked, struct score made, const char *what)
{
    struct score s = own(made);
    struct left left = play(&s, &session, what);
    tests++;
    expect(left.number == asked, what, "the number is another");
    hold_others(&s, &session, &left, what);
    give_back(&left.out);
    free_score(&s);
    base();
}

#define REFUSED(number, what, change) \
    do {                              \
        struct score s = base();      \
        change;                       \
        gives(number, s, what);       \
    } while (0)

static void score_calls(void)
{
    const float nan = of_bits(0x7fc00000), infinity = of_bits(0x7f800000), above = of_bits(0x47800001);
    REFUSED(0, "an accepted score", (void)s);
    REFUSED(0, "no notes and no frames", s.notes_len = s.out = 0);
    REFUSED(0, "64 tempo points", s.points_len = 4 * TONO_TEMPO_POINTS_MOST; s.notes_len = 5);
    REFUSED(33, "station 8", s.station = 8);
    REFUSED(33, "a station before a rate", s.station = UINT32_MAX; s.rate = 0);
    REFUSED(1, "rate 7,999", s.rate = 7999);
    REFUSED(1, "rate 192,001", s.rate = 192001);
    REFUSED(3, "tempo 0", s.tempo = 0.0f);
    REFUSED(3, "a tempo that is a NaN", s.tempo = nan);
    REFUSED(4, "0 steps a beat", s.steps_per_beat = 0);
    REFUSED(4, "65 steps a beat", s.steps_per_beat = 65);
    REFUSED(31, "65 tempo points", s.points_len = 4 * (TONO_TEMPO_POINTS_MOST + 1));
    REFUSED(31, "a denominator of 0", s.points_len = 4; points[2] = 0);
    REFUSED(31, "a tempo point of 1,001", s.points_len = 4; points[3] = tono_bits(1001.0f));
    REFUSED(32, "a first point after beat 0", s.points_len = 4; points[0] = 1);
    REFUSED(32, "a first point before beat 0", s.points_len = 4; points[0] = points[1] = UINT32_MAX);
    REFUSED(32, "two points at one beat", s.points_len = 8; points[4] = 0);
    REFUSED(5, "swing above 1", s.swing = 1.5f);
    REFUSED(5, "humanize below 0", s.humanize = -0.5f);
    REFUSED(6, "a knob above 65,536", knobs[21] = above);
    REFUSED(6, "a drawbar that is infinite", bars[9] = infinity);
    REFUSED(6, "a duty that is a NaN", s.duty = nan);
    REFUSED(6, "an envelope number that is a NaN", env[4] = nan);
    REFUSED(20, "a note buffer of 63", s.note_buf = 63);
    REFUSED(21, "a string buffer of 9,599", s.string = TONO_STRING_LENGTH - 1);
    REFUSED(35, "hop 0", s.hop = 0);
    REFUSED(35, "hop 4,097", s.hop = 4097);
    REFUSED(7, "eleven words", s.notes_len = 11);
    REFUSED(11, "a lane value above 65,536", lane[3] = above);
    REFUSED(8, "kind 3", notes[2] = 3);
    REFUSED(9, "step 1,048,576", notes[0] = 1048576);
    REFUSED(9, "length 1,048,576", notes[6] = 1048576);
    REFUSED(10, "a gain that is infinite", notes[4] = 0x7f800000);
    REFUSED(10, "a pitch that is a NaN", notes[3] = 0x7fc00000);
    REFUSED(30, "quarter tone 256", notes[2] = TONO_PITCH_QUARTER_TONE; notes[3] = 256);
    REFUSED(12, "a curve past the lane's end", notes[8] = 4);
    REFUSED(12, "a curve on no lane", s.lane_len = 0);
    REFUSED(22, "draws past 2^64 - 1", session.draws[3] = UINT64_MAX - 2);
    REFUSED(0, "another station at its last draw", session.draws[4] = UINT64_MAX);
    REFUSED(TONO_MALFORMED, "wave 18", s.wave = 18);
    REFUSED(TONO_MALFORMED, "style 4", s.style = 4);
    REFUSED(TONO_MALFORMED, "no call before a station", s.style = 4; s.station = 8);
    REFUSED(TONO_MALFORMED, "21 knobs", s.knobs_len = 21);
    REFUSED(TONO_MALFORMED, "23 knobs", s.knobs_len = 23);
    REFUSED(TONO_MALFORMED, "9 numbers of drawbars", s.bars_len = 9);
    REFUSED(TONO_MALFORMED, "11 numbers of drawbars", s.bars_len = 11);
    REFUSED(TONO_MALFORMED, "4 numbers of an envelope", s.env_len = 4);
    REFUSED(TONO_MALFORMED, "6 numbers of an envelope", s.env_len = 6);
    REFUSED(TONO_MALFORMED, "7 words of points", s.points_len = 7);
}

/* A session of other lengths, and the frames' limit, which are not in a struct score. */
static void odd_session(size_t seeds_len, size_t counts_len, size_t frames, uint32_t asked, const char *what)
{
    struct score s = base();
    struct lent string = lend(s.string), note_buf = lend(1);
    uint64_t *seeds = (uint64_t *)block(9 * sizeof(uint64_t)), *counts = (uint64_t *)block(9 * sizeof(uint64_t));
    float *out = (float *)calloc(frames > 0 ? frames : 1, sizeof(float));
    uint64_t draws = DRAWS_BEFORE, told = asked == TONO_MALFORMED ? DRAWS_BEFORE : 0;
    size_t k;
    if (out == NULL)
        exit(2);
    for (k = 0; k < 9; k++)
        seeds[k] = counts[k] = 1000 + k;
    tests++;
    expect(tono_render_seq(seeds, seeds_len, counts, counts_len, &draws, 3, s.rate, s.tempo, s.steps_per_beat,
                           s.points, 0, s.swing, s.humanize, s.hop, s.wave, s.style, s.duty, s.knobs, s.knobs_len,
                           s.bars, s.bars_len, s.env, s.env_len, s.notes, s.notes_len, s.lane, s.lane_len, out,
                           frames, note_buf.at, 1, string.at, s.string) == asked && draws == told,
           what, "the score call answers otherwise");
    draws = DRAWS_BEFORE;
    expect(tono_planned_draws(seeds, seeds_len, counts, counts_len, &draws, 3, s.rate, s.tempo, s.steps_per_beat,
                              s.points, 0, s.swing, s.humanize, s.hop, s.wave, s.style, s.duty, s.knobs,
                              s.knobs_len, s.bars, s.bars_len, s.env, s.env_len, s.notes, s.notes_len, s.lane,
                              s.lane_len, frames) == asked && draws == told,
           what, "the planning call answers otherwise");
    for (k = 0; k < 9; k++)
        expect(seeds[k] == 1000 + k && counts[k] == 1000 + k, what, "the session changed");
    for (k = 0; k < frames; k++)
        if (out[k] != 0.0f)
            expect(0, what, "a frame changed");
    expect(stays_from(&string, 0) && stays_from(&note_buf, 0), what, "a buffer changed");
    free(seeds);
    free(counts);
    free(out);
    give_back(&string);
    give_back(&note_buf);
}

/* The arguments of a note call. */
struct note {
    uint32_t rate, wave, style;
    float gain;
    size_t knobs_len, bars_len, pitch_len, duty_len, out, string;
    float pitch[9], duty[9];
};

static void note_gives(uint32_t asked, const struct note *n, const char *what)
{
    float *pitch = (float *)copied(n->pitch, n->pitch_len * sizeof(float));
    float *duty = (float *)copied(n->duty, n->duty_len * sizeof(float));
    struct lent out = lend(n->out), string = lend(n->string);
    uint64_t state = 7, draws = DRAWS_BEFORE;
    int played = asked == 0;
    uint64_t told = asked == TONO_MALFORMED ? DRAWS_BEFORE : played ? n->out : 0;
    struct tono_seq seq;
    tests++;
    expect(tono_note(n->rate, n->wave, n->style, knobs, n->knobs_len, bars, n->bars_len, n->gain, &state, &draws,
                     pitch, n->pitch_len, duty, n->duty_len, out.at, n->out, string.at, n->string) == asked,
           what, "the number is another");
    expect(draws == told, what, "the draws are others");
    expect((state == 7) == !played, what, "the state");
    expect(played || stays_from(&out, 0), what, "a frame changed");
    expect(stays_from(&string, played ? TONO_STRING_LENGTH : 0), what, "the string buffer changed");
    if (n->knobs_len == TONO_KNOBS && n->bars_len == TONO_BARS) {
        tono_seq_usual(&seq);
        seq.rate = n->rate;
        seq.wave = n->wave;
        seq.style = n->style;
        memcpy(seq.knobs, knobs, sizeof seq.knobs);
        memcpy(seq.bars, bars, sizeof seq.bars);
        state = 7;
        draws = DRAWS_BEFORE;
        expect(tono_play_note(&seq, n->gain, &state, n->pitch_len > 0 ? pitch : NULL, n->pitch_len,
                              n->duty_len > 0 ? duty : NULL, n->duty_len, n->out > 0 ? out.at : NULL, n->out,
                              n->string > 0 ? string.at : NULL, n->string, &draws) == asked && draws == told,
               what, "the answer by structs is another");
    }
    free(pitch);
    free(duty);
    give_back(&out);
    give_back(&string);
    base();
}

static struct note base_note(void)
{
    struct note n;
    size_t i;
    base();
    n.rate = 48000;
    n.wave = TONO_WAVE_NOISE;
    n.style = 0;
    n.gain = 0.5f;
    n.knobs_len = TONO_KNOBS;
    n.bars_len = TONO_BARS;
    n.pitch_len = n.duty_len = n.out = 8;
    n.string = TONO_STRING_LENGTH + 1;
    for (i = 0; i < 9; i++) {
        n.pitch[i] = 440.0f;
        n.duty[i] = 0.5f;
    }
    return n;
}

#define NOTE_REFUSED(number, what, change) \
    do {                                   \
        struct note n = base_note();       \
        change;                            \
        note_gives(number, &n, what);      \
    } while (0)

static void note_calls(void)
{
    const float nan = of_bits(0x7fc00000);
    NOTE_REFUSED(0, "an accepted note", (void)n);
    NOTE_REFUSED(1, "a note's rate", n.rate = 192001);
    NOTE_REFUSED(6, "a note's knob", knobs[0] = nan);
    NOTE_REFUSED(6, "a note's drawbar", bars[0] = nan);
    NOTE_REFUSED(21, "a note's string buffer", n.string = TONO_STRING_LENGTH - 1);
    NOTE_REFUSED(21, "a note without a string buffer", n.string = 0);
    NOTE_REFUSED(10, "a note's gain", n.gain = 65537.0f);
    NOTE_REFUSED(10, "a note's pitch", n.pitch[7] = nan);
    NOTE_REFUSED(10, "a note's duty", n.duty[7] = nan);
    NOTE_REFUSED(13, "a note without a pitch", n.pitch_len = 0);
    NOTE_REFUSED(13, "a note without frames", n.pitch_len = n.duty_len = n.out = 0);
    NOTE_REFUSED(14, "a duty of another length", n.duty_len = 9);
    NOTE_REFUSED(14, "an output of another length", n.out = 7);
    NOTE_REFUSED(TONO_MALFORMED, "a note of wave 18", n.wave = 18);
    NOTE_REFUSED(TONO_MALFORMED, "a note of style 4", n.style = 4);
    NOTE_REFUSED(TONO_MALFORMED, "a note of 21 knobs", n.knobs_len = 21);
    NOTE_REFUSED(TONO_MALFORMED, "a note of 11 numbers of drawbars", n.bars_len = 11);
}

/* 2, for which 64 MiB are lent and nothing of them is looked at. */
static void long_note(void)
{
    struct note n = base_note();
    size_t frames = TONO_CALL_FRAMES_MOST + 1, k;
    float *out = (float *)calloc(frames, sizeof(float));
    struct lent string = lend(TONO_STRING_LENGTH);
    uint64_t state = 7, draws = DRAWS_BEFORE;
    if (out == NULL)
        exit(2);
    tests++;
    expect(tono_note(n.rate, n.wave, n.style, knobs, TONO_KNOBS, bars, TONO_BARS, n.gain, &state, &draws, n.pitch, 9,
                     n.duty, 9, out, frames, string.at, TONO_STRING_LENGTH) == TONO_REFUSED_FRAMES
               && draws == 0 && state == 7 && stays_from(&string, 0),
           "16,777,217 frames of a note", "the answer is another");
    for (k = 0; k < frames; k++)
        if (out[k] != 0.0f)
            expect(0, "16,777,217 frames of a note", "a frame changed");
    free(out);
    give_back(&string);
}

/* What the struct functions answer to missing arrays, and to a struct that is missing itself. */
static void missing(void)
{
    struct score s = base();
    struct tono_seq seq = seq_of(&s, NULL), pointless = seq;
    struct tono_session before = session;
    struct tono_seq_note note = tono_note_at_pitch(0, 1, 440.0f, 0.5f);
    float out[4] = {1.0f, 1.0f, 1.0f, 1.0f}, values[4] = {1.0f, 1.0f, 1.0f, 1.0f};
    struct tono_buffers buffers, less;
    uint64_t draws = DRAWS_BEFORE, state = 7;
    struct lent note_buf = lend(4), string = lend(TONO_STRING_LENGTH);
    size_t all = SIZE_MAX / 4;
    buffers.note = note_buf.at;
    buffers.note_len = 4;
    buffers.string = string.at;
    buffers.string_len = TONO_STRING_LENGTH;
    pointless.points_count = 1;
#define NO_CALL(call)                                                      \
    do {                                                                   \
        tests++;                                                           \
        expect((call) == TONO_MALFORMED, #call, "the answer is another"); \
    } while (0)
    NO_CALL(tono_play_seq(NULL, 0, &seq, &note, 1, NULL, 0, out, 4, &buffers, &draws));
    NO_CALL(tono_play_seq(&session, 0, NULL, &note, 1, NULL, 0, out, 4, &buffers, &draws));
    NO_CALL(tono_play_seq(&session, 0, &seq, NULL, 1, NULL, 0, out, 4, &buffers, &draws));
    NO_CALL(tono_play_seq(&session, 0, &seq, &note, all, NULL, 0, out, 4, &buffers, &draws));
    NO_CALL(tono_play_seq(&session, 0, &seq, &note, 1, NULL, 1, out, 4, &buffers, &draws));
    NO_CALL(tono_play_seq(&session, 0, &seq, &note, 1, NULL, 0, NULL, 4, &buffers, &draws));
    NO_CALL(tono_play_seq(&session, 0, &seq, &note, 1, NULL, 0, out, 4, NULL, &draws));
    NO_CALL(tono_play_seq(&session, 0, &seq, &note, 1, NULL, 0, out, 4, &buffers, NULL));
    NO_CALL(tono_play_seq(&session, 0, &pointless, &note, 1, NULL, 0, out, 4, &buffers, &draws));
    less = buffers;
    less.note = NULL;
    NO_CALL(tono_play_seq(&session, 0, &seq, &note, 1, NULL, 0, out, 4, &less, &draws));
    less = buffers;
    less.string = NULL;
    NO_CALL(tono_play_seq(&session, 0, &seq, &note, 1, NULL, 0, out, 4, &less, &draws));
    NO_CALL(tono_plan_seq(NULL, 0, &seq, &note, 1, NULL, 0, 4, &draws));
    NO_CALL(tono_plan_seq(&session, 0, NULL, &note, 1, NULL, 0, 4, &draws));
    NO_CALL(tono_plan_seq(&session, 0, &seq, NULL, 1, NULL, 0, 4, &draws));
    NO_CALL(tono_plan_seq(&session, 0, &seq, &note, 1, NULL, 0, 4, NULL));
    NO_CALL(tono_play_note(NULL, 0.5f, &state, values, 4, values, 4, out, 4, string.at, TONO_STRING_LENGTH, &draws));
    NO_CALL(tono_play_note(&seq, 0.5f, NULL, values, 4, values, 4, out, 4, string.at, TONO_STRING_LENGTH, &draws));
    NO_CALL(tono_play_note(&seq, 0.5f, &state, NULL, 4, values, 4, out, 4, string.at, TONO_STRING_LENGTH, &draws));
    NO_CALL(tono_play_note(&seq, 0.5f, &state, values, 4, NULL, 4, out, 4, string.at, TONO_STRING_LENGTH, &draws));
    NO_CALL(tono_play_note(&seq, 0.5f, &state, values, 4, values, 4, NULL, 4, string.at, TONO_STRING_LENGTH, &draws));
    NO_CALL(tono_play_note(&seq, 0.5f, &state, values, 4, values, 4, out, 4, NULL, TONO_STRING_LENGTH, &draws));
    NO_CALL(tono_play_note(&seq, 0.5f, &state, values, 4, values, 4, out, 4, string.at, TONO_STRING_LENGTH, NULL));
    expect(memcmp(&session, &before, sizeof session) == 0 && draws == DRAWS_BEFORE && state == 7
               && memcmp(out, values, sizeof out) == 0 && stays_from(&note_buf, 0) && stays_from(&string, 0),
           "missing arrays", "something changed");
    give_back(&note_buf);
    give_back(&string);
}

/* A refused rate through the struct functions, and that no array is needed where a length is 0. */
static void nothing_lent(void)
{
    struct score s = base();
    struct tono_seq seq = seq_of(&s, NULL);
    struct tono_buffers none = {NULL, 0, NULL, 0};
    uint64_t draws = DRAWS_BEFORE, state = 7;
    tests++;
    expect(tono_play_seq(&session, 3, &seq, NULL, 0, NULL, 0, NULL, 0, &none, &draws) == TONO_REFUSED_STRING_BUFFER
               && draws == 0,
           "nothing is lent", "the answer is another");
    draws = DRAWS_BEFORE;
    expect(tono_plan_seq(&session, 3, &seq, NULL, 0, NULL, 0, 0, &draws) == 0 && draws == 0, "nothing is planned",
           "the answer is another");
    draws = DRAWS_BEFORE;
    expect(tono_play_note(&seq, 0.5f, &state, NULL, 0, NULL, 0, NULL, 0, NULL, 0, &draws) == TONO_REFUSED_STRING_BUFFER
               && draws == 0 && state == 7,
           "no note is lent", "the answer is another");
}

/* What an answer means: every refusal has its reason, and so have the other three. */
static void answers(void)
{
    uint32_t number;
    tests++;
    for (number = 1; number < 50; number++) {
        const char *answer = tono_answer(number), *reason = tono_reason((int)number);
        int same = answer == NULL || reason == NULL ? answer == reason : strcmp(answer, reason) == 0;
        expect(same, "an answer", "it is not the refusal's reason");
    }
    expect(tono_answer(0) != NULL && tono_answer(TONO_MALFORMED) != NULL && tono_answer(TONO_MALFORMED - 1) == NULL,
           "an answer", "it has no meaning");
    expect(tono_answer(TONO_FP_MODE) != NULL && tono_answer(TONO_FP_MODE - 1) == NULL, "the mode", "it has no meaning");
}

int main(int count, char **words)
{
    if (count > 1 && strcmp(words[1], "usual") == 0) {
        struct tono_seq seq;
        size_t i;
        tono_seq_usual(&seq);
        printf("%08x\n", tono_bits(seq.duty));
        for (i = 0; i < TONO_KNOBS; i++)
            printf("%08x\n", tono_bits(seq.knobs[i]));
        for (i = 0; i < TONO_BARS; i++)
            printf("%08x\n", tono_bits(seq.bars[i]));
        return 0;
    }
    score_calls();
    odd_session(8, 8, TONO_CALL_FRAMES_MOST + 1, TONO_REFUSED_FRAMES, "16,777,217 frames");
    odd_session(7, 8, 1, TONO_MALFORMED, "7 seeds");
    odd_session(9, 8, 1, TONO_MALFORMED, "9 seeds");
    odd_session(8, 7, 1, TONO_MALFORMED, "7 counts");
    odd_session(8, 9, 1, TONO_MALFORMED, "9 counts");
    odd_session(0, 0, 0, TONO_MALFORMED, "no session");
    note_calls();
    long_note();
    missing();
    nothing_lent();
    answers();
    printf("%d tests\n", tests);
    return wrong;
}
