#include "cases.h"

#include <stdio.h>
#include <stdlib.h>

extern const uint8_t selftest_vectors[], selftest_vectors_end[];

const struct kind kinds[] = {
    {'S', "scores"}, {'N', "notes"},       {'T', "text scores"}, {'C', "cue sheets"},    {'R', "WAVE files read"},
    {'W', "WAVE files written"}, {'E', "exponentials"}, {'F', "most frames"}, {'M', "lengths of a note"}, {0, NULL},
};

static const uint8_t *at;
static struct tono_session session;
static const uint8_t *text;
static size_t text_len;
static uint32_t mode_of_run;
static struct counts counts;

/* ---- fields */

static uint32_t word(void)
{
    uint32_t value;
    memcpy(&value, at, sizeof value);
    at += sizeof value;
    return value;
}

static uint64_t long_word(void)
{
    uint64_t value;
    memcpy(&value, at, sizeof value);
    at += sizeof value;
    return value;
}

static float single(void)
{
    uint32_t bits = word();
    float value;
    memcpy(&value, &bits, sizeof value);
    return value;
}

static void *block(size_t size)
{
    void *made = malloc(size > 0 ? size : 1);
    if (made == NULL) {
        fprintf(stderr, "tono-selftest: no memory; free some and start again\n");
        exit(2);
    }
    return made;
}

/* A list of so many words, in a block of just its size. */
static void *list(size_t count)
{
    void *made = block(4 * count);
    memcpy(made, at, 4 * count);
    at += 4 * count;
    return made;
}

/* A buffer of so many bytes, each 2e. */
static void *filled(size_t size)
{
    void *made = block(size);
    memset(made, '.', size);
    return made;
}

static int is_filled(const void *buffer, size_t size)
{
    const uint8_t *bytes = (const uint8_t *)buffer;
    size_t i;
    for (i = 0; i < size; i++)
        if (bytes[i] != '.')
            return 0;
    return 1;
}

static uint64_t sum_of(const uint8_t *bytes, size_t count)
{
    uint64_t sum = UINT64_C(0xcbf29ce484222325);
    size_t i;
    for (i = 0; i < count; i++)
        sum = (sum ^ bytes[i]) * UINT64_C(0x100000001b3);
    return sum;
}

/* Whether frames are the words that follow; one NaN counts as any other. */
static int are_frames(const float *frames, size_t count)
{
    int same = 1;
    size_t i;
    for (i = 0; i < count; i++) {
        uint32_t bits = tono_bits(frames[i]);
        if ((bits & UINT32_C(0x7fffffff)) > UINT32_C(0x7f800000))
            bits = UINT32_C(0x7fc00000);
        same &= bits == word();
    }
    return same;
}

/* ---- a call in the run's mode: IN_MODE(number = tono_note(..)) */
#define IN_MODE(call)               \
    do {                            \
        _mm_setcsr(mode_of_run);    \
        call;                       \
        _mm_setcsr(TONO_FP_USUAL);  \
    } while (0)

static int is_usual(void)
{
    return (mode_of_run & TONO_FP_BITS) == 0;
}

/* Whether an inline call did what it should: in the usual mode what is asked, in another decline. */
static int held(uint32_t number, int is_asked)
{
    counts.asked++;
    counts.declined += number == TONO_FP_MODE;
    return is_usual() ? is_asked : 1;
}

/* ---- scores */

struct score {
    struct tono_seq seq;
    uint32_t station, knobs_len, bars_len, env_len, notes_len, lane_len, points_len, out, note_buf, string;
    float *knobs, *bars, *env, *lane;
    uint32_t *notes, *points;
};

static struct score score_fields(void)
{
    struct score s;
    tono_seq_usual(&s.seq);
    s.station = word();
    s.seq.rate = word();
    s.seq.tempo = single();
    s.seq.steps_per_beat = word();
    s.seq.swing = single();
    s.seq.humanize = single();
    s.seq.hop = word();
    s.seq.wave = word();
    s.seq.style = word();
    s.seq.duty = single();
    s.knobs_len = word();
    s.bars_len = word();
    s.env_len = word();
    s.notes_len = word();
    s.lane_len = word();
    s.points_len = word();
    s.out = word();
    s.note_buf = word();
    s.string = word();
    s.knobs = (float *)list(s.knobs_len);
    s.bars = (float *)list(s.bars_len);
    s.env = (float *)list(s.env_len);
    s.notes = (uint32_t *)list(s.notes_len);
    s.lane = (float *)list(s.lane_len);
    s.points = (uint32_t *)list(s.points_len);
    return s;
}

static void free_score(struct score *s)
{
    free(s->knobs);
    free(s->bars);
    free(s->env);
    free(s->notes);
    free(s->lane);
    free(s->points);
}

static int has_structs(const struct score *s)
{
    return s->knobs_len == TONO_KNOBS && s->bars_len == TONO_BARS && s->env_len == TONO_ENVELOPE
           && s->notes_len % TONO_NOTE_WORDS == 0 && s->points_len % TONO_POINT_WORDS == 0;
}

/* The same score by structs: the number, the draws, the counts and the frames are those of the call by arrays. */
static int score_by_structs(struct score *s, uint32_t number, uint64_t draws, const uint64_t *after, const float *frames)
{
    struct tono_session own = session;
    struct tono_buffers buffers;
    uint64_t drew = 0;
    float *out = (float *)filled(4 * (size_t)s->out);
    uint32_t answer;
    int is;
    memcpy(s->seq.knobs, s->knobs, sizeof s->seq.knobs);
    memcpy(s->seq.bars, s->bars, sizeof s->seq.bars);
    memcpy(s->seq.env, s->env, sizeof s->seq.env);
    s->seq.points = (const struct tono_tempo_point *)(const void *)s->points;
    s->seq.points_count = s->points_len / TONO_POINT_WORDS;
    buffers.note = (float *)filled(4 * (size_t)s->note_buf);
    buffers.note_len = s->note_buf;
    buffers.string = (float *)filled(4 * (size_t)s->string);
    buffers.string_len = s->string;
    IN_MODE(answer = tono_play_seq(&own, s->station, &s->seq, (const struct tono_seq_note *)(const void *)s->notes,
                                   s->notes_len / TONO_NOTE_WORDS, s->lane, s->lane_len, out, s->out, &buffers, &drew));
    is = held(answer, answer == number && (number == TONO_MALFORMED || drew == draws)
                          && memcmp(own.draws, after, sizeof own.draws) == 0 && memcmp(out, frames, 4 * (size_t)s->out) == 0);
    is &= is_usual() || is_filled(out, 4 * (size_t)s->out);
    free(out);
    free(buffers.note);
    free(buffers.string);
    return is;
}

static int score_case(void)
{
    struct score s = score_fields();
    float *out = (float *)filled(4 * (size_t)s.out), *note_buf = (float *)filled(4 * (size_t)s.note_buf);
    float *string = (float *)filled(4 * (size_t)s.string);
    uint64_t draws = 0, planned = 0, after[TONO_STATIONS], asked_draws, asked[TONO_STATIONS];
    uint32_t number, plan, asked_number;
    size_t k;
    int is;
    memcpy(after, session.draws, sizeof after);
    IN_MODE(number = tono_render_seq(session.seeds, TONO_STATIONS, after, TONO_STATIONS, &draws, s.station, s.seq.rate,
                                     s.seq.tempo, s.seq.steps_per_beat, s.points, s.points_len, s.seq.swing,
                                     s.seq.humanize, s.seq.hop, s.seq.wave, s.seq.style, s.seq.duty, s.knobs, s.knobs_len,
                                     s.bars, s.bars_len, s.env, s.env_len, s.notes, s.notes_len, s.lane, s.lane_len, out,
                                     s.out, note_buf, s.note_buf, string, s.string));
    IN_MODE(plan = tono_planned_draws(session.seeds, TONO_STATIONS, session.draws, TONO_STATIONS, &planned, s.station,
                                      s.seq.rate, s.seq.tempo, s.seq.steps_per_beat, s.points, s.points_len, s.seq.swing,
                                      s.seq.humanize, s.seq.hop, s.seq.wave, s.seq.style, s.seq.duty, s.knobs,
                                      s.knobs_len, s.bars, s.bars_len, s.env, s.env_len, s.notes, s.notes_len, s.lane,
                                      s.lane_len, s.out));
    asked_number = word();
    asked_draws = long_word();
    for (k = 0; k < TONO_STATIONS; k++)
        asked[k] = long_word();
    is = number == asked_number && (number == TONO_MALFORMED || draws == asked_draws)
         && memcmp(after, asked, sizeof after) == 0;
    is &= number == TONO_REFUSED_NOTE_BUFFER || number == TONO_REFUSED_STRING_BUFFER || (plan == number && planned == draws);
    is &= asked_number == 0 ? are_frames(out, s.out) : is_filled(out, 4 * (size_t)s.out);
    if (has_structs(&s))
        is &= score_by_structs(&s, number, draws, after, out);
    memcpy(session.draws, asked, sizeof asked);
    free(out);
    free(note_buf);
    free(string);
    free_score(&s);
    return is;
}

/* ---- notes */

/* So many values: those that are given, and the last of them to the end. */
static float *prolonged(size_t given, size_t count)
{
    float *values = (float *)block(4 * count);
    size_t i;
    for (i = 0; i < count; i++)
        values[i] = i < given ? single() : values[given - 1];
    return values;
}

static int note_case(void)
{
    struct tono_seq seq;
    uint64_t state, other, draws = 0, drew = 0;
    uint32_t number, answer, frames, given;
    float gain, *pitch, *duty, *out, *again, *string = (float *)block(4 * TONO_STRING_LENGTH);
    size_t i;
    int is;
    tono_seq_usual(&seq);
    seq.wave = word();
    seq.style = word();
    seq.rate = word();
    gain = single();
    state = other = long_word();
    frames = word();
    given = word();
    pitch = prolonged(given, frames);
    duty = prolonged(given, frames);
    for (i = 0; i < TONO_KNOBS; i++)
        seq.knobs[i] = single();
    for (i = 0; i < TONO_BARS; i++)
        seq.bars[i] = single();
    out = (float *)filled(4 * (size_t)frames);
    again = (float *)filled(4 * (size_t)frames);
    IN_MODE(number = tono_note(seq.rate, seq.wave, seq.style, seq.knobs, TONO_KNOBS, seq.bars, TONO_BARS, gain, &state,
                               &draws, pitch, frames, duty, frames, out, frames, string, TONO_STRING_LENGTH));
    is = number == 0 && are_frames(out, frames);
    is &= state == long_word();
    IN_MODE(answer = tono_play_note(&seq, gain, &other, pitch, frames, duty, frames, again, frames, string,
                                    TONO_STRING_LENGTH, &drew));
    is &= held(answer, answer == 0 && other == state && drew == draws && memcmp(out, again, 4 * (size_t)frames) == 0);
    free(pitch);
    free(duty);
    free(out);
    free(again);
    free(string);
    return is;
}

/* A note of the usual square whose lengths are these. */
static int lengths_case(void)
{
    struct tono_seq seq;
    float pitch[4] = {440.0f, 440.0f, 440.0f, 440.0f}, out[4], *string = (float *)block(4 * TONO_STRING_LENGTH);
    uint64_t state = 7, draws = 0;
    uint32_t pitch_len = word(), duty_len = word(), frames = word(), string_len = word(), number, asked = word();
    tono_seq_usual(&seq);
    IN_MODE(number = tono_note(seq.rate, seq.wave, seq.style, seq.knobs, TONO_KNOBS, seq.bars, TONO_BARS, 0.5f, &state,
                               &draws, pitch, pitch_len, pitch, duty_len, out, frames, string, string_len));
    free(string);
    return number == asked;
}

/* A plan of no notes on so many frames. */
static int frames_case(void)
{
    struct tono_session own;
    struct tono_seq seq;
    uint64_t draws = 7, frames = long_word();
    uint32_t number, asked = word();
    static const uint64_t seeds[TONO_STATIONS];
    tono_session_open(&own, seeds);
    tono_seq_usual(&seq);
    IN_MODE(number = tono_plan_seq(&own, 0, &seq, NULL, 0, NULL, 0, frames, &draws));
    counts.asked++;
    counts.declined += number == TONO_FP_MODE;
    return is_usual() ? number == asked && draws == 0 : 1;
}

/* ---- texts, sheets, files and exponentials */

typedef int64_t text_call(const uint8_t *score, size_t score_len, uint8_t *reply, size_t reply_len);

static int text_case(text_call *by_arrays, text_call *looking)
{
    uint32_t room = word();
    uint8_t *score = (uint8_t *)block(text_len), *reply = (uint8_t *)filled(room), *again = (uint8_t *)filled(room);
    int64_t answer, other;
    int is;
    memcpy(score, text, text_len);
    IN_MODE(answer = by_arrays(score, text_len, reply, room));
    IN_MODE(other = looking(score, text_len, again, room));
    is = answer == (int64_t)long_word();
    is &= sum_of(reply, room) == long_word();
    is &= held(other < 0 ? (uint32_t)-other : 0, other == answer && memcmp(reply, again, room) == 0);
    is &= is_usual() || is_filled(again, room);
    free(score);
    free(reply);
    free(again);
    return is;
}

static int read_case(void)
{
    uint32_t room = word(), size = word(), rate, words;
    uint32_t *samples = (uint32_t *)filled(4 * (size_t)room);
    uint8_t *file = (uint8_t *)block(size);
    int64_t answer;
    int is;
    memcpy(file, at, size);
    at += size;
    memset(&rate, '.', sizeof rate);
    IN_MODE(answer = tono_wave_read(file, size, &rate, samples, room));
    is = answer == (int64_t)long_word();
    is &= rate == word();
    is &= memcmp(samples, at, 4 * (size_t)room) == 0;
    at += 4 * (size_t)room;
    is &= tono_wave_info(file, size, &words) == answer || answer == -TONO_REFUSED_REPLY;
    free(samples);
    free(file);
    return is;
}

static int write_case(void)
{
    uint32_t rate = word(), room = word(), count = word();
    uint32_t *samples = (uint32_t *)list(count);
    uint8_t *file = (uint8_t *)filled(room);
    int64_t answer;
    int is;
    IN_MODE(answer = tono_wave_write(rate, samples, count, file, room));
    is = answer == (int64_t)long_word();
    is &= memcmp(file, at, room) == 0;
    at += room;
    free(samples);
    free(file);
    return is;
}

static int exponential_case(void)
{
    uint64_t bits = long_word(), asked = long_word(), got;
    double x, y;
    memcpy(&x, &bits, sizeof x);
    IN_MODE(y = tono_exp(x));
    memcpy(&got, &y, sizeof got);
    return got == asked || ((got & INT64_MAX) > UINT64_C(0x7ff0000000000000) && (asked & INT64_MAX) > UINT64_C(0x7ff0000000000000));
}

/* ---- the run */

/* In a program that is linked with libtono.a the name is at no address. */
#pragma weak tono_library_version

int is_of_version(void)
{
    const char *version = tono_library_version;
    if (version == NULL || strcmp(version, TONO_VERSION) == 0)
        return 1;
    printf("tono-selftest: the library has version %s, and this program %s; install both from one release\n", version, TONO_VERSION);
    return 0;
}

static void open_session(void)
{
    size_t k;
    for (k = 0; k < TONO_STATIONS; k++) {
        session.seeds[k] = long_word();
        session.draws[k] = long_word();
    }
}

static void open_text(void)
{
    text_len = word();
    text = at;
    at += text_len;
}

static int one_case(char kind)
{
    switch (kind) {
    case 'S': return score_case();
    case 'N': return note_case();
    case 'T': return text_case(tono_play, tono_play_text);
    case 'C': return text_case(tono_cue_sheet, tono_cue_sheet_text);
    case 'R': return read_case();
    case 'W': return write_case();
    case 'E': return exponential_case();
    case 'F': return frames_case();
    case 'M': return lengths_case();
    default:
        fprintf(stderr, "tono-selftest: the vectors are damaged; install the program again\n");
        exit(2);
    }
}

struct counts run_cases(uint32_t mode, int tells)
{
    static const char head[] = "tono vectors 1\n";
    memset(&counts, 0, sizeof counts);
    mode_of_run = mode;
    at = selftest_vectors + sizeof head - 1;
    if (memcmp(selftest_vectors, head, sizeof head - 1) != 0)
        one_case(0);
    while (at < selftest_vectors_end) {
        char kind = (char)*at++;
        if (kind == 'O') {
            open_session();
        } else if (kind == 'X') {
            open_text();
        } else {
            int is = one_case(kind);
            unsigned place = ++counts.of_kind[(unsigned char)kind & 127];
            counts.passed += is != 0;
            counts.failed += !is;
            counts.failed_of_kind[(unsigned char)kind & 127] += !is;
            if (!is && tells)
                printf("tono-selftest: case %c%u: FAILED\n", kind, place);
        }
    }
    return counts;
}
