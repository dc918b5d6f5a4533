/* Makes the calls of crates/score_vectors/stdout and crates/voice_vectors/stdout, whose answers the original
 * gave, through tono_render_seq, tono_note, tono_planned_draws and the functions by structs.
 *
 * usage: vectors SCORES NOTES     prints what differs; the status is 1 then. The last line has the number of calls. */
#include "lent.h"

/* The fields of a line, in hexadecimal. */
static char *rest;

static uint64_t number_field(void)
{
    return strtoull(rest, &rest, 16);
}

static uint32_t word_field(void)
{
    return (uint32_t)number_field();
}

static float float_field(void)
{
    uint32_t bits = word_field();
    float value;
    memcpy(&value, &bits, sizeof value);
    return value;
}

static float *float_fields(size_t count)
{
    float *values = (float *)block(count * sizeof(float));
    size_t i;
    for (i = 0; i < count; i++)
        values[i] = float_field();
    return values;
}

static uint32_t *word_fields(size_t count)
{
    uint32_t *values = (uint32_t *)block(count * sizeof(uint32_t));
    size_t i;
    for (i = 0; i < count; i++)
        values[i] = word_field();
    return values;
}

static struct score score_fields(void)
{
    struct score s;
    s.rate = word_field();
    s.tempo = float_field();
    s.steps_per_beat = word_field();
    s.swing = float_field();
    s.humanize = float_field();
    s.wave = word_field();
    s.duty = float_field();
    s.out = number_field();
    s.note_buf = number_field();
    s.string = number_field();
    s.knobs_len = number_field();
    s.env_len = number_field();
    s.notes_len = number_field();
    s.lane_len = number_field();
    s.points_len = number_field();
    s.hop = word_field();
    s.station = word_field();
    s.bars_len = number_field();
    s.style = word_field();
    s.knobs = float_fields(s.knobs_len);
    s.bars = float_fields(s.bars_len);
    s.env = float_fields(s.env_len);
    s.notes = word_fields(s.notes_len);
    s.lane = float_fields(s.lane_len);
    s.points = word_fields(s.points_len);
    return s;
}

static void open_line(struct tono_session *session)
{
    size_t k;
    for (k = 0; k < TONO_STATIONS; k++) {
        session->seeds[k] = number_field();
        session->draws[k] = number_field();
    }
}

static void score_line(struct tono_session *session, const char *where)
{
    struct score s = score_fields();
    struct left left = play(&s, session, where);
    size_t i;
    uint32_t number = word_field();
    expect(left.number == number, where, "the number is another");
    expect(left.draws == number_field(), where, "the draws are others");
    number_field(); /* the generator's state, which C does not see */
    for (i = 0; i < TONO_STATIONS; i++)
        expect(left.counts[i] == number_field(), where, "a count is another");
    for (i = 0; i < s.out; i++) {
        uint32_t asked = word_field();
        expect(number != 0 || pattern(left.out.at[i]) == asked, where, "a frame is another");
    }
    hold_others(&s, session, &left, where);
    memcpy(session->draws, left.counts, sizeof session->draws);
    give_back(&left.out);
    free_score(&s);
}

static float *prolonged(size_t given, size_t count)
{
    float *values = (float *)block(count * sizeof(float));
    size_t i;
    for (i = 0; i < given; i++)
        values[i] = float_field();
    for (i = given; i < count; i++)
        values[i] = values[given - 1];
    return values;
}

static void note_line(const char *where)
{
    struct tono_seq seq;
    struct lent out, again, string = lend(TONO_STRING_LENGTH + 8);
    float *pitch, *duty, gain;
    uint64_t before, state, other, draws = DRAWS_BEFORE, drew = DRAWS_BEFORE;
    size_t frames, given, i;
    tono_seq_usual(&seq);
    seq.wave = word_field();
    seq.style = word_field();
    seq.rate = word_field();
    gain = float_field();
    before = state = other = number_field();
    frames = number_field();
    given = number_field();
    pitch = prolonged(given, frames);
    duty = prolonged(given, frames);
    for (i = 0; i < TONO_KNOBS; i++)
        seq.knobs[i] = float_field();
    for (i = 0; i < TONO_BARS; i++)
        seq.bars[i] = float_field();
    out = lend(frames);
    again = lend(frames);
    expect(tono_note(seq.rate, seq.wave, seq.style, seq.knobs, TONO_KNOBS, seq.bars, TONO_BARS, gain, &state,
                     &draws, pitch, frames, duty, frames, out.at, frames, string.at, TONO_STRING_LENGTH + 8) == 0,
           where, "the note is refused");
    for (i = 0; i < frames; i++)
        expect(pattern(out.at[i]) == word_field(), where, "a sample is another");
    expect(state == number_field(), where, "the state is another");
    expect(state == before + draws * UINT64_C(0x9e3779b97f4a7c15), where, "the draws are not those of the state");
    expect(stays_from(&string, TONO_STRING_LENGTH), where, "the string buffer changed");
    expect(tono_play_note(&seq, gain, &other, pitch, frames, duty, frames, again.at, frames, string.at,
                          TONO_STRING_LENGTH, &drew) == 0 && other == state && drew == draws
               && sum_of(again.at, frames) == sum_of(out.at, frames),
           where, "the note by structs is another");
    free(pitch);
    free(duty);
    give_back(&out);
    give_back(&again);
    give_back(&string);
}

int main(int count, char **words)
{
    static char line[1 << 16];
    struct tono_session session;
    char where[64];
    int i, calls = 0;
    memset(&session, 0, sizeof session);
    for (i = 1; i < count; i++) {
        FILE *file = fopen(words[i], "r");
        int at = 0;
        if (file == NULL) {
            perror(words[i]);
            return 2;
        }
        while (fgets(line, sizeof line, file) != NULL) {
            rest = strchr(line, ' ');
            snprintf(where, sizeof where, "file %d, line %d", i, ++at);
            if (strncmp(line, "open", 4) == 0)
                open_line(&session);
            else if (strncmp(line, "score", 5) == 0)
                score_line(&session, where);
            else
                note_line(where);
            calls += line[0] != 'o';
        }
        fclose(file);
    }
    printf("%d calls\n", calls);
    return wrong;
}
