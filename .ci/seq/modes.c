/* The floating-point mode of a thread: FTZ, DAZ, both, and each rounding mode. In each, tono_fp_ok says no, every inline
 * call answers TONO_FP_MODE and changes nothing, and between tono_fp_enter and tono_fp_leave the frames are those of the
 * usual mode. The calls by arrays do not look, and then give other frames: of every wave in another rounding mode, of
 * some with FTZ or DAZ. Prints what is wrong; the status is 1 then. The last line has the number of tests. */
#include "lent.h"

enum { FRAMES = 96000, WAVES = 18 };

static float usual[WAVES][FRAMES], out[FRAMES], note_buf[FRAMES], string[TONO_STRING_LENGTH];
static uint64_t usual_draws[WAVES];
static struct tono_session session;
static int tests;

static void holds(int is, const char *where, const char *what)
{
    tests++;
    expect(is, where, what);
}

static struct tono_seq seq_of_wave(uint32_t wave)
{
    struct tono_seq seq;
    tono_seq_usual(&seq);
    seq.rate = 8000;
    seq.wave = wave;
    seq.humanize = 0.25f;
    seq.env[TONO_ENV_RELEASE] = 0.1f;
    return seq;
}

/* Some notes of a wave, the last over twelve seconds. */
static uint32_t sound(uint32_t wave, uint64_t *draws, int by_arrays)
{
    struct tono_seq seq = seq_of_wave(wave);
    struct tono_seq_note notes[3];
    struct tono_session own = session;
    struct tono_buffers buffers;
    notes[0] = tono_note_at_pitch(0, 4, 311.0f, 0.5f);
    notes[1] = tono_note_at_quarter_tone(3, 4, 127, 0.4f);
    notes[2] = tono_note_at_pitch(4, 92, 82.5f, 0.7f);
    buffers.note = note_buf;
    buffers.note_len = FRAMES;
    buffers.string = string;
    buffers.string_len = TONO_STRING_LENGTH;
    if (!by_arrays)
        return tono_play_seq(&own, 0, &seq, notes, 3, NULL, 0, out, FRAMES, &buffers, draws);
    return tono_render_seq(own.seeds, TONO_STATIONS, own.draws, TONO_STATIONS, draws, 0, seq.rate, seq.tempo,
                           seq.steps_per_beat, (const uint32_t *)notes, 0, seq.swing, seq.humanize, seq.hop, seq.wave,
                           seq.style, seq.duty, seq.knobs, TONO_KNOBS, seq.bars, TONO_BARS, seq.env, TONO_ENVELOPE,
                           (const uint32_t *)notes, 3 * TONO_NOTE_WORDS, note_buf, 0, out, FRAMES, note_buf, FRAMES,
                           string, TONO_STRING_LENGTH);
}

static int is_usual(uint32_t wave)
{
    return memcmp(out, usual[wave], sizeof out) == 0;
}

/* Whether every frame is the 2.5 that was put there. */
static int is_left(void)
{
    size_t i;
    for (i = 0; i < FRAMES; i++)
        if (tono_bits(out[i]) != UINT32_C(0x40200000))
            return 0;
    return 1;
}

static void fill(void)
{
    size_t i;
    for (i = 0; i < FRAMES; i++)
        out[i] = 2.5f;
}

static const char text[] = "S\t8000\t4\t42f00000\t4\t00000000\t00000000\nG\t0000000000000000\t0\n"
                           "E\t00000000\t00000000\t3f800000\t00000000\t00000000\nV\t2\t3f000000\nN\t0\t1\t00000000\t3f800000\n";

/* What the inline calls answer in a mode that is set. */
static void judged(const char *where, uint32_t mode)
{
    const uint8_t *score = (const uint8_t *)text;
    struct tono_session before = session;
    struct tono_seq seq = seq_of_wave(TONO_WAVE_PLUCK);
    struct tono_seq_note note = tono_note_at_pitch(0, 4, 440.0f, 0.5f);
    uint8_t reply[128];
    float pitch[4] = {440.0f, 440.0f, 440.0f, 440.0f};
    uint64_t draws = DRAWS_BEFORE, state = 7;
    uint32_t played, planned, noted;
    int64_t said[3];
    int is_ok;
    memset(reply, '.', sizeof reply);
    fill();
    _mm_setcsr(mode);
    is_ok = tono_fp_ok();
    played = sound(TONO_WAVE_PIANO, &draws, 0);
    planned = tono_plan_seq(&session, 0, &seq, &note, 1, NULL, 0, 100, &draws);
    noted = tono_play_note(&seq, 0.5f, &state, pitch, 4, pitch, 4, out, 4, string, TONO_STRING_LENGTH, &draws);
    said[0] = tono_play_text(score, sizeof text - 1, reply, sizeof reply);
    said[1] = tono_plan_text(score, sizeof text - 1, &draws);
    said[2] = tono_cue_sheet_text(NULL, 4, reply, sizeof reply);
    _mm_setcsr(TONO_FP_USUAL);
    holds(!is_ok, where, "tono_fp_ok holds");
    holds(played == TONO_FP_MODE && planned == TONO_FP_MODE && noted == TONO_FP_MODE, where, "another answer by structs");
    holds(said[0] == -(int64_t)TONO_FP_MODE && said[1] == said[0] && said[2] == said[0], where, "another answer of texts");
    holds(draws == DRAWS_BEFORE && state == 7 && is_left() && reply[0] == '.'
              && memcmp(&before, &session, sizeof before) == 0,
          where, "something changed");
}

/* In a mode: by arrays, and with the mode entered and left. Returns how many waves differ by arrays. */
static int played_in(const char *where, uint32_t mode)
{
    uint32_t wave;
    int others = 0;
    for (wave = 0; wave < WAVES; wave++) {
        uint64_t draws = DRAWS_BEFORE;
        uint32_t number, before, after;
        _mm_setcsr(mode);
        number = sound(wave, &draws, 1);
        _mm_setcsr(TONO_FP_USUAL);
        holds(number == 0, where, "refused by arrays");
        others += !is_usual(wave) || draws != usual_draws[wave];
        fill();
        _mm_setcsr(mode);
        before = tono_fp_enter();
        number = sound(wave, &draws, 0);
        tono_fp_leave(before);
        after = _mm_getcsr();
        _mm_setcsr(TONO_FP_USUAL);
        holds(number == 0 && is_usual(wave) && draws == usual_draws[wave], where, "entered, other frames");
        holds(after == mode && before == mode, where, "the mode is not put back");
    }
    return others;
}

int main(void)
{
    static const struct { const char *name; uint32_t bits; int least; } modes[] = {
        {"FTZ", 0x8000, 1}, {"DAZ", 0x0040, 1}, {"FTZ and DAZ", 0x8040, 1}, {"downward", 0x2000, WAVES},
        {"upward", 0x4000, WAVES}, {"toward zero", 0x6000, WAVES},
    };
    static const uint64_t seeds[TONO_STATIONS] = {20, 21, 22, 23, 24, 25, 26, 27};
    uint32_t wave;
    size_t k;
    tono_session_open(&session, seeds);
    holds(tono_fp_ok(), "at the start", "tono_fp_ok does not hold");
    for (wave = 0; wave < WAVES; wave++) {
        holds(sound(wave, &usual_draws[wave], 0) == 0, "at the start", "refused");
        memcpy(usual[wave], out, sizeof out);
    }
    for (k = 0; k < sizeof modes / sizeof modes[0]; k++) {
        int others;
        judged(modes[k].name, TONO_FP_USUAL | modes[k].bits);
        others = played_in(modes[k].name, TONO_FP_USUAL | modes[k].bits);
        holds(others >= modes[k].least, modes[k].name, "the frames of too few waves differ");
        fprintf(stderr, "%s: %d of %d waves differ\n", modes[k].name, others, WAVES);
    }
    /* flags and masks are no mode */
    _mm_setcsr(TONO_FP_USUAL | 0x3f);
    holds(tono_fp_ok(), "flags", "tono_fp_ok does not hold");
    _mm_setcsr(TONO_FP_USUAL);
    holds(tono_answer(TONO_FP_MODE) != NULL && tono_reason((int)TONO_REFUSED_STRUCTURE + 1) == NULL, "the answer", "has no words");
    printf("%d tests\n", tests);
    return wrong;
}
