/* tono.h: plays whole stimuli, notes and text scores, counts their draws, prints cue sheets, computes
 * exponentials, and writes and reads WAVE files, from C or C++.
 *
 * Calls of two kinds stand here. The calls by arrays are in the library, and are proved. They have conditions, which
 * their comments name. The inline calls rest on them, and look first: at the thread's floating-point mode, and at
 * pointers, where NULL is taken if its length is 0. docs/c.md has a table of what each returns.
 *
 * Link libtono.a, which `tools/build libtono.a` writes to target/staticlib, or libtono.so, which ./shared-library
 * writes to target/lib; docs/install.md has both for machines without rt. They need nothing but memcpy and memset of the
 * C library. x86-64 Linux. The header compiles as C99 and later, and as C++. */
#ifndef TONO_H
#define TONO_H

#include <stddef.h>
#include <stdint.h>
#include <string.h>
#include <xmmintrin.h>

#ifdef __cplusplus
extern "C" {
#endif

/* The version of this header and of the library that it belongs to. The first number rises where a score that was
 * accepted plays otherwise, as a text score does whose N lines stop after the pitch since 2.0.0; the second where
 * calls are added, as those on whole stimuli since 2.1.0 and the test of the floating-point mode since 2.2.0.
 * CHANGELOG.md has the rule. */
#define TONO_VERSION "2.2.0"
#define TONO_VERSION_MAJOR 2
#define TONO_VERSION_MINOR 2
#define TONO_VERSION_PATCH 0

static inline const char *tono_version(void)
{
    return TONO_VERSION;
}

/* The version of libtono.so, for a host that loads it by itself and holds it to TONO_VERSION. Only libtono.so has it,
 * libtono.a does not. */
extern const char tono_library_version[];

/* Why a call is refused. The R line of a listing holds one of these numbers; a text score can give RATE,
 * TEMPO, STEPS_PER_BEAT, GROOVE, KNOBS, PLACE, SIZE, FORM, TEXT_SIZE and DRAWS. */
enum tono_refusal {
    TONO_REFUSED_RATE = 1,
    TONO_REFUSED_FRAMES = 2,
    TONO_REFUSED_TEMPO = 3,
    TONO_REFUSED_STEPS_PER_BEAT = 4,
    TONO_REFUSED_GROOVE = 5,
    TONO_REFUSED_KNOBS = 6,
    TONO_REFUSED_WORDS = 7,
    TONO_REFUSED_KIND = 8,
    TONO_REFUSED_PLACE = 9,
    TONO_REFUSED_SIZE = 10,
    TONO_REFUSED_LANE = 11,
    TONO_REFUSED_REACH = 12,
    TONO_REFUSED_NO_PITCH = 13,
    TONO_REFUSED_LENGTHS = 14,
    TONO_REFUSED_FORM = 15,
    TONO_REFUSED_TEXT_SIZE = 16,
    TONO_REFUSED_NOTE_BUFFER = 20,
    TONO_REFUSED_STRING_BUFFER = 21,
    TONO_REFUSED_DRAWS = 22,
    TONO_REFUSED_REPLY = 23,
    TONO_REFUSED_TONE = 30,
    TONO_REFUSED_TEMPO_POINTS = 31,
    TONO_REFUSED_TEMPO_ORDER = 32,
    TONO_REFUSED_STATION = 33,
    TONO_REFUSED_PAGE = 34,
    TONO_REFUSED_HOP = 35,
    TONO_REFUSED_SAMPLE_FORMAT = 36,
    TONO_REFUSED_STRUCTURE = 37
};

/* What a refusal's number means, in one line; NULL for a number that is none. */
static inline const char *tono_reason(int number)
{
    switch (number) {
    case TONO_REFUSED_RATE: return "the rate is not from 8,000 to 192,000";
    case TONO_REFUSED_FRAMES: return "there are more than 16,777,216 frames";
    case TONO_REFUSED_TEMPO: return "the tempo is not from 1 to 1,000 beats a minute";
    case TONO_REFUSED_STEPS_PER_BEAT: return "the steps per beat are not from 1 to 64";
    case TONO_REFUSED_GROOVE: return "swing or humanize is not from 0 to 1";
    case TONO_REFUSED_KNOBS: return "a knob, a drawbar's number, the duty or an envelope number is not sized";
    case TONO_REFUSED_WORDS: return "the number of note words is not a multiple of five";
    case TONO_REFUSED_KIND: return "a note's kind is none of 0 (a number), 1 (a curve) and 2 (a quarter tone)";
    case TONO_REFUSED_PLACE: return "a note's step or length is above 1,048,575";
    case TONO_REFUSED_SIZE: return "a gain or a pitch is not sized";
    case TONO_REFUSED_LANE: return "a value of the lane is not sized";
    case TONO_REFUSED_REACH: return "a curve passes the end of its lane";
    case TONO_REFUSED_NO_PITCH: return "the pitch is empty";
    case TONO_REFUSED_LENGTHS: return "pitch, duty and output differ in length";
    case TONO_REFUSED_FORM: return "a line does not have its form, or a line is missing or one too many";
    case TONO_REFUSED_TEXT_SIZE: return "there are more than 65,536 bytes, 2,048 frames or 256 notes";
    case TONO_REFUSED_NOTE_BUFFER: return "the note buffer is shorter than the output";
    case TONO_REFUSED_STRING_BUFFER: return "the string buffer is shorter than 9,600 values";
    case TONO_REFUSED_DRAWS: return "the draw count would pass 2^64 - 1";
    case TONO_REFUSED_REPLY: return "the reply, file or sample buffer is too short for what is written to it";
    case TONO_REFUSED_TONE: return "a quarter tone's number is above 255";
    case TONO_REFUSED_TEMPO_POINTS: return "there are more than 64 tempo points, or one has a zero denominator, a numerator beyond 1,000,000,000 or a tempo not from 1 to 1,000";
    case TONO_REFUSED_TEMPO_ORDER: return "the first tempo point is not at beat 0, or a point's beat is not after the one before it";
    case TONO_REFUSED_STATION: return "the station is above 7";
    case TONO_REFUSED_PAGE: return "the page buffer is shorter than the cue sheet";
    case TONO_REFUSED_HOP: return "the hop is not from 1 to 4,096";
    case TONO_REFUSED_SAMPLE_FORMAT: return "the file's tag, channel count or sample width is not 3, 1 and 32";
    case TONO_REFUSED_STRUCTURE: return "the file's chunks are not those of a WAVE file of this form";
    default: return NULL;
    }
}

/* Two answers that are no refusals, and none of the numbers above or to come. A call that returns an int64_t
 * returns them with a minus, as it does a refusal. */

/* What was passed is no call. */
#define TONO_MALFORMED UINT32_C(4294967295)

/* This thread's floating-point mode is another one than the library's bits need. Inline calls alone give this,
 * before they look at anything else, and nothing changes. */
#define TONO_FP_MODE UINT32_C(4294967293)

/* What an answer means, in one line; NULL for a number that is none. */
static inline const char *tono_answer(uint32_t number)
{
    if (number == 0)
        return "the call is accepted";
    if (number == TONO_MALFORMED)
        return "a list has another length, a pointer is missing, or there is no such wave or style";
    if (number == TONO_FP_MODE)
        return "this thread does not round to nearest, or flushes subnormals; call tono_fp_enter before, and tono_fp_leave after";
    return number <= TONO_REFUSED_STRUCTURE ? tono_reason((int)number) : NULL;
}

/* ---- The floating-point mode
 *
 * Every call that plays, counts draws, prints a cue sheet or computes an exponential needs the mode that a thread
 * starts with: rounding to nearest, and subnormals kept (neither FTZ nor DAZ). In another mode frames and draw
 * counts are others, and the calls by arrays do not see it. fesetround, a library that was built with -ffast-math, and
 * audio hosts that set FTZ and DAZ change it. The mode belongs to a thread.
 *
 *     uint32_t before = tono_fp_enter();      the library's mode from here on
 *     ..                                      calls
 *     tono_fp_leave(before);                  the thread's own mode again */

/* Rounding control, FTZ and DAZ in the register MXCSR, and the whole register as a thread starts with it. */
#define TONO_FP_BITS UINT32_C(0xe040)
#define TONO_FP_USUAL UINT32_C(0x1f80)

/* Whether this thread has the mode that the library needs. */
static inline int tono_fp_ok(void)
{
    return (_mm_getcsr() & TONO_FP_BITS) == 0;
}

/* Sets the mode, with every exception masked, and returns what was there, flags included. */
static inline uint32_t tono_fp_enter(void)
{
    uint32_t before = _mm_getcsr();
    _mm_setcsr(TONO_FP_USUAL);
    return before;
}

/* Puts back what tono_fp_enter returned. */
static inline void tono_fp_leave(uint32_t before)
{
    _mm_setcsr(before);
}

/* What tono_play returns when the listing does not fit the reply. */
#define TONO_REPLY_SHORT (-23)

/* No listing is longer than this, in bytes: at most 40 for its G line, and at most 16 for each of 2,048 F
 * lines. With a reply of this length tono_play never returns TONO_REPLY_SHORT. */
#define TONO_LISTING_MOST 32808

/* The most frames that a text score can have. */
#define TONO_FRAMES_MOST 2048

/* Plays the text score in score[0] .. score[score_len - 1] and writes its listing to the reply, from
 * reply[0] on.
 *
 * Returns the length of the listing in bytes, which is at least 4. The bytes of the reply after the listing
 * are left as they were; no 0 is written at the end. If the listing is longer than reply_len, the call
 * returns TONO_REPLY_SHORT and changes no byte of the reply: call again with a larger one.
 *
 * If the score is played, the listing is
 *     G <tab> state <tab> draws       the generator's end state, 16 hexadecimal digits, and its count
 *     F <tab> index <tab> bits        for each frame, from 0: the 8 hexadecimal digits of its float
 * If the score is refused, the listing is the one line
 *     R <tab> number                  why: a number of enum tono_refusal
 * Every line ends in a newline. A refusal is an answer, not a failure: it has a listing like any other.
 * The score may hold any bytes and have any length; more than 65,536 bytes are refused with
 * TONO_REFUSED_TEXT_SIZE. A line N that stops after its pitch has gain 0.5, as if 3f000000 stood there.
 *
 * Both buffers are lent: they stay yours, and the call does not use them after it returns. It only reads
 * the score, and of the reply it writes only the listing's bytes.
 *
 * You must make sure that
 *   - neither pointer is null, even if its length is 0;
 *   - each buffer has as many bytes as its length says;
 *   - the two buffers do not overlap;
 *   - during the call no other thread writes to either buffer or reads the reply.
 *
 * The call keeps no state: a score gives the same listing every time. Threads may call it at the same time,
 * each with its own buffers. It allocates nothing, makes no system call and always returns.
 *
 * It uses up to 87,016 bytes of stack, measured on an example of every wave (compare/robust/stack.c). Give a
 * thread that calls it 128 KiB or more beyond its own needs. */
int64_t tono_play(const uint8_t *score, size_t score_len, uint8_t *reply, size_t reply_len);

/* How many draws the text score in score[0] .. score[score_len - 1] would make: what a planning screen needs
 * to set draw numbers aside. Nothing is played.
 *
 * Returns 0 and puts the total into *draws. If tono_play would refuse the score, the call returns minus the
 * number of its R line, a number of enum tono_refusal, and *draws is left as it was. The total is the same
 * whether it is added in list order or by start frame. The draw at which each note begins is reckoned in list
 * order, since that is how the score is played: the first note begins at the draw of the G line, and each
 * other where the notes listed before it end.
 *
 * The score is lent as to tono_play, draws points to a uint64_t that does not overlap it, and you must make
 * sure of the same. The call keeps no state, allocates nothing, makes no system call and always returns. It
 * uses up to 14,840 bytes of stack, measured on an example of every wave. */
int64_t tono_plan(const uint8_t *score, size_t score_len, uint64_t *draws);

/* The length in bytes of the longest cue sheet: 73 for each of 256 notes, and four form feeds. With a page of
 * this length tono_cue_sheet never returns minus TONO_REFUSED_PAGE. */
#define TONO_CUE_SHEET_MOST (256 * 73 + 4)

/* Writes the cue sheet of the text score in score[0] .. score[score_len - 1] to the page, from page[0] on: a
 * line for each note, in list order, to file with a protocol. Nothing is played.
 *
 * Returns the length of the sheet in bytes. The bytes of the page after it are left as they were; no 0 is
 * written at the end. A score without notes has an empty sheet, of length 0, which fits any page. If tono_play
 * would refuse the score, the call returns minus the number of its R line; if it would not and the sheet is
 * longer than page_len, minus TONO_REFUSED_PAGE. A refused call changes no byte of the page.
 *
 * A line has 72 columns and a line feed (0A). The columns follow without gaps, and all but the wave's name are
 * right-aligned:
 *     width   column
 *         4   the note's place in the list, from 0
 *         8   its step
 *         9   its first frame; a dash if the note is skipped
 *         9   how many of its frames sound; 0 if it is skipped
 *        10   the wave's name in lower case, left-aligned
 *        21   its first draw, the count reached before the note; a dash if it is skipped
 *        11   its draws; 0 if it is skipped
 * A form feed (0C) follows each 60 lines if more notes follow.
 *
 * Score and page are lent as the score and the reply are to tono_play, and you must make sure of the same. The
 * call keeps no state, allocates nothing, makes no system call and always returns. It uses up to 20,024 bytes
 * of stack, measured on an example of every wave. */
int64_t tono_cue_sheet(const uint8_t *score, size_t score_len, uint8_t *page, size_t page_len);

/* The exponential of x, for every x. It is the kernel that the voices call, before that is narrowed to float.
 *
 *     x                                               tono_exp(x)
 *     NaN                                             NaN
 *     above 709.782712893383, and infinity            infinity
 *     709.782712893383 (40862e42fefa39e6)             7fefffffffffdb2a, which is 1.7976931348604338e308
 *     any number up to that                           finite
 *     0 and -0                                        1
 *     below about -708.396                            subnormal, and as such not flushed to 0
 *     about -744.787 down to -745.133219101941        0, though the true value rounds to the smallest subnormal
 *     below -745.133219101941 (c0874910d52d3050),
 *     and minus infinity                              0
 *
 * The call keeps no state, allocates nothing, makes no system call and always returns. Threads may call it at
 * the same time. Like tono_play it needs the floating-point mode of tono_fp_ok: with FTZ or DAZ, subnormals are
 * lost. */
double tono_exp(double x);

/* ---- Whole stimuli
 *
 * Scores of up to 16,777,216 frames on a session of eight stations, with every wave, tempo points, pitch curves and
 * quarter tones: tono_render_seq plays one, tono_planned_draws counts its draws, tono_note plays one note.
 * They take numbers and arrays. tono_play_seq, tono_plan_seq and tono_play_note below take structs, are inline and
 * call these; a program in C or C++ will mostly use them.
 *
 * What the three calls return:
 *   - 0: the call is accepted. *draws has the draws that it made, or of a plan would make.
 *   - a number of enum tono_refusal: the call is refused. *draws is 0 and nothing else changes. The first test
 *     that fails gives the number. tono_render_seq tests STATION, RATE, FRAMES, TEMPO, STEPS_PER_BEAT,
 *     TEMPO_POINTS, TEMPO_ORDER, GROOVE, KNOBS, NOTE_BUFFER, STRING_BUFFER, HOP, WORDS, LANE, then note by note
 *     KIND, PLACE, SIZE, TONE, REACH, and at last DRAWS. tono_planned_draws tests the same but NOTE_BUFFER and
 *     STRING_BUFFER. tono_note tests RATE, FRAMES, KNOBS, STRING_BUFFER, SIZE, NO_PITCH, LENGTHS.
 *   - TONO_MALFORMED: what was passed is no call: not 8 seeds and 8 counts, 22 knobs, 10 numbers of drawbars
 *     and 5 of an envelope, words of tempo points that are no multiple of 4, a wave above 17 or a style above
 *     3, whatever the wave. This is tested before every refusal, and nothing changes, *draws included.
 * tono_answer says in words what was returned.
 *
 * "Sized" means finite and of magnitude at most 65,536. All knobs, drawbars, envelope numbers, the duty, gains,
 * pitches and the whole lane must be sized, whether the wave reads them or not. A frame can hold an infinity or
 * a NaN where knobs lie far outside their usual range; which NaN is not said.
 *
 * Every array is lent: it stays yours, and no call uses it after it returns. You must make sure that
 *   - no pointer is null, even if its length is 0 (the struct functions take NULL where a length is 0);
 *   - each array has as many values as its length says, with the alignment of its type;
 *   - an array that the call writes overlaps no other;
 *   - during the call no other thread writes to any of them or reads those that the call writes.
 * The calls keep no state, allocate nothing, make no system call and always return. Threads may call them at
 * the same time. Two calls at once may share what both only read: seeds, points, knobs, drawbars, envelope,
 * notes, lane, pitch, duty, a struct tono_seq. They must not share the draws, the state, the output, the note
 * buffer, the string buffer, or a session's counts, even for different stations, since a call reads all eight:
 * give each thread a session of its own, or let one call at a time use a session. Only plans, which write no
 * count, may share a session. They need the floating-point mode of tono_fp_ok.
 *
 * Stack: tono_render_seq uses up to 30,056 bytes, tono_planned_draws 9,304 and tono_note 20,888, measured on
 * every wave and style (compare/robust/stack.c). Give a thread that calls them 64 KiB or more beyond its own
 * needs. */

/* How many values the arrays have. */
#define TONO_STATIONS 8
#define TONO_KNOBS 22
#define TONO_BARS 10
#define TONO_ENVELOPE 5
#define TONO_POINT_WORDS 4
#define TONO_NOTE_WORDS 5

/* The most tempo points, and the most frames of one call. */
#define TONO_TEMPO_POINTS_MOST 64
#define TONO_CALL_FRAMES_MOST 16777216

/* How many values the string buffer must have at least. */
#define TONO_STRING_LENGTH 9600

enum tono_wave {
    TONO_WAVE_SQUARE = 0,
    TONO_WAVE_TRIANGLE = 1,
    TONO_WAVE_SAWTOOTH = 2,
    TONO_WAVE_SINE = 3,
    TONO_WAVE_NOISE = 4,
    TONO_WAVE_FM = 5,
    TONO_WAVE_PLUCK = 6,
    TONO_WAVE_PIANO = 7,
    TONO_WAVE_EPIANO = 8,
    TONO_WAVE_ORGAN = 9,
    TONO_WAVE_STRINGS = 10,
    TONO_WAVE_BRASS = 11,
    TONO_WAVE_FLUTE = 12,
    TONO_WAVE_MALLET = 13,
    TONO_WAVE_BELL = 14,
    TONO_WAVE_BASS = 15,
    TONO_WAVE_KIT = 16,
    TONO_WAVE_COWBELL = 17
};

/* The styles of the drum kit. */
enum tono_style {
    TONO_STYLE_CLASSIC = 0,
    TONO_STYLE_ACOUSTIC = 1,
    TONO_STYLE_ELECTRONIC = 2,
    TONO_STYLE_808 = 3
};

/* The kinds of a note's pitch: a number in hertz, a curve in the lane, a quarter tone. */
enum tono_pitch_kind {
    TONO_PITCH_NUMBER = 0,
    TONO_PITCH_CURVE = 1,
    TONO_PITCH_QUARTER_TONE = 2
};

/* The places of the knobs. docs/voices.md says what each does. */
enum tono_knob {
    TONO_KNOB_FM_RATIO = 0,
    TONO_KNOB_FM_INDEX = 1,
    TONO_KNOB_FM_STRIKE = 2,
    TONO_KNOB_PLUCK_DECAY = 3,
    TONO_KNOB_PLUCK_BODY = 4,
    TONO_KNOB_PLUCK_PICK = 5,
    TONO_KNOB_PLUCK_TONE = 6,
    TONO_KNOB_PIANO_HAMMER = 7,
    TONO_KNOB_PIANO_STRIKE = 8,
    TONO_KNOB_PIANO_INHARM = 9,
    TONO_KNOB_PIANO_DETUNE = 10,
    TONO_KNOB_PIANO_DECAY = 11,
    TONO_KNOB_BASS_CUTOFF = 12,
    TONO_KNOB_BASS_ENV = 13,
    TONO_KNOB_BASS_ENV_VEL = 14,
    TONO_KNOB_BASS_DECAY = 15,
    TONO_KNOB_BASS_CLICK = 16,
    TONO_KNOB_BASS_BODY = 17,
    TONO_KNOB_BASS_SUB = 18,
    TONO_KNOB_BASS_SUB_RATIO = 19,
    TONO_KNOB_BASS_DRIVE = 20,
    TONO_KNOB_BASS_BODY_DECAY = 21
};

/* The places of the envelope's numbers: three times in seconds, the level that is held, and a boost at the start. */
enum tono_envelope {
    TONO_ENV_ATTACK = 0,
    TONO_ENV_DECAY = 1,
    TONO_ENV_SUSTAIN = 2,
    TONO_ENV_RELEASE = 3,
    TONO_ENV_PUNCH = 4
};

/* Plays a score on a station of a session into out[0] .. out[out_len - 1].
 *
 *     seeds           8 seeds, one for each station
 *     counts          8 draw counts. The score is played from the named station's seed at its count, and an
 *                     accepted call adds its draws to that count; the other seven stay
 *     draws           gets the draws made
 *     station         0 to 7
 *     rate            frames a second, 8,000 to 192,000
 *     tempo           beats a minute, 1 to 1,000; with tempo points it is only judged
 *     steps_per_beat  1 to 64
 *     points          4 words for each of up to 64 tempo points, in the order of their beats: the low and the
 *                     high word of the beat's numerator, a signed 64-bit number, its denominator, and the bits
 *                     of the tempo from there on. The first stands at beat 0. None: the tempo is straight
 *     swing           0 to 1: odd steps are delayed by so much of half a step
 *     humanize        0 to 1: how far notes stray in time and gain
 *     hop             1 to 4,096: a curve has a value for each so many frames
 *     wave, style     numbers of enum tono_wave and enum tono_style; only TONO_WAVE_KIT reads the style
 *     duty            how much of a turn the square is high
 *     knobs           22, at the places of enum tono_knob
 *     bars            10: ratio and level of each of the organ's five drawbars, ratio before level
 *     env             5, at the places of enum tono_envelope
 *     notes           5 words for each note: step, length in steps (each up to 1,048,575), kind of pitch, the
 *                     pitch's word, the bits of the gain. The word is the bits of a float in hertz, the offset
 *                     of a curve's first value in the lane, or a quarter tone's number, 0 to 255, of which 138
 *                     is 440 Hz
 *     lane            the pitches of curves in hertz
 *     out             the frames; a length of 0 is accepted
 *     note_buf        as long as the output or longer. After an accepted call its first out_len values may be any
 *     string          9,600 values or more. After an accepted call its first 9,600 may be any
 *
 * An accepted call writes every frame of the output. The lengths of notes and points are counted in words. */
uint32_t tono_render_seq(const uint64_t *seeds, size_t seeds_len, uint64_t *counts, size_t counts_len,
                         uint64_t *draws, uint32_t station, uint32_t rate, float tempo,
                         uint32_t steps_per_beat, const uint32_t *points, size_t points_len, float swing,
                         float humanize, uint32_t hop, uint32_t wave, uint32_t style, float duty,
                         const float *knobs, size_t knobs_len, const float *bars, size_t bars_len,
                         const float *env, size_t env_len, const uint32_t *notes, size_t notes_len,
                         const float *lane, size_t lane_len, float *out, size_t out_len, float *note_buf,
                         size_t note_buf_len, float *string, size_t string_len);

/* How many draws tono_render_seq would make with an output of so many frames: what a planning screen needs to
 * set draw numbers aside. Nothing is played, and the counts stay. */
uint32_t tono_planned_draws(const uint64_t *seeds, size_t seeds_len, const uint64_t *counts,
                            size_t counts_len, uint64_t *draws, uint32_t station, uint32_t rate, float tempo,
                            uint32_t steps_per_beat, const uint32_t *points, size_t points_len, float swing,
                            float humanize, uint32_t hop, uint32_t wave, uint32_t style, float duty,
                            const float *knobs, size_t knobs_len, const float *bars, size_t bars_len,
                            const float *env, size_t env_len, const uint32_t *notes, size_t notes_len,
                            const float *lane, size_t lane_len, size_t frames);

/* Plays one note into out[0] .. out[out_len - 1], without an envelope. pitch and duty have a value for each
 * frame, and the three are equally long, at least 1. *state is the generator's; an accepted call leaves it
 * where its draws end. The other numbers and arrays are those of tono_render_seq. */
uint32_t tono_note(uint32_t rate, uint32_t wave, uint32_t style, const float *knobs, size_t knobs_len,
                   const float *bars, size_t bars_len, float gain, uint64_t *state, uint64_t *draws,
                   const float *pitch, size_t pitch_len, const float *duty, size_t duty_len, float *out,
                   size_t out_len, float *string, size_t string_len);

/* ---- Whole stimuli by structs
 *
 * A program that plays one stimulus:
 *
 *     struct tono_session session;
 *     struct tono_seq seq;
 *     struct tono_seq_note notes[2];
 *     struct tono_buffers buffers = {note_buf, FRAMES, string, TONO_STRING_LENGTH};
 *     tono_session_open(&session, seeds);
 *     tono_seq_usual(&seq);
 *     seq.wave = TONO_WAVE_PIANO;
 *     notes[0] = tono_note_at_pitch(0, 4, 440.0f, 0.5f);
 *     notes[1] = tono_note_at_quarter_tone(4, 4, 144, 0.5f);
 *     number = tono_play_seq(&session, 0, &seq, notes, 2, NULL, 0, out, FRAMES, &buffers, &draws);
 *
 * The functions return what the calls above return, and change what these change. They also return, and change
 * nothing: first TONO_FP_MODE, where tono_fp_ok() does not hold; then TONO_MALFORMED, where a pointer is NULL whose
 * length is not 0, or that has no length. */

/* Eight stations: a seed and a draw count for each. A lab cites the seed and the count before a call. */
struct tono_session {
    uint64_t seeds[TONO_STATIONS];
    uint64_t draws[TONO_STATIONS];
};

/* A tempo from a beat on, by its four words; tono_tempo_point_at makes one. */
struct tono_tempo_point {
    uint32_t num_low;
    uint32_t num_high;
    uint32_t den;
    uint32_t tempo;
};

/* A note by its five words; tono_note_at_pitch, tono_note_on_curve and tono_note_at_quarter_tone make one. */
struct tono_seq_note {
    uint32_t step;
    uint32_t length;
    uint32_t kind;
    uint32_t pitch;
    uint32_t gain;
};

/* What a score has beside its station, notes and lane: units and ranges are those of tono_render_seq.
 * points_count counts points, and points may be NULL where it is 0. */
struct tono_seq {
    uint32_t rate;
    float tempo;
    uint32_t steps_per_beat;
    const struct tono_tempo_point *points;
    size_t points_count;
    float swing;
    float humanize;
    uint32_t hop;
    uint32_t wave;
    uint32_t style;
    float duty;
    float knobs[TONO_KNOBS];
    float bars[TONO_BARS];
    float env[TONO_ENVELOPE];
};

/* What a score call works in: note_len at least the frames, string_len at least TONO_STRING_LENGTH. */
struct tono_buffers {
    float *note;
    size_t note_len;
    float *string;
    size_t string_len;
};

/* An array of points or notes is an array of their words. */
typedef char tono_point_is_its_words[sizeof(struct tono_tempo_point) == TONO_POINT_WORDS * sizeof(uint32_t) ? 1 : -1];
typedef char tono_note_is_its_words[sizeof(struct tono_seq_note) == TONO_NOTE_WORDS * sizeof(uint32_t) ? 1 : -1];

/* The pattern of a float. */
static inline uint32_t tono_bits(float value)
{
    uint32_t bits;
    memcpy(&bits, &value, sizeof bits);
    return bits;
}

/* A session of these 8 seeds before its first draws. */
static inline void tono_session_open(struct tono_session *session, const uint64_t *seeds)
{
    size_t k;
    for (k = 0; k < TONO_STATIONS; k++) {
        session->seeds[k] = seeds[k];
        session->draws[k] = 0;
    }
}

/* A square at 48,000 frames a second and 120 beats a minute, 4 steps a beat, with the original's knobs and
 * drawbars, duty 0.5, a value of a curve for each frame, no tempo points, swing or humanize, and an envelope
 * that holds 1 throughout. */
static inline void tono_seq_usual(struct tono_seq *seq)
{
    static const float knobs[TONO_KNOBS] = {
        1.0f, 5.0f, 0.2f,
        0.996f, 0.0f, 0.0f, 0.0f,
        1.0f, 0.125f, 1.0f, 1.0f, 1.0f,
        250.0f, 700.0f, 1100.0f, 0.15f, 0.0f, 0.7f, 0.45f, 1.0f, 0.0f, 2.0f
    };
    static const float bars[TONO_BARS] = {1.0f, 0.45f, 2.0f, 1.0f, 4.0f, 0.45f, 6.0f, 0.3f, 8.0f, 0.22f};
    static const float env[TONO_ENVELOPE] = {0.0f, 0.0f, 1.0f, 0.0f, 0.0f};
    seq->rate = 48000;
    seq->tempo = 120.0f;
    seq->steps_per_beat = 4;
    seq->points = NULL;
    seq->points_count = 0;
    seq->swing = 0.0f;
    seq->humanize = 0.0f;
    seq->hop = 1;
    seq->wave = TONO_WAVE_SQUARE;
    seq->style = TONO_STYLE_CLASSIC;
    seq->duty = 0.5f;
    memcpy(seq->knobs, knobs, sizeof knobs);
    memcpy(seq->bars, bars, sizeof bars);
    memcpy(seq->env, env, sizeof env);
}

/* The tempo, in beats a minute, from beat num / den on. */
static inline struct tono_tempo_point tono_tempo_point_at(int64_t num, uint32_t den, float tempo)
{
    struct tono_tempo_point point;
    uint64_t bits = (uint64_t)num;
    point.num_low = (uint32_t)(bits & UINT32_C(0xffffffff));
    point.num_high = (uint32_t)(bits >> 32);
    point.den = den;
    point.tempo = tono_bits(tempo);
    return point;
}

static inline struct tono_seq_note tono_note_of(uint32_t step, uint32_t length, uint32_t kind, uint32_t pitch,
                                                float gain)
{
    struct tono_seq_note note;
    note.step = step;
    note.length = length;
    note.kind = kind;
    note.pitch = pitch;
    note.gain = tono_bits(gain);
    return note;
}

/* A note of a number of hertz. */
static inline struct tono_seq_note tono_note_at_pitch(uint32_t step, uint32_t length, float hertz, float gain)
{
    return tono_note_of(step, length, TONO_PITCH_NUMBER, tono_bits(hertz), gain);
}

/* A note whose pitch is a curve, from lane[offset] on. */
static inline struct tono_seq_note tono_note_on_curve(uint32_t step, uint32_t length, uint32_t offset, float gain)
{
    return tono_note_of(step, length, TONO_PITCH_CURVE, offset, gain);
}

/* A note of a quarter tone: 138 is 440 Hz, 24 more an octave higher. */
static inline struct tono_seq_note tono_note_at_quarter_tone(uint32_t step, uint32_t length, uint32_t quarter_tone,
                                                             float gain)
{
    return tono_note_of(step, length, TONO_PITCH_QUARTER_TONE, quarter_tone, gain);
}

/* Whether an array is missing: its pointer is null and its length is not 0. */
static inline int tono_missing(const void *array, size_t length)
{
    return array == NULL && length > 0;
}

/* Whether notes, points and lane are there, and their words can be counted. */
static inline int tono_seq_is_lent(const struct tono_seq *seq, const struct tono_seq_note *notes, size_t notes_count,
                                   const float *lane, size_t lane_len)
{
    return seq != NULL && !tono_missing(seq->points, seq->points_count) && !tono_missing(notes, notes_count)
           && !tono_missing(lane, lane_len) && seq->points_count <= SIZE_MAX / TONO_POINT_WORDS
           && notes_count <= SIZE_MAX / TONO_NOTE_WORDS;
}

/* The words of an array of points or notes, or `none` in place of a null pointer. */
static inline const uint32_t *tono_words(const void *array, const uint32_t *none)
{
    return array != NULL ? (const uint32_t *)array : none;
}

/* Plays a score on a station of a session: tono_render_seq by structs. notes_count counts notes. notes and lane
 * may be NULL where their lengths are 0, as may out and the buffers. */
static inline uint32_t tono_play_seq(struct tono_session *session, uint32_t station, const struct tono_seq *seq,
                                     const struct tono_seq_note *notes, size_t notes_count, const float *lane,
                                     size_t lane_len, float *out, size_t frames,
                                     const struct tono_buffers *buffers, uint64_t *draws)
{
    const uint32_t word = 0;
    float none[4] = {0.0f, 0.0f, 0.0f, 0.0f};
    if (!tono_fp_ok())
        return TONO_FP_MODE;
    if (session == NULL || buffers == NULL || draws == NULL || tono_missing(out, frames)
        || tono_missing(buffers->note, buffers->note_len) || tono_missing(buffers->string, buffers->string_len)
        || !tono_seq_is_lent(seq, notes, notes_count, lane, lane_len))
        return TONO_MALFORMED;
    return tono_render_seq(session->seeds, TONO_STATIONS, session->draws, TONO_STATIONS, draws, station,
                           seq->rate, seq->tempo, seq->steps_per_beat, tono_words(seq->points, &word),
                           TONO_POINT_WORDS * seq->points_count, seq->swing, seq->humanize, seq->hop, seq->wave,
                           seq->style, seq->duty, seq->knobs, TONO_KNOBS, seq->bars, TONO_BARS, seq->env,
                           TONO_ENVELOPE, tono_words(notes, &word), TONO_NOTE_WORDS * notes_count,
                           lane != NULL ? lane : none, lane_len, out != NULL ? out : none + 1, frames,
                           buffers->note != NULL ? buffers->note : none + 2, buffers->note_len,
                           buffers->string != NULL ? buffers->string : none + 3, buffers->string_len);
}

/* The draws that tono_play_seq would make: tono_planned_draws by structs. */
static inline uint32_t tono_plan_seq(const struct tono_session *session, uint32_t station,
                                     const struct tono_seq *seq, const struct tono_seq_note *notes,
                                     size_t notes_count, const float *lane, size_t lane_len, size_t frames,
                                     uint64_t *draws)
{
    const uint32_t word = 0;
    const float none = 0.0f;
    if (!tono_fp_ok())
        return TONO_FP_MODE;
    if (session == NULL || draws == NULL || !tono_seq_is_lent(seq, notes, notes_count, lane, lane_len))
        return TONO_MALFORMED;
    return tono_planned_draws(session->seeds, TONO_STATIONS, session->draws, TONO_STATIONS, draws, station,
                              seq->rate, seq->tempo, seq->steps_per_beat, tono_words(seq->points, &word),
                              TONO_POINT_WORDS * seq->points_count, seq->swing, seq->humanize, seq->hop,
                              seq->wave, seq->style, seq->duty, seq->knobs, TONO_KNOBS, seq->bars, TONO_BARS,
                              seq->env, TONO_ENVELOPE, tono_words(notes, &word), TONO_NOTE_WORDS * notes_count,
                              lane != NULL ? lane : &none, lane_len, frames);
}

/* Plays one note: tono_note by structs. Of seq it reads the rate, the wave, the style, the knobs and the drawbars. */
static inline uint32_t tono_play_note(const struct tono_seq *seq, float gain, uint64_t *state, const float *pitch,
                                      size_t pitch_len, const float *duty, size_t duty_len, float *out,
                                      size_t frames, float *string, size_t string_len, uint64_t *draws)
{
    float none[4] = {0.0f, 0.0f, 0.0f, 0.0f};
    if (!tono_fp_ok())
        return TONO_FP_MODE;
    if (seq == NULL || state == NULL || draws == NULL || tono_missing(pitch, pitch_len)
        || tono_missing(duty, duty_len) || tono_missing(out, frames) || tono_missing(string, string_len))
        return TONO_MALFORMED;
    return tono_note(seq->rate, seq->wave, seq->style, seq->knobs, TONO_KNOBS, seq->bars, TONO_BARS, gain, state,
                     draws, pitch != NULL ? pitch : none, pitch_len, duty != NULL ? duty : none + 1, duty_len,
                     out != NULL ? out : none + 2, frames, string != NULL ? string : none + 3, string_len);
}

/* ---- Text scores, looked at first
 *
 * tono_play, tono_plan and tono_cue_sheet, with NULL taken where a length is 0. They return what those return, and also,
 * where nothing changes: first minus TONO_FP_MODE, then minus TONO_MALFORMED, where a pointer is NULL whose length is not
 * 0, or draws is NULL. */

static inline int64_t tono_play_text(const uint8_t *score, size_t score_len, uint8_t *reply, size_t reply_len)
{
    const uint8_t no_score = 0;
    uint8_t no_reply = 0;
    if (!tono_fp_ok())
        return -(int64_t)TONO_FP_MODE;
    if (tono_missing(score, score_len) || tono_missing(reply, reply_len))
        return -(int64_t)TONO_MALFORMED;
    return tono_play(score != NULL ? score : &no_score, score_len, reply != NULL ? reply : &no_reply, reply_len);
}

static inline int64_t tono_plan_text(const uint8_t *score, size_t score_len, uint64_t *draws)
{
    const uint8_t no_score = 0;
    if (!tono_fp_ok())
        return -(int64_t)TONO_FP_MODE;
    if (tono_missing(score, score_len) || draws == NULL)
        return -(int64_t)TONO_MALFORMED;
    return tono_plan(score != NULL ? score : &no_score, score_len, draws);
}

static inline int64_t tono_cue_sheet_text(const uint8_t *score, size_t score_len, uint8_t *page, size_t page_len)
{
    const uint8_t no_score = 0;
    uint8_t no_page = 0;
    if (!tono_fp_ok())
        return -(int64_t)TONO_FP_MODE;
    if (tono_missing(score, score_len) || tono_missing(page, page_len))
        return -(int64_t)TONO_MALFORMED;
    return tono_cue_sheet(score != NULL ? score : &no_score, score_len, page != NULL ? page : &no_page, page_len);
}

/* ---- WAVE files
 *
 * Mono files of 32-bit float samples: RIFF, an fmt chunk of 18 bytes with tag 3, a fact chunk with the
 * number of samples, a data chunk; 58 bytes before the samples, little-endian. A sample is passed as the
 * bit pattern of its float, so that every NaN keeps its bits. Buffers are lent as to tono_play, and you must
 * make sure of the same; a pointer to samples also has the alignment of a uint32_t. The calls keep no state,
 * use a few hundred bytes of stack, allocate nothing, make no system call and always return.
 *
 * A call that is refused returns minus a number of enum tono_refusal and changes nothing:
 *   - TONO_REFUSED_RATE, TONO_REFUSED_FRAMES: writing, a rate outside 8,000 to 192,000 or more than 16,777,216
 *     samples
 *   - TONO_REFUSED_SAMPLE_FORMAT: reading, a tag, channel count or sample width other than 3, 1 and 32
 *   - TONO_REFUSED_STRUCTURE: reading, a file that does not begin with RIFF, its length less 8 and WAVE; a chunk
 *     past the end of the file; a second fmt or fact; fmt, fact or data missing; fmt not of 18 bytes, fact
 *     not of 4, or data not of 4 for each sample that fact counts
 *   - TONO_REFUSED_REPLY: the file buffer or the sample buffer is too short */

/* How many bytes the file of so many samples has. */
#define TONO_WAVE_BYTES(count) (58 + 4 * (size_t)(count))

/* Writes the file of samples[0] .. samples[count - 1] from file[0] on and returns its length in bytes. The
 * bytes of the buffer after it are left as they were. Refused, in this order, with RATE, FRAMES, REPLY. */
int64_t tono_wave_write(uint32_t rate, const uint32_t *samples, size_t count, uint8_t *file,
                        size_t file_len);

/* Reads the file in file[0] .. file[file_len - 1]: puts its rate in *rate and its samples from samples[0]
 * on, and returns their number. room is how many samples the buffer holds; those after the last one are left
 * as they were.
 *
 * Chunks of other names before data are skipped, with their padding byte if their length is odd. Other fields
 * of fmt, and what follows data, are ignored; the rate is not judged. The first fault in the file decides
 * between STRUCTURE and SAMPLE_FORMAT, and the size of a chunk is judged before its content. Missing chunks
 * and the length of data are judged after that, and the room last. */
int64_t tono_wave_read(const uint8_t *file, size_t file_len, uint32_t *rate, uint32_t *samples,
                       size_t room);

/* The same with samples as floats, which are neither copied nor changed: what tono_play_seq leaves in out can be
 * handed on as it is. The library is no C and takes the four bytes of each sample, so that no rule of C on the type
 * that memory is read by is broken. NULL is taken where a length is 0; where it is not, or rate is NULL, the answer is
 * minus TONO_MALFORMED, and nothing changes. They need no floating-point mode, since nothing is computed. */
static inline int64_t tono_wave_write_f32(uint32_t rate, const float *samples, size_t count, uint8_t *file,
                                          size_t file_len)
{
    const uint32_t no_sample = 0;
    uint8_t no_byte = 0;
    if (tono_missing(samples, count) || tono_missing(file, file_len))
        return -(int64_t)TONO_MALFORMED;
    return tono_wave_write(rate, samples != NULL ? (const uint32_t *)(const void *)samples : &no_sample, count,
                           file != NULL ? file : &no_byte, file_len);
}

static inline int64_t tono_wave_read_f32(const uint8_t *file, size_t file_len, uint32_t *rate, float *samples,
                                         size_t room)
{
    const uint8_t no_byte = 0;
    uint32_t no_sample = 0;
    if (rate == NULL || tono_missing(samples, room) || tono_missing(file, file_len))
        return -(int64_t)TONO_MALFORMED;
    return tono_wave_read(file != NULL ? file : &no_byte, file_len, rate,
                          samples != NULL ? (uint32_t *)(void *)samples : &no_sample, room);
}

/* The word at these four bytes of a file, little-endian. */
static inline uint32_t tono_wave_word(const uint8_t *at)
{
    return (uint32_t)at[0] | (uint32_t)at[1] << 8 | (uint32_t)at[2] << 16 | (uint32_t)at[3] << 24;
}

/* How many samples the file in file[0] .. file[file_len - 1] has, and its rate in *rate: what a host needs before it
 * makes a buffer for tono_wave_read. Returns what tono_wave_read would return with room enough: the number, or minus
 * SAMPLE_FORMAT or STRUCTURE, and minus TONO_MALFORMED as tono_wave_read_f32 does. A refused call changes nothing.
 *
 * tono_wave_read judges the file. With no room for a sample it returns minus REPLY of a file that has its form and
 * some samples; the chunks of such a file are then stepped over here. */
static inline int64_t tono_wave_info(const uint8_t *file, size_t file_len, uint32_t *rate)
{
    uint32_t found = 0, size;
    size_t at = 12;
    int64_t answer = tono_wave_read_f32(file, file_len, rate != NULL ? &found : NULL, NULL, 0);
    if (answer != -(int64_t)TONO_REFUSED_REPLY) {
        if (answer >= 0)
            *rate = found;
        return answer;
    }
    while (at <= file_len && file_len - at >= 8) {
        size = tono_wave_word(file + at + 4);
        if (memcmp(file + at, "data", 4) == 0) {
            *rate = found;
            return (int64_t)(size / 4);
        }
        if (memcmp(file + at, "fmt ", 4) == 0)
            found = tono_wave_word(file + at + 12);
        at += 8 + (size_t)size + size % 2;
    }
    return -(int64_t)TONO_REFUSED_STRUCTURE;
}

#ifdef __cplusplus
}
#endif

#endif
