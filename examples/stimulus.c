/* Two seconds at 48,000 frames a second: a flute on a pitch curve, and drums, slowing down. Writes the sum of
 * both as a WAVE file; examples/stimulus.py writes the same bytes.
 *
 *     tools/build libtono.a
 *     cc -std=c11 -O2 -Iinclude examples/stimulus.c target/staticlib/libtono.a -o stimulus
 *     ./stimulus OUT.wav
 *
 * Prints a line for each part: its station, the draws before and after it. The status is 0 if the file was written,
 * 1 if a call was refused, and 2 if the file could not be written. */
#include "tono.h"

#include <errno.h>
#include <inttypes.h>
#include <stdio.h>
#include <stdlib.h>
#include <string.h>

#define RATE 48000
#define FRAMES 96000
#define HOP 64
#define CURVE (FRAMES / HOP)

/* MIDI numbers; a drum's quarter tone is twice its number. */
enum drum { KICK = 36, SNARE = 38, HAT = 42 };

/* What a rig sets aside once: frames of the two parts, and what the calls work in. */
static float flute_frames[FRAMES], drum_frames[FRAMES], note_room[FRAMES], string_room[TONO_STRING_LENGTH];
static float curve[CURVE];
static uint8_t file[TONO_WAVE_BYTES(FRAMES)];
static struct tono_tempo_point slower[5];

static void judge(const char *what, uint32_t number)
{
    if (number == 0)
        return;
    fprintf(stderr, "stimulus: %s is refused with %" PRIu32 ": %s\n", what, number, tono_answer(number));
    exit(1);
}

/* The pitch in hertz at place k of the curve: a glide from 220 Hz up to 330, with a slow vibrato. A rig has such
 * values from its pitch tracker, one for each 64 frames. */
static float pitch_at(int k)
{
    int turn = k % 136;
    int bend = (turn < 68 ? turn : 136 - turn) - 34;
    return (float)(220.0 + (110 * k) / 1500.0 + bend / 8.0);
}

/* What both parts share: each beat is slower than the one before. */
static struct tono_seq numbers(void)
{
    static const struct { int64_t num; uint32_t den; float tempo; } points[5] = {
        { 0, 1, 152 }, { 1, 1, 138 }, { 2, 1, 122 }, { 3, 1, 100 }, { 7, 2, 84 },
    };
    struct tono_seq seq;
    tono_seq_usual(&seq);
    for (int i = 0; i < 5; i++)
        slower[i] = tono_tempo_point_at(points[i].num, points[i].den, points[i].tempo);
    seq.rate = RATE;
    seq.tempo = 152;
    seq.points = slower;
    seq.points_count = 5;
    seq.hop = HOP;
    return seq;
}

static void report(const char *what, uint32_t station, uint64_t before, uint64_t draws)
{
    printf("%s: station %" PRIu32 ", draw %" PRIu64 " before and %" PRIu64 " after\n", what, station, before, before + draws);
}

/* The curve through the whole stimulus, a quarter tone over its third beat, a number over its fourth. */
static void play_flute(struct tono_session *session, const struct tono_buffers *rooms)
{
    const struct tono_seq_note notes[3] = {
        tono_note_on_curve(0, 16, 0, 0.5f),
        tono_note_at_quarter_tone(8, 4, 127, 0.25f),
        tono_note_at_pitch(12, 4, 392.5f, 0.25f),
    };
    static const float env[TONO_ENVELOPE] = { 0.02f, 0.1f, 0.8f, 0.05f, 0 };
    struct tono_seq seq = numbers();
    uint64_t before = session->draws[0], draws = 0;
    for (int k = 0; k < CURVE; k++)
        curve[k] = pitch_at(k);
    seq.wave = TONO_WAVE_FLUTE;
    memcpy(seq.env, env, sizeof env);
    judge("the flute", tono_play_seq(session, 0, &seq, notes, 3, curve, CURVE, flute_frames, FRAMES, rooms, &draws));
    report("flute", 0, before, draws);
}

/* A hat on every other step, kick and snare on the beats in turn. */
static void play_drums(struct tono_session *session, const struct tono_buffers *rooms)
{
    struct tono_seq_note notes[12];
    struct tono_seq seq = numbers();
    uint64_t before = session->draws[1], draws = 0;
    for (uint32_t i = 0; i < 8; i++)
        notes[i] = tono_note_at_quarter_tone(2 * i, 2, 2 * HAT, 0.2f);
    for (uint32_t i = 0; i < 4; i++)
        notes[8 + i] = tono_note_at_quarter_tone(4 * i, 4, 2 * (i % 2 == 0 ? KICK : SNARE), 0.5f);
    seq.wave = TONO_WAVE_KIT;
    seq.style = TONO_STYLE_ACOUSTIC;
    seq.swing = 0.25f;
    seq.humanize = 0.125f;
    judge("the drums", tono_play_seq(session, 1, &seq, notes, 12, NULL, 0, drum_frames, FRAMES, rooms, &draws));
    report("drums", 1, before, draws);
}

/* The flute's frames get the drums' added to them. */
static void write_sum(const char *name)
{
    FILE *out;
    int64_t length;
    for (size_t i = 0; i < FRAMES; i++)
        flute_frames[i] += drum_frames[i];
    length = tono_wave_write_f32(RATE, flute_frames, FRAMES, file, sizeof file);
    if (length < 0)
        judge("the file", (uint32_t)-length);
    out = fopen(name, "wb");
    if (out == NULL || fwrite(file, 1, (size_t)length, out) != (size_t)length || fclose(out) != 0) {
        fprintf(stderr, "stimulus: %s: %s; usage: stimulus OUT.wav\n", name, strerror(errno));
        exit(2);
    }
}

int main(int count, char **words)
{
    static const uint64_t seeds[TONO_STATIONS] = { 0x5eed, 0xd12c };
    const struct tono_buffers rooms = { note_room, FRAMES, string_room, TONO_STRING_LENGTH };
    struct tono_session session;
    if (count != 2) {
        fprintf(stderr, "usage: stimulus OUT.wav\n");
        return 2;
    }
    tono_session_open(&session, seeds);
    session.draws[1] = 1000;
    play_flute(&session, &rooms);
    play_drums(&session, &rooms);
    write_sum(words[1]);
    return 0;
}
