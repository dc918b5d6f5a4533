/* Eight threads at once, each on a session and buffers of its own, with one seq, one list of notes and one lane
 * for all: each gets the frames, draws and counts that it gets alone. Every thread plays, plans and plays a
 * note, in every wave and several times. Prints what differs; the status is 1 then. */
#define _XOPEN_SOURCE 600
#include "lent.h"

#include <pthread.h>

enum { THREADS = 8, FRAMES = 700, ROUNDS = 12, WAVES = 18, NOTES = 4, LANE = 64 };

static struct tono_seq seqs[WAVES];
static struct tono_tempo_point points[2];
static struct tono_seq_note notes[NOTES];
static float lane[LANE], pitch[FRAMES], duty[FRAMES];
static pthread_barrier_t start;

/* What a thread's calls come to. */
struct work {
    uint32_t number;
    uint64_t sum, draws, state;
    struct tono_session session;
};

static void mix(struct work *work, uint64_t value)
{
    work->sum = (work->sum ^ value) * UINT64_C(0x100000001b3);
}

/* All calls of the thread of this number. */
static void play_all(struct work *work, uint32_t thread)
{
    float *out = (float *)block(FRAMES * sizeof(float)), *note = (float *)block(FRAMES * sizeof(float));
    float *string = (float *)block(TONO_STRING_LENGTH * sizeof(float));
    struct tono_buffers buffers;
    uint64_t seeds[TONO_STATIONS], draws = 0;
    uint32_t k, round;
    buffers.note = note;
    buffers.note_len = FRAMES;
    buffers.string = string;
    buffers.string_len = TONO_STRING_LENGTH;
    for (k = 0; k < TONO_STATIONS; k++)
        seeds[k] = 1000 * thread + k;
    tono_session_open(&work->session, seeds);
    work->number = 0;
    work->sum = 0;
    work->draws = 0;
    work->state = thread;
    for (round = 0; round < ROUNDS; round++)
        for (k = 0; k < WAVES; k++) {
            const struct tono_seq *seq = &seqs[(k + thread) % WAVES];
            work->number |= tono_plan_seq(&work->session, k % 8, seq, notes, NOTES, lane, LANE, FRAMES, &draws);
            mix(work, draws);
            work->number |= tono_play_seq(&work->session, k % 8, seq, notes, NOTES, lane, LANE, out, FRAMES, &buffers,
                                          &draws);
            mix(work, sum_of(out, FRAMES));
            work->draws += draws;
            work->number |= tono_play_note(seq, 0.5f, &work->state, pitch, FRAMES, duty, FRAMES, out, FRAMES, string,
                                           TONO_STRING_LENGTH, &draws);
            mix(work, sum_of(out, FRAMES));
        }
    free(out);
    free(note);
    free(string);
}

struct thread {
    pthread_t id;
    uint32_t number;
    struct work work;
};

static void *run(void *at)
{
    struct thread *thread = (struct thread *)at;
    pthread_barrier_wait(&start);
    play_all(&thread->work, thread->number);
    return NULL;
}

static void prepare(void)
{
    uint32_t k;
    points[0] = tono_tempo_point_at(0, 1, 300.0f);
    points[1] = tono_tempo_point_at(1, 2, 600.0f);
    notes[0] = tono_note_at_pitch(0, 3, 440.0f, 0.5f);
    notes[1] = tono_note_on_curve(1, 2, 0, 0.75f);
    notes[2] = tono_note_at_quarter_tone(2, 4, 138, 0.25f);
    notes[3] = tono_note_at_pitch(3, 1, 82.5f, 1.0f);
    for (k = 0; k < LANE; k++)
        lane[k] = 200.0f + (float)k;
    for (k = 0; k < FRAMES; k++) {
        pitch[k] = 100.0f + (float)k;
        duty[k] = 0.25f;
    }
    for (k = 0; k < WAVES; k++) {
        tono_seq_usual(&seqs[k]);
        seqs[k].rate = 8000;
        seqs[k].tempo = 600.0f;
        seqs[k].hop = 16;
        seqs[k].wave = k;
        seqs[k].style = k % 4;
        seqs[k].points = points;
        seqs[k].points_count = k % 2 == 0 ? 2 : 0;
        seqs[k].humanize = k % 3 == 0 ? 0.5f : 0.0f;
    }
}

int main(void)
{
    static struct thread threads[THREADS];
    uint32_t k;
    prepare();
    if (pthread_barrier_init(&start, NULL, THREADS) != 0)
        return 2;
    for (k = 0; k < THREADS; k++) {
        threads[k].number = k;
        if (pthread_create(&threads[k].id, NULL, run, &threads[k]) != 0)
            return 2;
    }
    for (k = 0; k < THREADS; k++)
        pthread_join(threads[k].id, NULL);
    for (k = 0; k < THREADS; k++) {
        struct work alone;
        const struct work *got = &threads[k].work;
        play_all(&alone, k);
        expect(got->number == 0 && alone.number == 0, "threads", "a call is refused");
        expect(got->sum == alone.sum, "threads", "a thread's frames are others than alone");
        expect(got->draws == alone.draws && got->draws > 0, "threads", "a thread's draws are others than alone");
        expect(got->state == alone.state, "threads", "a thread's state is another than alone");
        expect(memcmp(&got->session, &alone.session, sizeof alone.session) == 0, "threads",
               "a thread's session is another than alone");
    }
    pthread_barrier_destroy(&start);
    printf("%d calls\n", THREADS * ROUNDS * WAVES * 3);
    return wrong;
}
