//! The functions of libharness.a and libtono.a. Each is proved to have a result for every argument and to touch
//! no memory but its own, so a call is safe.

unsafe extern "C" {
    pub safe fn h_narrow(x: f64) -> f32;
    pub safe fn h_widen(x: f32) -> f64;
    pub safe fn h_sqrt(x: f32) -> f32;
    pub safe fn h_floor(x: f32) -> f32;
    pub safe fn h_trunc(x: f32) -> f32;
    pub safe fn h_round(x: f32) -> f32;
    pub safe fn h_abs(x: f32) -> f32;
    pub safe fn h_fract(x: f32) -> f32;
    pub safe fn h_floor64(x: f64) -> f64;
    pub safe fn h_round64(x: f64) -> f64;
    pub safe fn h_trunc64(x: f64) -> f64;
    pub safe fn h_usize(x: f32) -> usize;
    pub safe fn h_i64(x: f64) -> i64;
    pub safe fn h_i32(x: f32) -> i32;
    pub safe fn h_signum(x: f32) -> f32;
    pub safe fn h_rem(x: f32, y: f32) -> f32;
    pub safe fn h_usize64(x: f64) -> usize;
    pub safe fn h_max64(a: f64, b: f64) -> f64;
    pub safe fn h_draw(state: u64) -> u64;
    pub safe fn h_bi(state: u64) -> f32;
    pub safe fn h_quarter(q: u32) -> u32;
    pub safe fn h_sin(x: f64) -> f64;
    pub safe fn h_cos(x: f64) -> f64;
    pub safe fn h_exp(x: f64) -> f64;
    pub safe fn h_ln(x: f64) -> f64;
    pub safe fn h_tanh(x: f64) -> f64;
    pub safe fn h_powf(x: f64, y: f64) -> f64;
    pub safe fn h_sinf(x: f32) -> f32;
    pub safe fn h_cosf(x: f32) -> f32;
    pub safe fn h_expf(x: f32) -> f32;
    pub safe fn h_expf_falling(x: f32) -> f32;
    pub safe fn h_lnf(x: f32) -> f32;
    pub safe fn h_tanhf(x: f32) -> f32;
    pub safe fn h_powff(x: f32, y: f32) -> f32;
    pub safe fn h_log2(x: f32) -> f32;
    pub safe fn h_hz_to_midi(hz: f32) -> f32;
    pub safe fn h_midi(first: f32) -> i32;
    pub safe fn h_kit_draws(style: u32, midi: i32, rate: u32, frames: usize) -> usize;
    pub safe fn tono_exp(x: f64) -> f64;
}

mod raw {
    unsafe extern "C" {
        pub fn tono_play(
            score: *const u8,
            score_len: usize,
            reply: *mut u8,
            reply_len: usize,
        ) -> i64;
        pub fn tono_cue_sheet(
            score: *const u8,
            score_len: usize,
            page: *mut u8,
            page_len: usize,
        ) -> i64;
        pub fn h_sinf_block(x: *const f32, x_len: usize, out: *mut f32, out_len: usize) -> usize;
        pub fn h_tanhf_block(x: *const f32, x_len: usize, out: *mut f32, out_len: usize) -> usize;
        pub fn h_expf_block(x: *const f32, x_len: usize, out: *mut f32, out_len: usize) -> usize;
        pub fn h_board(
            ops: *const u32,
            ops_len: usize,
            answers: *mut u32,
            answers_len: usize,
        ) -> usize;
        pub fn tono_wave_write(
            rate: u32,
            samples: *const u32,
            count: usize,
            file: *mut u8,
            file_len: usize,
        ) -> i64;
        pub fn tono_wave_read(
            file: *const u8,
            file_len: usize,
            rate: *mut u32,
            samples: *mut u32,
            room: usize,
        ) -> i64;
        pub fn tono_plan(score: *const u8, score_len: usize, draws: *mut u64) -> i64;
    }
}

/// A library whose calls can be timed: the one that is compared, or the earlier one that `COMPARE_OLD` named for the build.
#[derive(Clone, Copy, PartialEq)]
pub enum Library {
    Own,
    #[cfg(old)]
    Old,
}

impl Library {
    pub const ALL: &[Library] = &[
        Library::Own,
        #[cfg(old)]
        Library::Old,
    ];
}

/// The calls that play, by their names in an archive.
macro_rules! players {
    ($note:literal, $score:literal) => {
        unsafe extern "C" {
            #[link_name = $note]
            pub fn tono_note(
                rate: u32,
                wave: u32,
                style: u32,
                knobs: *const f32,
                knobs_len: usize,
                bars: *const f32,
                bars_len: usize,
                gain: f32,
                state: *mut u64,
                draws: *mut u64,
                pitch: *const f32,
                pitch_len: usize,
                duty: *const f32,
                duty_len: usize,
                out: *mut f32,
                out_len: usize,
                string: *mut f32,
                string_len: usize,
            ) -> u32;
            #[link_name = $score]
            pub fn tono_render_seq(
                seeds: *mut u64,
                seeds_len: usize,
                counts: *mut u64,
                counts_len: usize,
                draws: *mut u64,
                station: u32,
                rate: u32,
                tempo: f32,
                steps_per_beat: u32,
                points: *const u32,
                points_len: usize,
                swing: f32,
                humanize: f32,
                hop: u32,
                wave: u32,
                style: u32,
                duty: f32,
                knobs: *const f32,
                knobs_len: usize,
                bars: *const f32,
                bars_len: usize,
                env: *const f32,
                env_len: usize,
                notes: *const u32,
                notes_len: usize,
                lane: *const f32,
                lane_len: usize,
                out: *mut f32,
                out_len: usize,
                note_buf: *mut f32,
                note_buf_len: usize,
                string: *mut f32,
                string_len: usize,
            ) -> u32;
        }
    };
}

mod own {
    players!("tono_note", "tono_render_seq");
}

#[cfg(old)]
mod old {
    players!("old_tono_note", "old_tono_render_seq");
}

/// What a note call takes: numbers, values to read, and what it is lent.
pub struct NoteArgs<'a> {
    pub rate: u32,
    pub wave: u32,
    pub style: u32,
    pub knobs: &'a [f32],
    pub bars: &'a [f32],
    pub gain: f32,
    pub state: &'a mut u64,
    pub draws: &'a mut u64,
    pub pitch: &'a [f32],
    pub duty: &'a [f32],
    pub out: &'a mut [f32],
    pub string: &'a mut [f32],
}

/// The note call: a refusal's number, 0, or 4294967295 where no call is made.
pub fn tono_note(args: NoteArgs) -> u32 {
    tono_note_of(Library::Own, args)
}

pub fn tono_note_of(library: Library, args: NoteArgs) -> u32 {
    let call = match library {
        Library::Own => own::tono_note,
        #[cfg(old)]
        Library::Old => old::tono_note,
    };
    // Each pointer and length are those of a slice, which is what the function takes.
    unsafe {
        call(
            args.rate,
            args.wave,
            args.style,
            args.knobs.as_ptr(),
            args.knobs.len(),
            args.bars.as_ptr(),
            args.bars.len(),
            args.gain,
            args.state,
            args.draws,
            args.pitch.as_ptr(),
            args.pitch.len(),
            args.duty.as_ptr(),
            args.duty.len(),
            args.out.as_mut_ptr(),
            args.out.len(),
            args.string.as_mut_ptr(),
            args.string.len(),
        )
    }
}

/// What a score call takes: the session, numbers, values to read, and what it is lent.
pub struct ScoreArgs<'a> {
    pub seeds: &'a mut [u64],
    pub counts: &'a mut [u64],
    pub draws: &'a mut u64,
    pub station: u32,
    pub rate: u32,
    pub tempo: f32,
    pub steps_per_beat: u32,
    pub points: &'a [u32],
    pub swing: f32,
    pub humanize: f32,
    pub hop: u32,
    pub wave: u32,
    pub style: u32,
    pub duty: f32,
    pub knobs: &'a [f32],
    pub bars: &'a [f32],
    pub env: &'a [f32],
    pub notes: &'a [u32],
    pub lane: &'a [f32],
    pub out: &'a mut [f32],
    pub note_buf: &'a mut [f32],
    pub string: &'a mut [f32],
}

/// The score call: a refusal's number, 0, or 4294967295 where no call is made.
pub fn tono_render_seq(args: ScoreArgs) -> u32 {
    tono_render_seq_of(Library::Own, args)
}

pub fn tono_render_seq_of(library: Library, args: ScoreArgs) -> u32 {
    let call = match library {
        Library::Own => own::tono_render_seq,
        #[cfg(old)]
        Library::Old => old::tono_render_seq,
    };
    // As above.
    unsafe {
        call(
            args.seeds.as_mut_ptr(),
            args.seeds.len(),
            args.counts.as_mut_ptr(),
            args.counts.len(),
            args.draws,
            args.station,
            args.rate,
            args.tempo,
            args.steps_per_beat,
            args.points.as_ptr(),
            args.points.len(),
            args.swing,
            args.humanize,
            args.hop,
            args.wave,
            args.style,
            args.duty,
            args.knobs.as_ptr(),
            args.knobs.len(),
            args.bars.as_ptr(),
            args.bars.len(),
            args.env.as_ptr(),
            args.env.len(),
            args.notes.as_ptr(),
            args.notes.len(),
            args.lane.as_ptr(),
            args.lane.len(),
            args.out.as_mut_ptr(),
            args.out.len(),
            args.note_buf.as_mut_ptr(),
            args.note_buf.len(),
            args.string.as_mut_ptr(),
            args.string.len(),
        )
    }
}

/// What a planning call takes: the session, numbers and values to read.
pub struct PlanArgs<'a> {
    pub seeds: &'a [u64],
    pub counts: &'a [u64],
    pub draws: &'a mut u64,
    pub station: u32,
    pub rate: u32,
    pub tempo: f32,
    pub steps_per_beat: u32,
    pub points: &'a [u32],
    pub swing: f32,
    pub humanize: f32,
    pub hop: u32,
    pub wave: u32,
    pub style: u32,
    pub duty: f32,
    pub knobs: &'a [f32],
    pub bars: &'a [f32],
    pub env: &'a [f32],
    pub notes: &'a [u32],
    pub lane: &'a [f32],
    pub n: usize,
}

/// The planning call: a refusal's number, 0, or 4294967295 where no call is made.
pub fn tono_planned_draws(args: PlanArgs) -> u32 {
    unsafe extern "C" {
        fn tono_planned_draws(
            seeds: *const u64,
            seeds_len: usize,
            counts: *const u64,
            counts_len: usize,
            draws: *mut u64,
            station: u32,
            rate: u32,
            tempo: f32,
            steps_per_beat: u32,
            points: *const u32,
            points_len: usize,
            swing: f32,
            humanize: f32,
            hop: u32,
            wave: u32,
            style: u32,
            duty: f32,
            knobs: *const f32,
            knobs_len: usize,
            bars: *const f32,
            bars_len: usize,
            env: *const f32,
            env_len: usize,
            notes: *const u32,
            notes_len: usize,
            lane: *const f32,
            lane_len: usize,
            n: usize,
        ) -> u32;
    }
    // Each pointer and length are those of a slice, which is what the function takes.
    unsafe {
        tono_planned_draws(
            args.seeds.as_ptr(),
            args.seeds.len(),
            args.counts.as_ptr(),
            args.counts.len(),
            args.draws,
            args.station,
            args.rate,
            args.tempo,
            args.steps_per_beat,
            args.points.as_ptr(),
            args.points.len(),
            args.swing,
            args.humanize,
            args.hop,
            args.wave,
            args.style,
            args.duty,
            args.knobs.as_ptr(),
            args.knobs.len(),
            args.bars.as_ptr(),
            args.bars.len(),
            args.env.as_ptr(),
            args.env.len(),
            args.notes.as_ptr(),
            args.notes.len(),
            args.lane.as_ptr(),
            args.lane.len(),
            args.n,
        )
    }
}

/// The C call: the listing's length, or -23 where it is longer than the reply.
pub fn tono_play(score: &[u8], reply: &mut [u8]) -> i64 {
    // As above.
    unsafe { raw::tono_play(score.as_ptr(), score.len(), reply.as_mut_ptr(), reply.len()) }
}

/// The cue sheet's length, or minus a refusal's number.
pub fn tono_cue_sheet(score: &[u8], page: &mut [u8]) -> i64 {
    // As above.
    unsafe { raw::tono_cue_sheet(score.as_ptr(), score.len(), page.as_mut_ptr(), page.len()) }
}

/// 0, or minus a refusal's number.
pub fn tono_plan(score: &[u8], draws: &mut u64) -> i64 {
    // As above.
    unsafe { raw::tono_plan(score.as_ptr(), score.len(), draws) }
}

/// Sines of a block: how many values were done.
pub fn h_sinf_block(x: &[f32], out: &mut [f32]) -> usize {
    // As above.
    unsafe { raw::h_sinf_block(x.as_ptr(), x.len(), out.as_mut_ptr(), out.len()) }
}

/// The same of tangents.
pub fn h_tanhf_block(x: &[f32], out: &mut [f32]) -> usize {
    // As above.
    unsafe { raw::h_tanhf_block(x.as_ptr(), x.len(), out.as_mut_ptr(), out.len()) }
}

/// The same of exponentials.
pub fn h_expf_block(x: &[f32], out: &mut [f32]) -> usize {
    // As above.
    unsafe { raw::h_expf_block(x.as_ptr(), x.len(), out.as_mut_ptr(), out.len()) }
}

/// A list of operations on a new board: how many were done.
pub fn h_board(ops: &[u32], answers: &mut [u32]) -> usize {
    // As above.
    unsafe { raw::h_board(ops.as_ptr(), ops.len(), answers.as_mut_ptr(), answers.len()) }
}

/// The file's length, or minus a refusal's number.
pub fn tono_wave_write(rate: u32, samples: &[u32], file: &mut [u8]) -> i64 {
    let (count, file_len) = (samples.len(), file.len());
    // As above.
    unsafe { raw::tono_wave_write(rate, samples.as_ptr(), count, file.as_mut_ptr(), file_len) }
}

/// The number of samples, or minus a refusal's number.
pub fn tono_wave_read(file: &[u8], rate: &mut u32, samples: &mut [u32]) -> i64 {
    let (file_len, room) = (file.len(), samples.len());
    // As above.
    unsafe { raw::tono_wave_read(file.as_ptr(), file_len, rate, samples.as_mut_ptr(), room) }
}
