//! The library's C interface, as `include/lihambozy.h` declares it, behind functions on slices.
//! All unsafe code of the package is here.
//!
//! What a C function asks of its caller is asked of every slice by Rust itself: a shared slice's
//! pointer is not null, is aligned, and is valid for reading as many elements as the slice has,
//! while nobody writes them; a mutable slice's is valid for writing too and overlaps nothing else
//! that is lent. No function keeps a pointer, and none has any other condition: whatever the
//! content and the lengths, it returns.

use crate::MAX_VARS;

/// What `lhz_list` tells as `next` where no document is left.
pub(crate) const DONE: u32 = 65_536;

/// An answer of `lhz_check_volume`.
#[repr(C)]
pub(crate) struct CheckVolumeAnswer {
    pub refusal: u32,
    pub at: u32,
    pub lists: u32,
    pub postings: u32,
}

/// An answer of `lhz_read_list`.
#[repr(C)]
pub(crate) struct ReadListAnswer {
    pub refusal: u32,
    pub at: u32,
    pub count: u32,
}

/// An answer of `lhz_write_volume`.
#[repr(C)]
pub(crate) struct WriteVolumeAnswer {
    pub refusal: u32,
    pub at: u32,
    pub blocks: u32,
}

/// An answer of `lhz_join_volumes`.
#[repr(C)]
pub(crate) struct JoinVolumesAnswer {
    pub refusal: u32,
    pub at: u32,
    pub volume: u32,
    pub blocks: u32,
}

/// An answer of `lhz_check_plan`.
#[repr(C)]
pub(crate) struct CheckPlanAnswer {
    pub refusal: u32,
    pub at: u32,
    pub patterns: u32,
    pub vars: u32,
}

/// An answer of `lhz_pattern_rows`.
#[repr(C)]
pub(crate) struct PatternRowsAnswer {
    pub start: u32,
    pub len: u32,
}

/// An answer of `lhz_test_positions`.
#[repr(C)]
pub(crate) struct TestPositionsAnswer {
    pub refusal: u32,
    pub at: u32,
    pub passes: u32,
}

/// An answer of `lhz_list`.
#[repr(C)]
pub(crate) struct ListAnswer {
    pub refusal: u32,
    pub at: u32,
    pub rows: u32,
    pub tally: u32,
    pub next: u32,
}

/// An answer of `lhz_list_matches`.
#[repr(C)]
pub(crate) struct ListMatchesAnswer {
    pub refusal: u32,
    pub at: u32,
    pub count: u64,
    pub more: u32,
    pub next: [u32; MAX_VARS],
}

/// An answer of `lhz_line_to_plan`.
#[repr(C)]
pub(crate) struct LineToPlanAnswer {
    pub refusal: u32,
    pub at: u32,
    pub words: u32,
}

/// An answer of `lhz_plan_to_line`.
#[repr(C)]
pub(crate) struct PlanToLineAnswer {
    pub refusal: u32,
    pub at: u32,
    pub bytes: u32,
}

extern "C" {
    fn lhz_check_volume(volume: *const u8, len: usize) -> CheckVolumeAnswer;

    fn lhz_read_list(
        volume: *const u8,
        len: usize,
        list: u32,
        out: *mut u32,
        out_len: usize,
    ) -> ReadListAnswer;

    fn lhz_write_volume(
        counts: *const u32,
        counts_len: usize,
        postings: *const u32,
        postings_len: usize,
        out: *mut u8,
        out_len: usize,
    ) -> WriteVolumeAnswer;

    fn lhz_join_volumes(
        first: *const u8,
        first_len: usize,
        second: *const u8,
        second_len: usize,
        raise: u32,
        out: *mut u8,
        out_len: usize,
    ) -> JoinVolumesAnswer;

    fn lhz_check_plan(
        volume: *const u8,
        len: usize,
        plan: *const u32,
        plan_len: usize,
    ) -> CheckPlanAnswer;

    fn lhz_pattern_rows(
        volume: *const u8,
        len: usize,
        plan: *const u32,
        plan_len: usize,
        pattern: u32,
    ) -> PatternRowsAnswer;

    fn lhz_test_positions(
        volume: *const u8,
        len: usize,
        plan: *const u32,
        plan_len: usize,
        pattern: u32,
        doc: u32,
        positions: *const u32,
        positions_len: usize,
    ) -> TestPositionsAnswer;

    fn lhz_list(
        volume: *const u8,
        len: usize,
        plan: *const u32,
        plan_len: usize,
        start: u32,
        out: *mut u32,
        out_len: usize,
    ) -> ListAnswer;

    fn lhz_list_matches(
        volume: *const u8,
        len: usize,
        plan: *const u32,
        plan_len: usize,
        pattern: u32,
        doc: u32,
        from: *const u32,
        from_len: usize,
        out: *mut u32,
        out_len: usize,
    ) -> ListMatchesAnswer;

    fn lhz_line_to_plan(
        line: *const u8,
        len: usize,
        out: *mut u32,
        out_len: usize,
    ) -> LineToPlanAnswer;

    fn lhz_plan_to_line(
        volume: *const u8,
        len: usize,
        plan: *const u32,
        plan_len: usize,
        out: *mut u8,
        out_len: usize,
    ) -> PlanToLineAnswer;
}

pub(crate) fn check_volume(volume: &[u8]) -> CheckVolumeAnswer {
    // SAFETY: pointer and length are those of one shared slice, which is read only.
    unsafe { lhz_check_volume(volume.as_ptr(), volume.len()) }
}

pub(crate) fn read_list(volume: &[u8], list: u32, out: &mut [u32]) -> ReadListAnswer {
    // SAFETY: `volume` is read only; `out` is borrowed mutably, so it overlaps no part of `volume`,
    // and each length is that of its slice, in elements.
    unsafe { lhz_read_list(volume.as_ptr(), volume.len(), list, out.as_mut_ptr(), out.len()) }
}

pub(crate) fn write_volume(counts: &[u32], postings: &[u32], out: &mut [u8]) -> WriteVolumeAnswer {
    // SAFETY: `counts` and `postings` are read only and may overlap each other; `out` is borrowed
    // mutably, so it overlaps neither, and each length is that of its slice, in elements.
    unsafe {
        lhz_write_volume(
            counts.as_ptr(),
            counts.len(),
            postings.as_ptr(),
            postings.len(),
            out.as_mut_ptr(),
            out.len(),
        )
    }
}

pub(crate) fn join_volumes(
    first: &[u8],
    second: &[u8],
    raise: u32,
    out: &mut [u8],
) -> JoinVolumesAnswer {
    // SAFETY: `first` and `second` are read only and may overlap each other; `out` is borrowed
    // mutably, so it overlaps neither, and each length is that of its slice, in elements.
    unsafe {
        lhz_join_volumes(
            first.as_ptr(),
            first.len(),
            second.as_ptr(),
            second.len(),
            raise,
            out.as_mut_ptr(),
            out.len(),
        )
    }
}

pub(crate) fn check_plan(volume: &[u8], plan: &[u32]) -> CheckPlanAnswer {
    // SAFETY: `volume` and `plan` are read only, and each length is that of its slice, in elements.
    unsafe { lhz_check_plan(volume.as_ptr(), volume.len(), plan.as_ptr(), plan.len()) }
}

pub(crate) fn pattern_rows(volume: &[u8], plan: &[u32], pattern: u32) -> PatternRowsAnswer {
    // SAFETY: `volume` and `plan` are read only, and each length is that of its slice, in elements.
    unsafe { lhz_pattern_rows(volume.as_ptr(), volume.len(), plan.as_ptr(), plan.len(), pattern) }
}

pub(crate) fn test_positions(
    volume: &[u8],
    plan: &[u32],
    pattern: u32,
    doc: u32,
    positions: &[u32],
) -> TestPositionsAnswer {
    // SAFETY: `volume`, `plan` and `positions` are read only and may overlap each other, and each
    // length is that of its slice, in elements.
    unsafe {
        lhz_test_positions(
            volume.as_ptr(),
            volume.len(),
            plan.as_ptr(),
            plan.len(),
            pattern,
            doc,
            positions.as_ptr(),
            positions.len(),
        )
    }
}

pub(crate) fn list(volume: &[u8], plan: &[u32], start: u32, out: &mut [u32]) -> ListAnswer {
    // SAFETY: `volume` and `plan` are read only; `out` is borrowed mutably, so it overlaps neither,
    // and each length is that of its slice, in elements.
    unsafe {
        lhz_list(
            volume.as_ptr(),
            volume.len(),
            plan.as_ptr(),
            plan.len(),
            start,
            out.as_mut_ptr(),
            out.len(),
        )
    }
}

pub(crate) fn list_matches(
    volume: &[u8],
    plan: &[u32],
    pattern: u32,
    doc: u32,
    from: &[u32],
    out: &mut [u32],
) -> ListMatchesAnswer {
    // SAFETY: `volume`, `plan` and `from` are read only and may overlap each other; `out` is
    // borrowed mutably, so it overlaps none of them, and each length is that of its slice, in
    // elements.
    unsafe {
        lhz_list_matches(
            volume.as_ptr(),
            volume.len(),
            plan.as_ptr(),
            plan.len(),
            pattern,
            doc,
            from.as_ptr(),
            from.len(),
            out.as_mut_ptr(),
            out.len(),
        )
    }
}

pub(crate) fn line_to_plan(line: &[u8], out: &mut [u32]) -> LineToPlanAnswer {
    // SAFETY: `line` is read only; `out` is borrowed mutably, so it overlaps no part of `line`, and
    // each length is that of its slice, in elements.
    unsafe { lhz_line_to_plan(line.as_ptr(), line.len(), out.as_mut_ptr(), out.len()) }
}

pub(crate) fn plan_to_line(volume: &[u8], plan: &[u32], out: &mut [u8]) -> PlanToLineAnswer {
    // SAFETY: `volume` and `plan` are read only and may overlap each other; `out` is borrowed
    // mutably, so it overlaps neither, and each length is that of its slice, in elements.
    unsafe {
        lhz_plan_to_line(
            volume.as_ptr(),
            volume.len(),
            plan.as_ptr(),
            plan.len(),
            out.as_mut_ptr(),
            out.len(),
        )
    }
}

#[cfg(test)]
mod tests {
    //! The structs as they come: which fields are 0.

    use super::*;
    use crate::plain;

    const COUNTS: [u32; 2] = [1, 2];
    const POSTINGS: [u32; 3] = [9, 4, 5];

    /// The volume of `COUNTS` and `POSTINGS`, with some words of its stream replaced.
    fn volume_with(words: &[(usize, u32)]) -> [u8; 512] {
        let mut volume = [0; 512];
        plain::write_volume(&COUNTS, &POSTINGS, &mut volume).unwrap();
        for &(index, word) in words {
            plain::set_word(&mut volume, index, word);
        }
        plain::seal(&mut volume);
        volume
    }

    #[test]
    fn check_volume_fields() {
        let fields = |volume: &[u8]| {
            let answer = check_volume(volume);
            [answer.refusal, answer.at, answer.lists, answer.postings]
        };
        let mut renumbered = volume_with(&[]);
        renumbered[0] = 1;
        let mut unsealed = volume_with(&[]);
        unsealed[511] ^= 1;
        assert_eq!(fields(&volume_with(&[])), [0, 0, 2, 3]);
        assert_eq!(fields(&[]), [1, 0, 0, 0]);
        assert_eq!(fields(&renumbered), [2, 0, 0, 0]);
        assert_eq!(fields(&unsealed), [3, 0, 0, 0]);
        assert_eq!(fields(&volume_with(&[(0, 2)])), [4, 0, 0, 0]);
        assert_eq!(fields(&volume_with(&[(1, 0)])), [5, 0, 0, 0]);
        assert_eq!(fields(&volume_with(&[(2, 200)])), [6, 0, 0, 0]);
        assert_eq!(fields(&volume_with(&[(6, 4)])), [7, 1, 0, 0]);
        assert_eq!(fields(&volume_with(&[(125, 7)])), [8, 125, 0, 0]);
    }

    #[test]
    fn read_list_fields() {
        let fields = |volume: &[u8], list: u32, room: usize| {
            let answer = read_list(volume, list, &mut vec![0; room]);
            [answer.refusal, answer.at, answer.count]
        };
        let volume = volume_with(&[]);
        assert_eq!(fields(&volume, 0, 9), [0, 0, 1]);
        assert_eq!(fields(&volume, 1, 2), [0, 0, 2]);
        assert_eq!(fields(&volume_with(&[(6, 4)]), 0, 9), [7, 1, 0]);
        assert_eq!(fields(&volume, 2, 9), [17, 0, 0]);
        assert_eq!(fields(&volume, 1, 1), [16, 0, 0]);
    }

    #[test]
    fn write_volume_fields() {
        let fields = |counts: &[u32], postings: &[u32], room: usize| {
            let answer = write_volume(counts, postings, &mut vec![0; room]);
            [answer.refusal, answer.at, answer.blocks]
        };
        let rising: Vec<u32> = (0..1_032_190).collect();
        assert_eq!(fields(&COUNTS, &POSTINGS, 512), [0, 0, 1]);
        assert_eq!(fields(&[], &POSTINGS, 512), [5, 0, 0]);
        assert_eq!(fields(&[1, 1], &POSTINGS, 512), [18, 0, 0]);
        assert_eq!(fields(&[0, 3], &POSTINGS, 512), [7, 1, 0]);
        assert_eq!(fields(&[1_032_190], &rising, 512), [19, 0, 0]);
        assert_eq!(fields(&COUNTS, &POSTINGS, 511), [20, 0, 0]);
    }

    /// Each volume of `volume_with` has document 0 alone, so that the second is raised by 1 at
    /// least.
    #[test]
    fn join_volumes_fields() {
        let fields = |first: &[u8], second: &[u8], raise: u32, room: usize| {
            let answer = join_volumes(first, second, raise, &mut vec![0; room]);
            [answer.refusal, answer.at, answer.volume, answer.blocks]
        };
        let volume = volume_with(&[]);
        let mut three = [0; 512];
        plain::write_volume(&[0, 0, 0], &[], &mut three).unwrap();
        assert_eq!(fields(&volume, &volume, 1, 512), [0, 0, 0, 1]);
        assert_eq!(fields(&volume, &volume, 65_535, 600), [0, 0, 0, 1]);
        assert_eq!(fields(&volume, &three, 1, 512), [24, 0, 0, 0]);
        for raise in [0, 65_536, u32::MAX] {
            assert_eq!(fields(&volume, &volume, raise, 0), [25, 0, 0, 0], "raise {raise}");
        }
        assert_eq!(fields(&volume, &volume, 1, 511), [20, 0, 0, 0]);
        let mut half = vec![0; 8_192 * 512];
        let rising: Vec<u32> = (0..600_000).collect();
        let blocks = plain::write_volume(&[0, 600_000], &rising, &mut half).unwrap();
        half.truncate(blocks as usize * 512);
        assert_eq!(fields(&half, &half, 10, 0), [19, 0, 0, 0]);
        for (refused, [number, at]) in [
            (&[][..], [1, 0]),
            (&volume_with(&[(0, 2)]), [4, 0]),
            (&volume_with(&[(6, 4)]), [7, 1]),
            (&volume_with(&[(125, 7)]), [8, 125]),
        ] {
            for raise in [0, 1, u32::MAX] {
                assert_eq!(fields(refused, &volume, raise, 0), [number, at, 1, 0]);
                assert_eq!(fields(refused, &three[..9], raise, 0), [number, at, 1, 0]);
                assert_eq!(fields(&volume, refused, raise, 0), [number, at, 2, 0]);
                assert_eq!(fields(&three, refused, raise, 0), [number, at, 2, 0]);
            }
        }
    }

    /// A pattern of one variable, a pattern of two, and EITHER.
    const PLAN: [u32; 24] = [
        1, 1, 0, 0, // VOICE 1
        6, 0, 0, 0, // END
        1, 1, 0, 0, // VOICE 1
        1, 1, 0, 0, // VOICE 1
        6, 0, 0, 0, // END
        8, 0, 0, 0, // EITHER
    ];

    /// `PLAN` with one word replaced.
    fn plan_with(index: usize, word: u32) -> [u32; 24] {
        let mut plan = PLAN;
        plan[index] = word;
        plan
    }

    /// Volumes and plans that are refused, each with the number and the place.
    fn refused_plans() -> Vec<([u8; 512], Vec<u32>, [u32; 2])> {
        let volume = volume_with(&[]);
        vec![
            (volume_with(&[(6, 4)]), PLAN.to_vec(), [7, 1]),
            (volume_with(&[(125, 7)]), vec![], [8, 125]),
            (volume, vec![], [9, 0]),
            (volume, PLAN[..23].to_vec(), [9, 0]),
            (volume, plan_with(7, 1).to_vec(), [10, 1]),
            (volume, plan_with(13, 2).to_vec(), [11, 3]),
            (volume, [1, 1, 0, 0].repeat(9), [12, 8]),
            (volume, plan_with(16, 7).to_vec(), [13, 4]),
            (volume, PLAN[..20].to_vec(), [14, 0]),
        ]
    }

    #[test]
    fn check_plan_fields() {
        let fields = |volume: &[u8], plan: &[u32]| {
            let answer = check_plan(volume, plan);
            [answer.refusal, answer.at, answer.patterns, answer.vars]
        };
        let volume = volume_with(&[]);
        assert_eq!(fields(&volume, &PLAN), [0, 0, 2, 3]);
        assert_eq!(fields(&volume, &PLAN[8..20]), [0, 0, 1, 2]);
        for (volume, plan, [number, at]) in refused_plans() {
            assert_eq!(fields(&volume, &plan), [number, at, 0, 0]);
        }
    }

    #[test]
    fn pattern_rows_fields() {
        let fields = |volume: &[u8], plan: &[u32], pattern: u32| {
            let answer = pattern_rows(volume, plan, pattern);
            [answer.start, answer.len]
        };
        let volume = volume_with(&[]);
        assert_eq!(fields(&volume, &PLAN, 0), [0, 8]);
        assert_eq!(fields(&volume, &PLAN, 1), [8, 12]);
        for pattern in [2, 3, 1 << 31, u32::MAX] {
            assert_eq!(fields(&volume, &PLAN, pattern), [0, 0], "pattern {pattern}");
        }
        for (volume, plan, refused) in refused_plans() {
            for pattern in [0, 1, 2] {
                assert_eq!(fields(&volume, &plan, pattern), [0, 0], "{refused:?}");
            }
        }
    }

    /// In the one document of `volume_with` list 1 has the positions 4 and 5.
    #[test]
    fn test_positions_fields() {
        let fields = |volume: &[u8], plan: &[u32], pattern: u32, doc: u32, positions: &[u32]| {
            let answer = test_positions(volume, plan, pattern, doc, positions);
            [answer.refusal, answer.at, answer.passes]
        };
        let volume = volume_with(&[]);
        assert_eq!(fields(&volume, &PLAN, 0, 0, &[4]), [0, 0, 1]);
        assert_eq!(fields(&volume, &PLAN, 0, 0, &[3]), [0, 0, 0]);
        assert_eq!(fields(&volume, &PLAN, 0, 1, &[4]), [0, 0, 0]);
        assert_eq!(fields(&volume, &PLAN, 1, 0, &[5, 4]), [0, 0, 1]);
        assert_eq!(fields(&volume, &PLAN, 1, 0, &[5, 9]), [0, 0, 0]);
        let refused = [17, 0, 0];
        assert_eq!(fields(&volume, &PLAN, 2, 0, &[4]), refused, "pattern");
        assert_eq!(fields(&volume, &PLAN, 0, 0, &[]), refused, "no position");
        assert_eq!(fields(&volume, &PLAN, 0, 0, &[4, 4]), refused, "a position more");
        assert_eq!(fields(&volume, &PLAN, 1, 0, &[4]), refused, "a position less");
        assert_eq!(fields(&volume, &PLAN, 0, 65_536, &[4]), refused, "document");
        assert_eq!(fields(&volume, &PLAN, 1, 0, &[4, 65_536]), refused, "position");
        for (volume, plan, [number, at]) in refused_plans() {
            for (pattern, positions) in [(0, &[4][..]), (9, &[])] {
                let answer = fields(&volume, &plan, pattern, 0, positions);
                assert_eq!(answer, [number, at, 0], "pattern {pattern}");
            }
        }
    }

    #[test]
    fn list_fields() {
        let fields = |volume: &[u8], plan: &[u32], start: u32, room: usize| {
            let answer = list(volume, plan, start, &mut vec![0; room]);
            [answer.refusal, answer.at, answer.rows, answer.tally, answer.next]
        };
        let volume = volume_with(&[]);
        // Two patterns with three variables: a row has nine words.
        assert_eq!(fields(&volume, &PLAN, 0, 9), [0, 0, 1, 6, 65_536]);
        assert_eq!(fields(&volume, &PLAN, 1, 9), [0, 0, 0, 0, 65_536]);
        assert_eq!(fields(&volume, &PLAN, 65_535, 60), [0, 0, 0, 0, 65_536]);
        // List 1 has one posting in document 0, one in document 3.
        let two = volume_with(&[(6, 3 * 65_536)]);
        assert_eq!(fields(&two, &PLAN, 0, 9), [0, 0, 1, 3, 3]);
        assert_eq!(fields(&two, &PLAN, 3, 9), [0, 0, 1, 3, 65_536]);
        assert_eq!(fields(&two, &PLAN, 0, 17), [0, 0, 1, 3, 3]);
        assert_eq!(fields(&two, &PLAN, 0, 18), [0, 0, 2, 6, 65_536]);
        for room in [0, 8, 9, 60] {
            assert_eq!(fields(&volume, &PLAN, 65_536, room), [15, 0, 0, 0, 0], "room {room}");
        }
        for (start, room) in [(0, 8), (0, 0), (1, 8), (65_535, 8)] {
            assert_eq!(fields(&volume, &PLAN, start, room), [16, 0, 0, 0, 0], "start {start}");
        }
        for (volume, plan, [number, at]) in refused_plans() {
            for (start, room) in [(0, 60), (65_536, 60), (0, 0), (u32::MAX, 0)] {
                let answer = fields(&volume, &plan, start, room);
                assert_eq!(answer, [number, at, 0, 0, 0], "start {start}, room {room}");
            }
        }
    }

    /// In the one document of `volume_with`, document 0, list 1 has the positions 4 and 5. So
    /// pattern 0 has two tuples there, and pattern 1 has four.
    #[test]
    fn list_matches_fields() {
        type Fields = ([u32; 2], u64, u32, [u32; 8]);
        let fields =
            |volume: &[u8], plan: &[u32], [pattern, doc]: [u32; 2], from: &[u32], room: usize| {
                let ListMatchesAnswer { refusal, at, count, more, next } =
                    list_matches(volume, plan, pattern, doc, from, &mut vec![0; room]);
                ([refusal, at], count, more, next)
            };
        let done = |count: u64| -> Fields { ([0, 0], count, 0, [0; 8]) };
        let more = |count: u64, tuple: &[u32]| -> Fields {
            let mut next = [0; 8];
            next[..tuple.len()].copy_from_slice(tuple);
            ([0, 0], count, 1, next)
        };
        let refused = |[number, at]: [u32; 2]| -> Fields { ([number, at], 0, 0, [0; 8]) };
        let volume = volume_with(&[]);
        assert_eq!(fields(&volume, &PLAN, [0, 0], &[0], 1), more(1, &[5]));
        assert_eq!(fields(&volume, &PLAN, [0, 0], &[0], 2), done(2));
        assert_eq!(fields(&volume, &PLAN, [0, 0], &[5], 1), done(1));
        assert_eq!(fields(&volume, &PLAN, [0, 0], &[6], 1), done(0));
        assert_eq!(fields(&volume, &PLAN, [1, 0], &[0, 0], 2), more(1, &[4, 5]));
        assert_eq!(fields(&volume, &PLAN, [1, 0], &[0, 0], 5), more(2, &[5, 4]));
        assert_eq!(fields(&volume, &PLAN, [1, 0], &[0, 0], 7), more(3, &[5, 5]));
        assert_eq!(fields(&volume, &PLAN, [1, 0], &[0, 0], 8), done(4));
        assert_eq!(fields(&volume, &PLAN, [1, 0], &[4, 5], 2), more(1, &[5, 4]));
        assert_eq!(fields(&volume, &PLAN, [1, 0], &[5, 5], 60), done(1));
        assert_eq!(fields(&volume, &PLAN, [1, 0], &[65_535, 65_535], 2), done(0));
        for doc in [1, 2, 65_535] {
            for room in [2, 60] {
                assert_eq!(fields(&volume, &PLAN, [1, doc], &[0, 0], room), done(0), "{doc}");
            }
        }

        for room in [0, 1, 2, 60] {
            let of = |pattern: u32, doc: u32, from: &[u32]| {
                fields(&volume, &PLAN, [pattern, doc], from, room)
            };
            assert_eq!(of(2, 0, &[4]), refused([17, 0]), "pattern");
            assert_eq!(of(0, 0, &[]), refused([17, 0]), "no position");
            assert_eq!(of(0, 0, &[4, 4]), refused([17, 0]), "a position more");
            assert_eq!(of(1, 0, &[4]), refused([17, 0]), "a position less");
            assert_eq!(of(1, 0, &[4, 65_536]), refused([17, 0]), "position");
            assert_eq!(of(1, 65_536, &[4, 4]), refused([17, 0]), "document");
            assert_eq!(of(0, u32::MAX, &[4]), refused([17, 0]), "document");
        }
        for (from, room) in [([4, 5], 0), ([4, 5], 1), ([6, 0], 1), ([65_535, 65_535], 1)] {
            assert_eq!(fields(&volume, &PLAN, [1, 0], &from, room), refused([16, 0]), "{from:?}");
        }
        for (volume, plan, [number, at]) in refused_plans() {
            for (pattern, from, room) in [(0, &[4][..], 9), (9, &[], 9), (0, &[4], 0)] {
                for doc in [0, 65_536] {
                    let answer = fields(&volume, &plan, [pattern, doc], from, room);
                    assert_eq!(answer, refused([number, at]), "pattern {pattern}, room {room}");
                }
            }
        }

        // Patterns of every width. From each tuple on, in a buffer for one, MORE names the next.
        for vars in 1..=8 {
            let plan = [[1, 1, 0, 0].repeat(vars), vec![6, 0, 0, 0]].concat();
            let all = plain::search::choices(&vec![[4, 5]; vars]);
            let of =
                |doc: u32, from: &[u32], room: usize| fields(&volume, &plan, [0, doc], from, room);
            for (i, tuple) in all.iter().enumerate() {
                let expected = all.get(i + 1).map_or(done(1), |next| more(1, next));
                assert_eq!(of(0, tuple, vars), expected, "{tuple:?}");
                assert_eq!(of(0, tuple, vars * all.len()), done((all.len() - i) as u64));
                assert_eq!(of(0, tuple, vars - 1), refused([16, 0]), "{tuple:?}");
                assert_eq!(of(1, tuple, vars), done(0), "{tuple:?}");
                assert_eq!(of(65_536, tuple, vars), refused([17, 0]), "{tuple:?}");
            }
            for from in [vec![4; vars - 1], vec![4; vars + 1], vec![65_536; vars]] {
                assert_eq!(of(0, &from, 60), refused([17, 0]), "{vars} variables, {from:?}");
            }
        }
    }

    /// The struct lies in memory as the header says.
    #[test]
    fn list_matches_layout() {
        use std::mem::offset_of;
        let offsets = [
            offset_of!(ListMatchesAnswer, refusal),
            offset_of!(ListMatchesAnswer, at),
            offset_of!(ListMatchesAnswer, count),
            offset_of!(ListMatchesAnswer, more),
            offset_of!(ListMatchesAnswer, next),
        ];
        assert_eq!((offsets, size_of::<ListMatchesAnswer>()), ([0, 4, 8, 16, 20], 56));
    }

    #[test]
    fn line_to_plan_fields() {
        let fields = |line: &[u8], room: usize| {
            let mut out = vec![7; room];
            let answer = line_to_plan(line, &mut out);
            let written = answer.words as usize;
            assert!(out[written..].iter().all(|&word| word == 7), "behind {written} words");
            ([answer.refusal, answer.at, answer.words], out[..written].to_vec())
        };
        let refused = |number: u32, at: u32| ([number, at, 0], vec![]);
        let line = b"[1]|[1 1]";
        assert_eq!(fields(line, 24), ([0, 0, 24], PLAN.to_vec()));
        assert_eq!(fields(line, 30), ([0, 0, 24], PLAN.to_vec()));
        assert_eq!(fields(b"([1])", 8), ([0, 0, 8], PLAN[..8].to_vec()));
        for (line, at) in [
            (&b""[..], 0),
            (b"[", 1),
            (b"[1", 2),
            (b"[1]|", 4),
            (b"[1]]", 3),
            (b"[1 ]", 3),
            (b"[01]", 2),
            (b"[65537]", 5),
            (b"[1;n 0 1]", 8),
            (b"[1;n 0 1 2 3]", 10),
            (b"\xff", 0),
            (b"[1]\0", 3),
        ] {
            for room in [0, 24, 256] {
                assert_eq!(fields(line, room), refused(21, at), "{line:?}, room {room}");
            }
        }
        for (open, bracket) in [(8, false), (9, true), (12, true)] {
            let line = [vec![b'('; open], b"[1]".to_vec(), vec![b')'; open]].concat();
            let expected = if bracket { refused(22, 8) } else { ([0, 0, 8], PLAN[..8].to_vec()) };
            assert_eq!(fields(&line, 8), expected, "{open} brackets");
        }
        assert_eq!(fields(b"(((((((([1](", 8), refused(21, 11), "21 where both name one byte");
        let mut longest = [&[b'['][..], &b"1 ".repeat(1_022), b"10]"].concat();
        assert_eq!(longest.len(), 2_048);
        assert_eq!(fields(&longest, 256), refused(23, 0));
        longest.push(b')');
        assert_eq!(fields(&longest, 256), refused(21, 2_048), "over 2,048 bytes");
        longest[0] = 0;
        assert_eq!(fields(&longest, 256), refused(21, 2_048), "before anything else");
        let rows = |count: usize| [&b"["[..], &b"1 ".repeat(count - 2), b"1]"].concat();
        assert_eq!(fields(&rows(64), 256).0, [0, 0, 256]);
        for room in [0, 256, 260] {
            assert_eq!(fields(&rows(65), room), refused(23, 0), "65 rows, room {room}");
        }
        assert_eq!(fields(&rows(64), 255), refused(16, 0));
        for room in 0..24 {
            assert_eq!(fields(line, room), refused(16, 0), "room {room}");
        }
    }

    #[test]
    fn plan_to_line_fields() {
        let fields = |volume: &[u8], plan: &[u32], room: usize| {
            let mut out = vec![7; room];
            let answer = plan_to_line(volume, plan, &mut out);
            let written = answer.bytes as usize;
            assert!(out[written..].iter().all(|&byte| byte == 7), "behind {written} bytes");
            let line = String::from_utf8(out[..written].to_vec()).unwrap();
            ([answer.refusal, answer.at, answer.bytes], line)
        };
        let volume = volume_with(&[]);
        assert_eq!(fields(&volume, &PLAN, 9), ([0, 0, 9], "[1]|[1 1]".into()));
        assert_eq!(fields(&volume, &PLAN, 2_048), ([0, 0, 9], "[1]|[1 1]".into()));
        assert_eq!(fields(&volume, &PLAN[..8], 3), ([0, 0, 3], "[1]".into()));
        for room in 0..9 {
            assert_eq!(fields(&volume, &PLAN, room), ([16, 0, 0], String::new()), "room {room}");
        }
        for (volume, plan, [number, at]) in refused_plans() {
            for room in [0, 2_048] {
                let answer = fields(&volume, &plan, room);
                assert_eq!(answer, ([number, at, 0], String::new()), "room {room}");
            }
        }
    }
}
