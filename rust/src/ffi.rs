//! The boundary: the only `unsafe` of the crate. Each function lends its slices for the call and no longer.

use crate::answers::Contents;

extern "C" {
    fn tapuhzel_judge(n: usize, lines: *const u16, lines_len: usize, place: *mut usize, list: *mut u8) -> u8;
    #[allow(clippy::too_many_arguments)]
    fn tapuhzel_prune(
        n: usize,
        level: usize,
        lines: *const u16,
        lines_len: usize,
        starts: *const u16,
        starts_len: usize,
        ranks: *mut u8,
        ranks_len: usize,
        orders: *mut u16,
        orders_len: usize,
        kept: *mut usize,
        place: *mut usize,
        list: *mut u8,
    ) -> u8;
    #[allow(clippy::too_many_arguments)]
    fn tapuhzel_check(
        n: usize,
        level: usize,
        lines: *const u16,
        lines_len: usize,
        ranks: *const u8,
        ranks_len: usize,
        orders: *const u16,
        orders_len: usize,
        kind: *mut u8,
        round: *mut u8,
        at: *mut usize,
        place: *mut usize,
        list: *mut u8,
    ) -> u8;
    #[allow(clippy::too_many_arguments)]
    fn tapuhzel_copy(
        lines: *const u16,
        lines_len: usize,
        ranks: *const u8,
        ranks_len: usize,
        room: *mut u16,
        room_len: usize,
        count: *mut usize,
        place: *mut usize,
        list: *mut u8,
    ) -> u8;
    #[allow(clippy::too_many_arguments)]
    fn tapuhzel_unite(
        n: usize,
        first: *const u16,
        first_len: usize,
        second: *const u16,
        second_len: usize,
        room: *mut u16,
        room_len: usize,
        count: *mut usize,
        place: *mut usize,
        list: *mut u8,
    ) -> u8;
    #[allow(clippy::too_many_arguments)]
    fn tapuhzel_joined(
        n: usize,
        lines: *const u16,
        lines_len: usize,
        away: *const u16,
        away_len: usize,
        one: u16,
        two: u16,
        joined: *mut u8,
        place: *mut usize,
        list: *mut u8,
    ) -> u8;
    #[allow(clippy::too_many_arguments)]
    fn tapuhzel_weak(
        n: usize,
        level: usize,
        lines: *const u16,
        lines_len: usize,
        weak: *mut u8,
        size: *mut u8,
        first: *mut u16,
        second: *mut u16,
        one: *mut u16,
        two: *mut u16,
        place: *mut usize,
        list: *mut u8,
    ) -> u8;
    #[allow(clippy::too_many_arguments)]
    fn tapuhzel_read(
        bytes: *const u8,
        bytes_len: usize,
        lines: *mut u16,
        lines_len: usize,
        starts: *mut u16,
        starts_len: usize,
        n: *mut usize,
        level: *mut usize,
        m: *mut usize,
        s: *mut usize,
        place: *mut usize,
        list: *mut u8,
    ) -> u8;
    #[allow(clippy::too_many_arguments)]
    fn tapuhzel_write(
        n: usize,
        level: usize,
        lines: *const u16,
        lines_len: usize,
        starts: *const u16,
        starts_len: usize,
        bytes: *mut u8,
        bytes_len: usize,
        count: *mut usize,
        place: *mut usize,
        list: *mut u8,
    ) -> u8;
    fn tapuhzel_keep_text(bytes: *const u8, bytes_len: usize, text: *mut u8, text_len: usize, count: *mut usize) -> u8;
    fn tapuhzel_weak_text(bytes: *const u8, bytes_len: usize, text: *mut u8, text_len: usize, count: *mut usize) -> u8;
}

/// A routine's number, place and list, as `include/tapuhzel.h` encodes them.
pub(crate) struct Said {
    pub number: u8,
    pub place: usize,
    pub list: u8,
}

/// What a call says, given where it may write its place and its list.
fn said(call: impl FnOnce(&mut usize, &mut u8) -> u8) -> Said {
    let (mut place, mut list) = (0, 0);
    let number = call(&mut place, &mut list);
    Said { number, place, list }
}

// SAFETY of every call below: each pointer and length are of one live slice, lent for the call alone; the slices that a call
// may write to and its results are live and apart from all else that it is given.

pub(crate) fn judge(n: usize, lines: &[u16]) -> Said {
    said(|place, list| unsafe { tapuhzel_judge(n, lines.as_ptr(), lines.len(), place, list) })
}

pub(crate) fn prune(n: usize, level: usize, lines: &[u16], starts: &[u16], ranks: &mut [u8], orders: &mut [u16]) -> (usize, Said) {
    let mut kept = 0;
    let said = said(|place, list| unsafe {
        tapuhzel_prune(
            n,
            level,
            lines.as_ptr(),
            lines.len(),
            starts.as_ptr(),
            starts.len(),
            ranks.as_mut_ptr(),
            ranks.len(),
            orders.as_mut_ptr(),
            orders.len(),
            &mut kept,
            place,
            list,
        )
    });
    (kept, said)
}

/// What the check found: the kind of its fault, 1 for A to 5 for E, 0 for none; its round; its own place.
pub(crate) struct Found {
    pub kind: u8,
    pub round: u8,
    pub at: usize,
}

pub(crate) fn check(n: usize, level: usize, lines: &[u16], ranks: &[u8], orders: &[u16]) -> (Found, Said) {
    let (mut kind, mut round, mut at) = (0, 0, 0);
    let said = said(|place, list| unsafe {
        tapuhzel_check(
            n,
            level,
            lines.as_ptr(),
            lines.len(),
            ranks.as_ptr(),
            ranks.len(),
            orders.as_ptr(),
            orders.len(),
            &mut kind,
            &mut round,
            &mut at,
            place,
            list,
        )
    });
    (Found { kind, round, at }, said)
}

pub(crate) fn copy(lines: &[u16], ranks: &[u8], room: &mut [u16]) -> (usize, Said) {
    let mut count = 0;
    let (from, kept, to) = (lines.as_ptr(), ranks.as_ptr(), room.as_mut_ptr());
    let said = said(|place, list| unsafe { tapuhzel_copy(from, lines.len(), kept, ranks.len(), to, room.len(), &mut count, place, list) });
    (count, said)
}

pub(crate) fn unite(n: usize, first: &[u16], second: &[u16], room: &mut [u16]) -> (usize, Said) {
    let mut count = 0;
    let (one, two, to) = (first.as_ptr(), second.as_ptr(), room.as_mut_ptr());
    let said = said(|place, list| unsafe { tapuhzel_unite(n, one, first.len(), two, second.len(), to, room.len(), &mut count, place, list) });
    (count, said)
}

pub(crate) fn joined(n: usize, lines: &[u16], away: &[u16], one: u16, two: u16) -> (bool, Said) {
    let mut joined = 0;
    let said = said(|place, list| unsafe {
        tapuhzel_joined(n, lines.as_ptr(), lines.len(), away.as_ptr(), away.len(), one, two, &mut joined, place, list)
    });
    (joined == 1, said)
}

/// What the search for a weak spot found: whether there is one, its size and stations, and the two that it parts.
#[derive(Default)]
pub(crate) struct Parted {
    pub weak: u8,
    pub size: u8,
    pub first: u16,
    pub second: u16,
    pub one: u16,
    pub two: u16,
}

pub(crate) fn weak(n: usize, level: usize, lines: &[u16]) -> (Parted, Said) {
    let mut parted = Parted::default();
    let Parted { weak, size, first, second, one, two } = &mut parted;
    let said = said(|place, list| unsafe {
        tapuhzel_weak(n, level, lines.as_ptr(), lines.len(), weak, size, first, second, one, two, place, list)
    });
    (parted, said)
}

pub(crate) fn read(bytes: &[u8], lines: &mut [u16], starts: &mut [u16]) -> (Contents, Said) {
    let mut found = Contents { stations: 0, level: 0, lines: 0, starts: 0 };
    let said = said(|place, list| unsafe {
        tapuhzel_read(
            bytes.as_ptr(),
            bytes.len(),
            lines.as_mut_ptr(),
            lines.len(),
            starts.as_mut_ptr(),
            starts.len(),
            &mut found.stations,
            &mut found.level,
            &mut found.lines,
            &mut found.starts,
            place,
            list,
        )
    });
    (found, said)
}

pub(crate) fn write(n: usize, level: usize, lines: &[u16], starts: &[u16], bytes: &mut [u8]) -> (usize, Said) {
    let mut count = 0;
    let said = said(|place, list| unsafe {
        tapuhzel_write(
            n,
            level,
            lines.as_ptr(),
            lines.len(),
            starts.as_ptr(),
            starts.len(),
            bytes.as_mut_ptr(),
            bytes.len(),
            &mut count,
            place,
            list,
        )
    });
    (count, said)
}

/// How many bytes of text were written; none where the room is too short.
pub(crate) fn keep_text(bytes: &[u8], text: &mut [u8]) -> usize {
    let mut count = 0;
    unsafe { tapuhzel_keep_text(bytes.as_ptr(), bytes.len(), text.as_mut_ptr(), text.len(), &mut count) };
    count
}

/// How many bytes of text were written; none where the room is too short.
pub(crate) fn weak_text(bytes: &[u8], text: &mut [u8]) -> usize {
    let mut count = 0;
    unsafe { tapuhzel_weak_text(bytes.as_ptr(), bytes.len(), text.as_mut_ptr(), text.len(), &mut count) };
    count
}
