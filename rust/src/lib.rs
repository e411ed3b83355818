//! Tapuhzel from Rust: safe calls of the proved library.
//!
//! Every input is taken or refused by a numbered reason and a place; no call panics.

mod answers;
mod decode;
mod ffi;
pub mod listing;
pub mod second;

pub use answers::*;
use decode::{answer, standing, verdict};

/// Whether a network of `n` stations and a flat list of line ends is taken.
///
/// ```
/// use tapuhzel::{judge, LineList, Place, Refusal};
/// assert_eq!(judge(3, &[0, 1, 1, 2]), Ok(()));
/// assert_eq!(judge(2, &[0, 1, 1, 0]), Err(Refusal::StoodEarlier(LineList::Only, Place(1))));
/// ```
pub fn judge(n: usize, lines: &[u16]) -> Result<(), Refusal> {
    let said = ffi::judge(n, lines);
    answer((), said)
}

/// Prunes a network of `n` stations at a level, from a starting station for each round: each line's rank goes to `ranks`,
/// each round's order to `orders`, and the count of kept lines is the answer. A refused call changes no buffer.
///
/// ```
/// let lines = [0, 1, 0, 2, 0, 3, 1, 2, 1, 3, 2, 3];
/// let (mut ranks, mut orders) = ([0; 6], [0; 8]);
/// assert_eq!(tapuhzel::prune(4, 2, &lines, &[0, 0], &mut ranks, &mut orders), Ok(5));
/// assert_eq!(ranks, [1, 1, 1, 2, 2, 0]);
/// assert_eq!(orders, [0, 1, 2, 3, 0, 1, 2, 3]);
/// ```
pub fn prune(n: usize, level: usize, lines: &[u16], starts: &[u16], ranks: &mut [u8], orders: &mut [u16]) -> Result<usize, Refusal> {
    let (kept, said) = ffi::prune(n, level, lines, starts, ranks, orders);
    answer(kept, said)
}

/// Whether ranks and orders from anywhere are scan-first forests of a network at a level, or what the first fault is.
///
/// ```
/// use tapuhzel::{check, Fault, FaultKind, Place, Round, Verdict};
/// let lines = [0, 2, 1, 2];
/// assert_eq!(check(3, 1, &lines, &[1, 0], &[0, 2, 1]), Ok(Verdict::Faulty(Fault { round: Round(1), kind: FaultKind::ParentLacking(tapuhzel::Station(1)) })));
/// assert_eq!(check(3, 1, &lines, &[1, 0], &[0, 1, 2]), Ok(Verdict::Faulty(Fault { round: Round(1), kind: FaultKind::TreesApart(Place(1)) })));
/// assert_eq!(check(3, 1, &lines, &[1, 1], &[0, 2, 1]), Ok(Verdict::Accepted));
/// ```
pub fn check(n: usize, level: usize, lines: &[u16], ranks: &[u8], orders: &[u16]) -> Result<Verdict, Refusal> {
    let (found, said) = ffi::check(n, level, lines, ranks, orders);
    answer(verdict(found), said)
}

/// Copies the kept lines, those of nonzero rank, to the front of `room`, and says how many lines that are.
///
/// ```
/// let mut room = [9; 6];
/// assert_eq!(tapuhzel::copy(&[0, 1, 0, 2, 1, 2], &[1, 0, 2], &mut room), Ok(2));
/// assert_eq!(room, [0, 1, 1, 2, 9, 9]);
/// ```
pub fn copy(lines: &[u16], ranks: &[u8], room: &mut [u16]) -> Result<usize, Refusal> {
    let (count, said) = ffi::copy(lines, ranks, room);
    answer(count, said)
}

/// Unites two lists over `n` stations in `room`, and says how many lines the union has.
///
/// ```
/// let mut room = [0; 6];
/// assert_eq!(tapuhzel::unite(3, &[0, 1, 1, 2], &[2, 1, 0, 2], &mut room), Ok(3));
/// assert_eq!(room, [0, 1, 1, 2, 0, 2]);
/// ```
pub fn unite(n: usize, first: &[u16], second: &[u16], room: &mut [u16]) -> Result<usize, Refusal> {
    let (count, said) = ffi::unite(n, first, second, room);
    answer(count, said)
}

/// Whether two stations are joined when those of a strictly rising list are taken away.
///
/// ```
/// use tapuhzel::{joined, Station};
/// assert_eq!(joined(3, &[0, 1, 1, 2], &[], Station(0), Station(2)), Ok(true));
/// assert_eq!(joined(3, &[0, 1, 1, 2], &[1], Station(0), Station(2)), Ok(false));
/// ```
pub fn joined(n: usize, lines: &[u16], away: &[u16], one: Station, two: Station) -> Result<bool, Refusal> {
    let (joined, said) = ffi::joined(n, lines, away, one.0, two.0);
    answer(joined, said)
}

/// Whether a network stands at a level from 1 to 3, or the fewest stations, fewer than the level, that part two others.
///
/// ```
/// use tapuhzel::{weak, Spot, Standing, Station, WeakSpot};
/// let path = WeakSpot { spot: Spot::One(Station(1)), one: Station(0), two: Station(2) };
/// assert_eq!(weak(3, 1, &[0, 1, 1, 2]), Ok(Standing::Stands));
/// assert_eq!(weak(3, 2, &[0, 1, 1, 2]), Ok(Standing::Weak(path)));
/// ```
pub fn weak(n: usize, level: usize, lines: &[u16]) -> Result<Standing, Refusal> {
    let (parted, said) = ffi::weak(n, level, lines);
    answer(standing(parted), said)
}

/// Reads a network file: its lines and starting stations go to the fronts of `lines`, at least 16,384 numbers, and
/// `starts`, at least 16. The network is not judged. A refused call changes no buffer.
///
/// ```
/// let (mut lines, mut starts) = ([0; 16_384], [0; 16]);
/// let mut file = [0; 100];
/// let length = tapuhzel::write(3, 1, &[0, 1, 1, 2], &[2], &mut file).unwrap();
/// let found = tapuhzel::read(&file[..length], &mut lines, &mut starts).unwrap();
/// assert_eq!((found.stations, found.level, found.lines, found.starts), (3, 1, 2, 1));
/// assert_eq!((&lines[..4], starts[0]), (&[0, 1, 1, 2][..], 2));
/// ```
pub fn read(bytes: &[u8], lines: &mut [u16], starts: &mut [u16]) -> Result<Contents, Refusal> {
    let (contents, said) = ffi::read(bytes, lines, starts);
    answer(contents, said)
}

/// Writes a network as a file from the front of `bytes`, and says how many bytes it has. A refused call changes nothing.
///
/// ```
/// let mut file = [9; 20];
/// assert_eq!(tapuhzel::write(2, 1, &[0, 1], &[0], &mut file), Ok(20));
/// assert_eq!(&file, b"NW\x02\0\x01\0LN\0\0\x01\0RT\0\0EN\x01\0");
/// ```
pub fn write(n: usize, level: usize, lines: &[u16], starts: &[u16], bytes: &mut [u8]) -> Result<usize, Refusal> {
    let (count, said) = ffi::write(n, level, lines, starts, bytes);
    answer(count, said)
}

/// No text of `keep` is longer.
const KEEP_ROOM: usize = 524_416;

/// No text of `weak` is longer.
const WEAK_ROOM: usize = 256;

/// What the program `keep` writes of a file's bytes.
///
/// ```
/// assert_eq!(tapuhzel::keep_text(b""), "refused 21 at 0\n");
/// ```
pub fn keep_text(bytes: &[u8]) -> String {
    text(KEEP_ROOM, |room| ffi::keep_text(bytes, room))
}

/// What the program `weak` writes of a file's bytes.
///
/// ```
/// let file = b"NW\x02\0\x01\0LN\0\0\x01\0RT\0\0EN\x01\0";
/// assert_eq!(tapuhzel::weak_text(file), "stations 2 level 1 lines 1\nstands\n");
/// ```
pub fn weak_text(bytes: &[u8]) -> String {
    text(WEAK_ROOM, |room| ffi::weak_text(bytes, room))
}

/// The text that a call writes into enough room.
fn text(room: usize, call: impl FnOnce(&mut [u8]) -> usize) -> String {
    let mut bytes = vec![0; room];
    let count = call(&mut bytes);
    String::from_utf8_lossy(&bytes[..count]).into_owned()
}
