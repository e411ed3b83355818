//! The answers of the boundary, as `include/tapuhzel.h` encodes them, turned into ours.

use crate::answers::{
    Asked, Fault, FaultKind, LineList, Offset, Place, Position, Refusal, Round, Spot, Standing, Station, Verdict, WeakSpot,
};
use crate::ffi;

/// What a routine answers: its value, unless it refused.
pub(crate) fn answer<T>(value: T, said: ffi::Said) -> Result<T, Refusal> {
    if said.number == 0 { Ok(value) } else { Err(refusal(said)) }
}

/// The refusal of a number, a place and a list.
fn refusal(said: ffi::Said) -> Refusal {
    let place = Place(said.place as u16);
    let offset = Offset(said.place);
    let list = match said.list {
        2 => LineList::Second,
        1 => LineList::First,
        _ => LineList::Only,
    };
    match (said.number, said.list) {
        (2, 3) => Refusal::FileLineCount(offset),
        (4, 3) => Refusal::FileStartCount(offset),
        (1, _) => Refusal::StationCount,
        (2, _) => Refusal::LineCount(list),
        (3, _) => Refusal::LevelRange,
        (4, _) => Refusal::StartCount,
        (5, _) => Refusal::Room,
        (6, _) => Refusal::EndOutside(list, place),
        (7, _) => Refusal::EndsEqual(list, place),
        (8, _) => Refusal::StoodEarlier(list, place),
        (9, _) => Refusal::StartOutside(Round(said.place as u8)),
        (10, _) => Refusal::TakenAway(Position(said.place as u16)),
        (11, _) => Refusal::AskedStation(if said.place == 0 { Asked::First } else { Asked::Second }),
        (12, _) => Refusal::WeakLevel,
        (13, _) => Refusal::UnionCount,
        (20, _) => Refusal::Mark(offset),
        (21, _) => Refusal::FileEnds(offset),
        (22, _) => Refusal::EndCount(offset),
        (23, _) => Refusal::BytesFollow(offset),
        (number, _) => unreachable!("no routine refuses by {number}"),
    }
}

/// The verdict of a kind's number, a round and a place.
pub(crate) fn verdict(found: ffi::Found) -> Verdict {
    let at = found.at as u16;
    let kind = match found.kind {
        0 => return Verdict::Accepted,
        1 => FaultKind::RankAbove(Place(at)),
        2 => FaultKind::NotEachOnce(Position(at)),
        3 => FaultKind::ParentLacking(Station(at)),
        4 => FaultKind::OtherParent(Station(at)),
        5 => FaultKind::TreesApart(Place(at)),
        number => unreachable!("no fault has the number {number}"),
    };
    Verdict::Faulty(Fault { round: Round(found.round), kind })
}

/// The standing of what the search found.
pub(crate) fn standing(parted: ffi::Parted) -> Standing {
    if parted.weak == 0 {
        return Standing::Stands;
    }
    let (first, second) = (Station(parted.first), Station(parted.second));
    let spot = match parted.size {
        0 => Spot::Empty,
        1 => Spot::One(first),
        _ => Spot::Two(first, second),
    };
    Standing::Weak(WeakSpot { spot, one: Station(parted.one), two: Station(parted.two) })
}
