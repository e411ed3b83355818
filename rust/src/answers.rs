//! What the routines answer: numbers that say what they number, and an enum for each answer.

/// The place of a line in its list, counted from 0.
#[derive(Clone, Copy, Debug, PartialEq, Eq, PartialOrd, Ord)]
pub struct Place(pub u16);

/// The number of a round, 1 to k.
#[derive(Clone, Copy, Debug, PartialEq, Eq, PartialOrd, Ord)]
pub struct Round(pub u8);

/// The number of a station, 0 to n - 1.
#[derive(Clone, Copy, Debug, PartialEq, Eq, PartialOrd, Ord)]
pub struct Station(pub u16);

/// A position in a round's order, counted from 0.
#[derive(Clone, Copy, Debug, PartialEq, Eq, PartialOrd, Ord)]
pub struct Position(pub u16);

/// The offset of a byte in a file.
#[derive(Clone, Copy, Debug, PartialEq, Eq, PartialOrd, Ord)]
pub struct Offset(pub usize);

/// What is wrong with a plan: a kind of the document's table, with its own place.
#[derive(Clone, Copy, Debug, PartialEq, Eq)]
pub enum FaultKind {
    /// A: a line's rank is above k.
    RankAbove(Place),
    /// B: the round's entries are not each station once.
    NotEachOnce(Position),
    /// C: a station's line to the earliest of its earlier neighbours in play lacks the round's rank.
    ParentLacking(Station),
    /// D: a station has a line of the round's rank to another earlier station.
    OtherParent(Station),
    /// E: a line in play has its ends in different trees.
    TreesApart(Place),
}

/// A fault, in its round; A has round 0.
#[derive(Clone, Copy, Debug, PartialEq, Eq)]
pub struct Fault {
    pub round: Round,
    pub kind: FaultKind,
}

/// What the check of forests finds: nothing wrong, or the first fault.
#[derive(Clone, Copy, Debug, PartialEq, Eq)]
pub enum Verdict {
    Accepted,
    Faulty(Fault),
}

/// The stations of a weak spot, the lower first.
#[derive(Clone, Copy, Debug, PartialEq, Eq)]
pub enum Spot {
    Empty,
    One(Station),
    Two(Station, Station),
}

/// A weak spot: without its stations, the lowest station left, `one`, is not joined to `two`, the lowest such.
#[derive(Clone, Copy, Debug, PartialEq, Eq)]
pub struct WeakSpot {
    pub spot: Spot,
    pub one: Station,
    pub two: Station,
}

/// Whether a network stands at a level.
#[derive(Clone, Copy, Debug, PartialEq, Eq)]
pub enum Standing {
    Stands,
    Weak(WeakSpot),
}

/// What reading a file found, beside the lines and starts that it wrote.
#[derive(Clone, Copy, Debug, PartialEq, Eq)]
pub struct Contents {
    pub stations: usize,
    pub level: usize,
    pub lines: usize,
    pub starts: usize,
}

/// Which line list a refusal speaks of: the only one, or the first or the second of a union.
#[derive(Clone, Copy, Debug, PartialEq, Eq)]
pub enum LineList {
    Only,
    First,
    Second,
}

/// Which of the two stations that were asked about.
#[derive(Clone, Copy, Debug, PartialEq, Eq)]
pub enum Asked {
    First,
    Second,
}

/// Why an input is refused, and where.
#[derive(Clone, Copy, Debug, PartialEq, Eq)]
pub enum Refusal {
    /// 1: n is not 1 to 1,024.
    StationCount,
    /// 2: the line list has an odd length or over 16,384 numbers.
    LineCount(LineList),
    /// 3: k is not 1 to 16.
    LevelRange,
    /// 4: the number of starting stations is not k.
    StartCount,
    /// 5: a lent buffer is shorter than needed.
    Room,
    /// 6: a line end is n or more.
    EndOutside(LineList, Place),
    /// 7: a line's ends are equal.
    EndsEqual(LineList, Place),
    /// 8: the same two ends, either way round, stood earlier.
    StoodEarlier(LineList, Place),
    /// 9: a starting station is n or more.
    StartOutside(Round),
    /// 10: the taken-away list is not strictly rising, or has a number n or more.
    TakenAway(Position),
    /// 11: an asked station is n or more, or taken away.
    AskedStation(Asked),
    /// 12: the level of a search for a weak spot is not 1 to 3.
    WeakLevel,
    /// 13: the union has over 8,192 lines.
    UnionCount,
    /// 20: the bytes are not a mark that is allowed here.
    Mark(Offset),
    /// 21: the file ends inside a record or before EN.
    FileEnds(Offset),
    /// 22: EN's count is not the number of LN records.
    EndCount(Offset),
    /// 23: bytes follow EN.
    BytesFollow(Offset),
    /// 2 of a file: the 8,193rd LN record.
    FileLineCount(Offset),
    /// 4 of a file: the 17th RT record.
    FileStartCount(Offset),
}

impl Refusal {
    /// The number of the document's row.
    pub fn number(self) -> u8 {
        match self {
            Refusal::StationCount => 1,
            Refusal::LineCount(_) | Refusal::FileLineCount(_) => 2,
            Refusal::LevelRange => 3,
            Refusal::StartCount | Refusal::FileStartCount(_) => 4,
            Refusal::Room => 5,
            Refusal::EndOutside(..) => 6,
            Refusal::EndsEqual(..) => 7,
            Refusal::StoodEarlier(..) => 8,
            Refusal::StartOutside(_) => 9,
            Refusal::TakenAway(_) => 10,
            Refusal::AskedStation(_) => 11,
            Refusal::WeakLevel => 12,
            Refusal::UnionCount => 13,
            Refusal::Mark(_) => 20,
            Refusal::FileEnds(_) => 21,
            Refusal::EndCount(_) => 22,
            Refusal::BytesFollow(_) => 23,
        }
    }

    /// The place that the document gives with the number: a line's place, a round, an index or an offset, else 0.
    pub fn place(self) -> usize {
        match self {
            Refusal::EndOutside(_, Place(place)) | Refusal::EndsEqual(_, Place(place)) | Refusal::StoodEarlier(_, Place(place)) => place.into(),
            Refusal::StartOutside(Round(round)) => round.into(),
            Refusal::TakenAway(Position(position)) => position.into(),
            Refusal::AskedStation(Asked::Second) => 1,
            Refusal::Mark(Offset(offset))
            | Refusal::FileEnds(Offset(offset))
            | Refusal::EndCount(Offset(offset))
            | Refusal::BytesFollow(Offset(offset))
            | Refusal::FileLineCount(Offset(offset))
            | Refusal::FileStartCount(Offset(offset)) => offset,
            _ => 0,
        }
    }

    /// The number of the list that the refusal speaks of: 1 or 2 of a union, 3 for the records of a file, else 0.
    pub fn list(self) -> u8 {
        match self {
            Refusal::LineCount(list) | Refusal::EndOutside(list, _) | Refusal::EndsEqual(list, _) | Refusal::StoodEarlier(list, _) => list as u8,
            Refusal::Mark(_)
            | Refusal::FileEnds(_)
            | Refusal::EndCount(_)
            | Refusal::BytesFollow(_)
            | Refusal::FileLineCount(_)
            | Refusal::FileStartCount(_) => 3,
            _ => 0,
        }
    }
}
