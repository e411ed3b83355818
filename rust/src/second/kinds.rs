//! The kinds of numbers, and the answers.

/// The number of a station, 0 to n − 1 where the network has it.
#[derive(Clone, Copy, Debug, PartialEq, Eq, PartialOrd, Ord, Hash)]
pub struct Station(pub u16);

impl Station {
    /// Where a table by stations holds this one.
    pub fn index(self) -> usize {
        usize::from(self.0)
    }
}

/// The place of a line in its list, counted from 0.
#[derive(Clone, Copy, Debug, PartialEq, Eq)]
pub struct Place(pub usize);

/// The number of a round, 1 to k; a fault of no round has 0.
#[derive(Clone, Copy, Debug, PartialEq, Eq)]
pub struct Round(pub u8);

/// A position in a round's order, counted from 0.
#[derive(Clone, Copy, Debug, PartialEq, Eq)]
pub struct Position(pub usize);

/// Why a call is refused: the number of the document's row and the place.
#[derive(Clone, Copy, Debug, PartialEq, Eq)]
pub struct Refusal {
    pub number: u8,
    pub place: usize,
    /// 1 or 2 for a list of a union, 3 for the records of a file, else 0.
    pub list: u8,
}

impl Refusal {
    /// The refusal of a row that names no place.
    pub fn of(number: u8) -> Refusal {
        Refusal::at(number, 0)
    }

    /// The refusal of a row that names a place.
    pub fn at(number: u8, place: usize) -> Refusal {
        Refusal { number, place, list: 0 }
    }

    /// The same refusal, speaking of a list.
    pub fn in_list(self, list: u8) -> Refusal {
        Refusal { list, ..self }
    }
}

/// Refuses unless the condition holds.
pub fn require(holds: bool, refusal: Refusal) -> Result<(), Refusal> {
    if holds {
        Ok(())
    } else {
        Err(refusal)
    }
}

/// What the check of forests says of a plan that is not refused.
#[derive(Clone, Copy, Debug, PartialEq, Eq)]
pub enum Verdict {
    Accepted,
    Faulty(Fault),
}

/// The first fault of a plan.
#[derive(Clone, Copy, Debug, PartialEq, Eq)]
pub struct Fault {
    pub round: Round,
    pub kind: FaultKind,
}

/// The kinds of faults, each with its own place.
#[derive(Clone, Copy, Debug, PartialEq, Eq)]
pub enum FaultKind {
    /// The rank of a line is above k.
    A(Place),
    /// The entry is no station, or stood before in the round.
    B(Position),
    /// The station's line to its earliest earlier neighbour lacks the round's rank.
    C(Station),
    /// The station has a line of the round's rank to another earlier station.
    D(Station),
    /// The line is in play and has its ends in different trees.
    E(Place),
}

/// Whether a network stands at a level.
#[derive(Clone, Debug, PartialEq, Eq)]
pub enum Standing {
    Stands,
    Weak(WeakSpot),
}

/// Stations whose loss leaves a and b not joined.
#[derive(Clone, Debug, PartialEq, Eq)]
pub struct WeakSpot {
    pub away: Vec<Station>,
    /// The lowest remaining station.
    pub a: Station,
    /// The lowest remaining station not joined to a.
    pub b: Station,
}

/// What reading a file hands back beside the lines and the starts.
#[derive(Clone, Copy, Debug, PartialEq, Eq)]
pub struct Contents {
    pub n: usize,
    pub level: usize,
    pub lines: usize,
    pub starts: usize,
}
