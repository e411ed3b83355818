//! The programs that are compared, and what each routine of one makes of a case.

use crate::case::Case;
use tapuhzel::second::kinds::{Contents, Fault, FaultKind, Place, Position, Refusal, Round, Standing, Station, Verdict, WeakSpot};

pub type Judge = fn(usize, &[u16]) -> Result<(), Refusal>;
pub type Prune = fn(usize, usize, &[u16], &[u16], &mut [u8], &mut [u16]) -> Result<usize, Refusal>;
pub type Check = fn(usize, usize, &[u16], &[u8], &[u16]) -> Result<Verdict, Refusal>;
pub type Copy = fn(&[u16], &[u8], &mut [u16]) -> Result<usize, Refusal>;
pub type Unite = fn(usize, &[u16], &[u16], &mut [u16]) -> Result<usize, Refusal>;
pub type Joined = fn(usize, &[u16], &[u16], Station, Station) -> Result<bool, Refusal>;
pub type Weak = fn(usize, usize, &[u16]) -> Result<Standing, Refusal>;
pub type Read = fn(&[u8], &mut [u16], &mut [u16]) -> Result<Contents, Refusal>;
pub type Write = fn(usize, usize, &[u16], &[u16], &mut [u8]) -> Result<usize, Refusal>;
pub type Text = fn(&[u8]) -> String;

/// A program by its routines.
pub struct Program {
    pub judge: Judge,
    pub prune: Prune,
    pub check: Check,
    pub copy: Copy,
    pub unite: Unite,
    pub joined: Joined,
    pub weak: Weak,
    pub read: Read,
    pub write: Write,
    pub keep_text: Text,
    pub weak_text: Text,
}

/// The program whose modules stand in a module, laid out as the second program is.
macro_rules! program {
    ($($part:ident)::+) => {
        Program {
            judge: $($part::)+judge::judge,
            prune: $($part::)+prune::prune,
            check: $($part::)+check::check,
            copy: $($part::)+copy::copy,
            unite: $($part::)+unite::unite,
            joined: $($part::)+joined::joined,
            weak: $($part::)+weak::weak,
            read: $($part::)+file::read,
            write: $($part::)+file::write,
            keep_text: $($part::)+text::keep_text,
            weak_text: $($part::)+text::weak_text,
        }
    };
}
pub(crate) use program;

/// The second program.
pub fn second() -> Program {
    program!(tapuhzel::second)
}

/// The proved program.
pub fn proved() -> Program {
    Program {
        judge: |n, lines| tapuhzel::judge(n, lines).map_err(numbers),
        prune: |n, level, lines, starts, ranks, orders| {
            tapuhzel::prune(n, level, lines, starts, ranks, orders).map_err(numbers)
        },
        check: |n, level, lines, ranks, orders| tapuhzel::check(n, level, lines, ranks, orders).map(verdict).map_err(numbers),
        copy: |lines, ranks, room| tapuhzel::copy(lines, ranks, room).map_err(numbers),
        unite: |n, first, second, room| tapuhzel::unite(n, first, second, room).map_err(numbers),
        joined: |n, lines, away, a, b| {
            tapuhzel::joined(n, lines, away, tapuhzel::Station(a.0), tapuhzel::Station(b.0)).map_err(numbers)
        },
        weak: |n, level, lines| tapuhzel::weak(n, level, lines).map(standing).map_err(numbers),
        read: |bytes, lines, starts| tapuhzel::read(bytes, lines, starts).map(contents).map_err(numbers),
        write: |n, level, lines, starts, bytes| tapuhzel::write(n, level, lines, starts, bytes).map_err(numbers),
        keep_text: tapuhzel::keep_text,
        weak_text: tapuhzel::weak_text,
    }
}

/// A verdict of the proved program, as the second program writes one.
fn verdict(verdict: tapuhzel::Verdict) -> Verdict {
    let tapuhzel::Verdict::Faulty(fault) = verdict else {
        return Verdict::Accepted;
    };
    let kind = match fault.kind {
        tapuhzel::FaultKind::RankAbove(place) => FaultKind::A(Place(place.0.into())),
        tapuhzel::FaultKind::NotEachOnce(position) => FaultKind::B(Position(position.0.into())),
        tapuhzel::FaultKind::ParentLacking(station) => FaultKind::C(Station(station.0)),
        tapuhzel::FaultKind::OtherParent(station) => FaultKind::D(Station(station.0)),
        tapuhzel::FaultKind::TreesApart(place) => FaultKind::E(Place(place.0.into())),
    };
    Verdict::Faulty(Fault { round: Round(fault.round.0), kind })
}

/// A standing of the proved program, as the second program writes one.
fn standing(standing: tapuhzel::Standing) -> Standing {
    let tapuhzel::Standing::Weak(found) = standing else {
        return Standing::Stands;
    };
    let station = |station: tapuhzel::Station| Station(station.0);
    let away = match found.spot {
        tapuhzel::Spot::Empty => vec![],
        tapuhzel::Spot::One(first) => vec![station(first)],
        tapuhzel::Spot::Two(first, second) => vec![station(first), station(second)],
    };
    Standing::Weak(WeakSpot { away, a: station(found.one), b: station(found.two) })
}

/// What the proved program found in a file, as the second program writes it.
fn contents(found: tapuhzel::Contents) -> Contents {
    Contents { n: found.stations, level: found.level, lines: found.lines, starts: found.starts }
}

/// A refusal of the proved program by its numbers.
fn numbers(refusal: tapuhzel::Refusal) -> Refusal {
    Refusal::at(refusal.number(), refusal.place()).in_list(refusal.list())
}

/// What a call answered, and what it left in the buffers that it may write to.
#[derive(Debug, PartialEq)]
pub struct Outcome {
    pub answer: Result<Answer, Refusal>,
    pub buffers: Vec<Buffer>,
}

#[derive(Debug, PartialEq)]
pub enum Answer {
    Taken,
    Count(usize),
    Verdict(Verdict),
    Joined(bool),
    Standing(Standing),
    Contents(Contents),
    Text(String),
}

/// A routine by its name, and what a program makes of a case by it.
pub struct Routine {
    pub name: &'static str,
    pub outcome: fn(&Program, &Case) -> Outcome,
}

/// Every routine that can be compared.
pub const ROUTINES: [Routine; 11] = [
    Routine { name: "judge", outcome: |program, case| judged(program.judge, case) },
    Routine { name: "prune", outcome: |program, case| pruned(program.prune, case) },
    Routine { name: "check", outcome: |program, case| checked(program.check, case) },
    Routine { name: "copy", outcome: |program, case| copied(program.copy, case) },
    Routine { name: "unite", outcome: |program, case| united(program.unite, case) },
    Routine { name: "joined", outcome: |program, case| asked(program.joined, case) },
    Routine { name: "weak", outcome: |program, case| searched(program.weak, case) },
    Routine { name: "read", outcome: |program, case| read_file(program.read, case) },
    Routine { name: "write", outcome: |program, case| written(program.write, case) },
    Routine { name: "keep_text", outcome: |program, case| text_of(program.keep_text, case) },
    Routine { name: "weak_text", outcome: |program, case| text_of(program.weak_text, case) },
];

fn judged(judge: Judge, case: &Case) -> Outcome {
    outcome(judge(case.n, &case.lines).map(|()| Answer::Taken), [])
}

fn pruned(prune: Prune, case: &Case) -> Outcome {
    let mut ranks = Lent::<u8>::new(case.lines.len() / 2, case.spare.ranks);
    let mut orders = Lent::<u16>::new(case.level.saturating_mul(case.n), case.spare.orders);
    let kept = prune(case.n, case.level, &case.lines, &case.starts, ranks.room(), orders.room());
    outcome(kept.map(Answer::Count), [ranks.buffer(), orders.buffer()])
}

fn checked(check: Check, case: &Case) -> Outcome {
    let verdict = check(case.n, case.level, &case.lines, &case.plan.ranks, &case.plan.orders);
    outcome(verdict.map(Answer::Verdict), [])
}

fn copied(copy: Copy, case: &Case) -> Outcome {
    let kept = case.plan.ranks.iter().take(case.lines.len() / 2).filter(|&&rank| rank != 0).count();
    let mut room = Lent::<u16>::new(2 * kept, case.spare.kept);
    let count = copy(&case.lines, &case.plan.ranks, room.room());
    outcome(count.map(Answer::Count), [room.buffer()])
}

fn united(unite: Unite, case: &Case) -> Outcome {
    let mut room = Lent::<u16>::new(union_length(case), case.spare.union);
    let count = unite(case.n, &case.lines, &case.second, room.room());
    outcome(count.map(Answer::Count), [room.buffer()])
}

/// How many numbers the union of a case's lists has, where they are sound.
fn union_length(case: &Case) -> usize {
    let both = case.lines.chunks_exact(2).chain(case.second.chunks_exact(2));
    let pairs: std::collections::HashSet<_> = both.map(|ends| (ends[0].min(ends[1]), ends[0].max(ends[1]))).collect();
    2 * pairs.len()
}

fn asked(joined: Joined, case: &Case) -> Outcome {
    let answer = joined(case.n, &case.lines, &case.away, Station(case.a), Station(case.b));
    outcome(answer.map(Answer::Joined), [])
}

fn searched(weak: Weak, case: &Case) -> Outcome {
    outcome(weak(case.n, case.level, &case.lines).map(Answer::Standing), [])
}

fn read_file(read: Read, case: &Case) -> Outcome {
    let mut lines = Lent::<u16>::new(16_384, case.spare.lines);
    let mut starts = Lent::<u16>::new(16, case.spare.starts);
    let contents = read(&case.file, lines.room(), starts.room());
    if let Ok(found) = contents {
        lines.needed = 2 * found.lines;
        starts.needed = found.starts;
    }
    outcome(contents.map(Answer::Contents), [lines.buffer(), starts.buffer()])
}

fn written(write: Write, case: &Case) -> Outcome {
    let needed = 10 + 6 * (case.lines.len() / 2) + 4 * case.starts.len();
    let mut bytes = Lent::<u8>::new(needed, case.spare.bytes);
    let count = write(case.n, case.level, &case.lines, &case.starts, bytes.room());
    outcome(count.map(Answer::Count), [bytes.buffer()])
}

fn text_of(text: Text, case: &Case) -> Outcome {
    outcome(Ok(Answer::Text(text(&case.file))), [])
}

fn outcome<const N: usize>(answer: Result<Answer, Refusal>, buffers: [Buffer; N]) -> Outcome {
    Outcome { answer, buffers: buffers.into() }
}

/// A buffer's length that is needed, and what it holds after a call: what was lent, and a few places past it.
#[derive(Debug, PartialEq)]
pub struct Buffer {
    pub needed: usize,
    pub after: Vec<u16>,
}

impl Buffer {
    /// Whether every place from this one on is as it was before the call.
    pub fn untouched_from(&self, first: usize) -> bool {
        self.after.iter().enumerate().skip(first).all(|(place, &number)| number == canary(place).into())
    }
}

/// What a place of a buffer holds before a call.
fn canary(place: usize) -> u8 {
    (place as u8).wrapping_mul(31) ^ 0xa5
}

/// A buffer to be lent.
struct Lent<T> {
    needed: usize,
    length: usize,
    numbers: Vec<T>,
}

/// Past what is lent stand some places that no call may touch.
const PAST: usize = 8;

/// No network needs a longer buffer, so that a level of any size asks for no more.
const LONGEST: usize = 50_000;

impl<T: From<u8> + Into<u16>> Lent<T> {
    fn new(needed: usize, spare: isize) -> Lent<T> {
        let length = needed.min(LONGEST).saturating_add_signed(spare);
        Lent { needed, length, numbers: (0..length + PAST).map(|place| canary(place).into()).collect() }
    }

    fn room(&mut self) -> &mut [T] {
        &mut self.numbers[..self.length]
    }

    fn buffer(self) -> Buffer {
        Buffer { needed: self.needed, after: self.numbers.into_iter().map(T::into).collect() }
    }
}
