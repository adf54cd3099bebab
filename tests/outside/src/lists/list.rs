//! A list of calls as a value, and its text, which can be pasted into a test.

use std::fmt;

use inputs::{ReplicaId, Room};

/// The knowledge that a make is given.
#[derive(Clone, Debug, PartialEq, Eq)]
pub enum Given {
    Nothing,
    /// That of a replica so many of its stores ago, or of its first one.
    Of(usize, usize),
    /// What a batch has learned.
    Learned(usize),
    Bytes(Vec<u8>),
}

/// A call on a replica, which is named by its place in the list of replicas. Batches are named by numbers. A call that names a batch that was not
/// made is left out.
#[derive(Clone, Debug, PartialEq, Eq)]
pub enum Call {
    Edit { replica: usize, item: Vec<u8>, tag: Vec<u8>, room: Room },
    Delete { replica: usize, item: Vec<u8>, room: Room },
    Make { replica: usize, batch: usize, given: Given, first: Vec<u8>, last: Vec<u8>, room: Room },
    Apply { replica: usize, batch: usize, room: Room },
}

impl Call {
    /// The replica that it is on.
    pub fn replica(&self) -> usize {
        let (Self::Edit { replica, .. }
        | Self::Delete { replica, .. }
        | Self::Make { replica, .. }
        | Self::Apply { replica, .. }) = self;
        *replica
    }
}

/// A server of a round beside the centre, with the names of the batch that it makes for the centre and of the one that it is sent.
#[derive(Clone, Copy, Debug, PartialEq, Eq)]
pub struct District {
    pub replica: usize,
    pub up: usize,
    pub down: usize,
}

/// A round through a centre, after the calls of a list.
#[derive(Clone, Debug, PartialEq, Eq)]
pub struct Round {
    pub centre: usize,
    pub districts: Vec<District>,
    pub calls: Vec<Call>,
    /// So many of the calls are its first half, in which the centre applies what the districts send. In the others it sends.
    pub gather: usize,
}

/// Replicas and calls, and the round that comes after them. A replica starts with a new store, or with one that knows a tick of its own replica for
/// all items and has no records.
#[derive(Clone, Debug, PartialEq, Eq)]
pub struct List {
    pub replicas: Vec<(ReplicaId, u64)>,
    pub calls: Vec<Call>,
    pub round: Option<Round>,
}

/// The bytes that a row of hexadecimal digits says.
fn bytes(hex: &str) -> Vec<u8> {
    let digit = |byte: &u8| char::from(*byte).to_digit(16).expect("a hexadecimal digit") as u8;
    hex.as_bytes().chunks(2).map(|pair| pair.iter().fold(0, |byte, half| 16 * byte + digit(half))).collect()
}

struct Hex<'a>(&'a [u8]);

impl fmt::Display for Hex<'_> {
    fn fmt(&self, f: &mut fmt::Formatter) -> fmt::Result {
        write!(f, "\"")?;
        self.0.iter().try_for_each(|byte| write!(f, "{byte:02x}"))?;
        write!(f, "\"")
    }
}

impl Given {
    pub fn bytes(hex: &str) -> Self {
        Self::Bytes(bytes(hex))
    }
}

impl List {
    /// A list without calls on replicas with these ids and start ticks.
    pub fn new(replicas: &[(&str, u64)]) -> Self {
        let replica = |(id, tick): &(&str, u64)| (bytes(id).try_into().expect("16 bytes"), *tick);
        Self { replicas: replicas.iter().map(replica).collect(), calls: Vec::new(), round: None }
    }

    /// The same with a round, in which are all calls that follow: its centre, and each district with the names of its two batches.
    pub fn round(mut self, centre: usize, districts: &[(usize, usize, usize)]) -> Self {
        let districts =
            districts.iter().map(|(replica, up, down)| District { replica: *replica, up: *up, down: *down });
        self.round = Some(Round { centre, districts: districts.collect(), calls: Vec::new(), gather: 0 });
        self
    }

    /// The same, where all calls that follow are in the second half of the round.
    pub fn spread(mut self) -> Self {
        let round = self.round.as_mut().expect("a round");
        round.gather = round.calls.len();
        self
    }

    fn with(mut self, call: Call) -> Self {
        self.round.as_mut().map_or(&mut self.calls, |round| &mut round.calls).push(call);
        self
    }

    /// All calls, those of the round last.
    pub fn all_calls(&self) -> impl Iterator<Item = &Call> {
        self.calls.iter().chain(self.round.iter().flat_map(|round| &round.calls))
    }

    pub fn all_calls_mut(&mut self) -> impl Iterator<Item = &mut Call> {
        self.calls.iter_mut().chain(self.round.iter_mut().flat_map(|round| &mut round.calls))
    }

    pub fn edit(self, replica: usize, item: &str, tag: &str, room: Room) -> Self {
        self.with(Call::Edit { replica, item: bytes(item), tag: bytes(tag), room })
    }

    pub fn delete(self, replica: usize, item: &str, room: Room) -> Self {
        self.with(Call::Delete { replica, item: bytes(item), room })
    }

    pub fn make(self, replica: usize, batch: usize, given: Given, first: &str, last: &str, room: Room) -> Self {
        self.with(Call::Make { replica, batch, given, first: bytes(first), last: bytes(last), room })
    }

    pub fn apply(self, replica: usize, batch: usize, room: Room) -> Self {
        self.with(Call::Apply { replica, batch, room })
    }
}

impl fmt::Display for List {
    fn fmt(&self, f: &mut fmt::Formatter) -> fmt::Result {
        write!(f, "List::new(&[")?;
        for (place, (id, tick)) in self.replicas.iter().enumerate() {
            let comma = if place == 0 { "" } else { ", " };
            write!(f, "{comma}({}, {tick})", Hex(id))?;
        }
        write!(f, "])")?;
        self.calls.iter().try_for_each(|call| write!(f, "\n    .{call}"))?;
        self.round.iter().try_for_each(|round| write!(f, "{round}"))
    }
}

impl fmt::Display for Round {
    fn fmt(&self, f: &mut fmt::Formatter) -> fmt::Result {
        write!(f, "\n    .round({}, &[", self.centre)?;
        for (place, District { replica, up, down }) in self.districts.iter().enumerate() {
            let comma = if place == 0 { "" } else { ", " };
            write!(f, "{comma}({replica}, {up}, {down})")?;
        }
        write!(f, "])")?;
        let (gather, spread) = self.calls.split_at(self.gather);
        gather.iter().try_for_each(|call| write!(f, "\n    .{call}"))?;
        write!(f, "\n    .spread()")?;
        spread.iter().try_for_each(|call| write!(f, "\n    .{call}"))
    }
}

impl fmt::Display for Call {
    fn fmt(&self, f: &mut fmt::Formatter) -> fmt::Result {
        match self {
            Self::Edit { replica, item, tag, room } => {
                write!(f, "edit({replica}, {}, {}, Room::{room:?})", Hex(item), Hex(tag))
            }
            Self::Delete { replica, item, room } => write!(f, "delete({replica}, {}, Room::{room:?})", Hex(item)),
            Self::Make { replica, batch, given, first, last, room } => {
                write!(f, "make({replica}, {batch}, {given}, {}, {}, Room::{room:?})", Hex(first), Hex(last))
            }
            Self::Apply { replica, batch, room } => write!(f, "apply({replica}, {batch}, Room::{room:?})"),
        }
    }
}

impl fmt::Display for Given {
    fn fmt(&self, f: &mut fmt::Formatter) -> fmt::Result {
        match self {
            Self::Nothing => write!(f, "Given::Nothing"),
            Self::Of(replica, ago) => write!(f, "Given::Of({replica}, {ago})"),
            Self::Learned(batch) => write!(f, "Given::Learned({batch})"),
            Self::Bytes(bytes) => write!(f, "Given::bytes({})", Hex(bytes)),
        }
    }
}
