//! The same report as the program `full_annual`, in plain Rust and with no proofs: what to measure against.
//!
//! Reads a packed history of up to 805 bytes from standard input and prints the report on it. The search is the one
//! that crate `search` has, written for speed alone: a node's relation grows from its parent's, rows of bits go both
//! ways, and a trail takes changes back.

use std::convert::Infallible;
use std::fmt::Write as _;
use std::io::{self, Read, Write as _};
use std::ops::{Index, IndexMut};

/// The longest packed history has 804 bytes; one more shows that the input is longer.
const MOST_BYTES: u64 = 805;
const MOST_EVENTS: usize = 256;
/// How many pairs the largest order of events has: each change of a row adds one.
const MOST_PAIRS: usize = MOST_EVENTS * (MOST_EVENTS - 1) / 2;
const MOST_STEPS: u32 = 1_000_000;

fn main() -> io::Result<()> {
    let mut bytes = Vec::new();
    io::stdin().take(MOST_BYTES).read_to_end(&mut bytes)?;
    io::stdout().write_all(report(&bytes).as_bytes())
}

/// The whole report, or the one line that tells of the fault.
fn report(bytes: &[u8]) -> String {
    match judged(bytes) {
        Ok(text) => text,
        Err(Fault { layer, number, place }) => format!("fault {layer} {number} place {place}\n"),
    }
}

fn judged(bytes: &[u8]) -> Result<String, Fault> {
    let (season, events) = read(bytes)?;
    check(&events)?;
    let mut search = Search::new(&events);
    let verdict = search.run();
    let (word, steps) = match verdict {
        Verdict::Serial(steps) => ("serial", steps),
        Verdict::None(steps) => ("none", steps),
        Verdict::Spent => ("spent", MOST_STEPS),
    };
    let mut text = format!("season {season} events {}\nverdict {word} steps {steps}\n", events.len());
    if let Verdict::Serial(_) = verdict {
        text.push_str("order");
        for event in search.relation.order() {
            let _ = write!(text, " {}", u32::from(event) + 1);
        }
        text.push('\n');
    }
    Ok(text)
}

// The packed file.

struct Fault {
    layer: &'static str,
    number: u8,
    place: usize,
}

fn file_fault(number: u8, place: usize) -> Fault {
    Fault { layer: "file", number, place }
}

#[derive(Clone, Copy)]
struct Event {
    write: bool,
    session: u8,
    star: u8,
    revision: u16,
}

/// The number that `width` bits write, from `bit` on, the most significant first.
fn field(bytes: &[u8], bit: usize, width: usize) -> u16 {
    (bit..bit + width).fold(0, |value, i| value << 1 | u16::from(bytes[i / 8] >> (7 - i % 8) & 1))
}

/// Season and events of packed bytes.
fn read(bytes: &[u8]) -> Result<(u16, Vec<Event>), Fault> {
    if bytes.len() < 4 {
        return Err(file_fault(1, bytes.len()));
    }
    if field(bytes, 0, 4) != 1 {
        return Err(file_fault(2, 0));
    }
    let count = field(bytes, 16, 9) as usize;
    if count > MOST_EVENTS {
        return Err(file_fault(3, 16));
    }
    let used = 25 * (count + 1);
    if bytes.len() != used.div_ceil(8) {
        return Err(file_fault(4, bytes.len()));
    }
    if let Some(bit) = (used..8 * bytes.len()).find(|&bit| field(bytes, bit, 1) == 1) {
        return Err(file_fault(5, bit));
    }
    let event = |number: usize| {
        let at = 25 * number;
        Event {
            write: field(bytes, at, 1) == 1,
            session: field(bytes, at + 1, 4) as u8,
            star: field(bytes, at + 5, 6) as u8,
            revision: field(bytes, at + 11, 14),
        }
    };
    Ok((field(bytes, 4, 12), (1..=count).map(event).collect()))
}

/// What opening a case refuses; the fields of a packed event are always within the limits.
fn check(events: &[Event]) -> Result<(), Fault> {
    let same = |a: &Event, b: &Event| a.star == b.star && a.revision == b.revision;
    let written = |e: &Event, among: &[Event]| among.iter().any(|w| w.write && same(w, e));
    let refuse = |number, found: Option<usize>| match found {
        Some(i) => Err(Fault { layer: "history", number, place: i + 1 }),
        None => Ok(()),
    };
    refuse(13, events.iter().position(|e| e.write && e.revision == 0))?;
    refuse(14, (0..events.len()).find(|&i| events[i].write && written(&events[i], &events[..i])))?;
    refuse(15, events.iter().position(|e| !e.write && e.revision != 0 && !written(e, events)))
}

// Sets of events.

/// A bit for each event.
type Words = [u64; MOST_EVENTS / 64];

/// Events by number, from 0. The number of an event is a byte here and below, which is never out of bounds.
#[derive(Clone, Copy)]
struct Set(Words);

impl Set {
    #[inline(always)]
    fn has(&self, x: u8) -> bool {
        self.0[usize::from(x / 64)] >> (x % 64) & 1 == 1
    }

    #[inline(always)]
    fn add(&mut self, x: u8) {
        self.0[usize::from(x / 64)] |= 1 << (x % 64);
    }

    #[inline(always)]
    fn is_empty(self) -> bool {
        self.0.iter().fold(0, |all, word| all | word) == 0
    }

    #[inline(always)]
    fn zip(self, other: Set, f: impl Fn(u64, u64) -> u64) -> Set {
        Set(std::array::from_fn(|i| f(self.0[i], other.0[i])))
    }

    #[inline(always)]
    fn and(self, other: Set) -> Set {
        self.zip(other, |a, b| a & b)
    }

    #[inline(always)]
    fn or(self, other: Set) -> Set {
        self.zip(other, |a, b| a | b)
    }

    #[inline(always)]
    fn minus(self, other: Set) -> Set {
        self.zip(other, |a, b| a & !b)
    }

    /// The lowest event.
    #[inline(always)]
    fn first(self) -> Option<u8> {
        let (i, word) = self.0.iter().enumerate().find(|(_, word)| **word != 0)?;
        Some((64 * i) as u8 + word.trailing_zeros() as u8)
    }

    /// Takes the lowest event out.
    #[inline(always)]
    fn pop(&mut self) -> Option<u8> {
        let x = self.first()?;
        self.0[usize::from(x / 64)] &= !(1 << (x % 64));
        Some(x)
    }

    /// Does something with each event, from the lowest up, as long as that goes well.
    #[inline(always)]
    fn try_each<E>(self, mut act: impl FnMut(u8) -> Result<(), E>) -> Result<(), E> {
        for (i, mut word) in self.0.into_iter().enumerate() {
            while word != 0 {
                act((64 * i) as u8 + word.trailing_zeros() as u8)?;
                word &= word - 1;
            }
        }
        Ok(())
    }

    /// Does something with each event, from the lowest up.
    #[inline(always)]
    fn each(self, mut act: impl FnMut(u8)) {
        let Ok(()) = self.try_each(|x| Ok::<(), Infallible>(act(x)));
    }
}

/// Something for each event.
struct List<T>([T; MOST_EVENTS]);

impl<T> Index<u8> for List<T> {
    type Output = T;

    #[inline(always)]
    fn index(&self, x: u8) -> &T {
        &self.0[usize::from(x)]
    }
}

impl<T> IndexMut<u8> for List<T> {
    #[inline(always)]
    fn index_mut(&mut self, x: u8) -> &mut T {
        &mut self.0[usize::from(x)]
    }
}

const NO_SET: Set = Set([0; MOST_EVENTS / 64]);
const NO_SETS: List<Set> = List([NO_SET; MOST_EVENTS]);

// What the rules look at.

struct Facts {
    writes: Set,
    /// The other writes of a write's star, and those of them with a higher number.
    mates: List<Set>,
    higher: List<Set>,
    /// The reads that take from a write.
    takers: List<Set>,
    /// The reads of a write's star that take from another write.
    others: List<Set>,
    /// The write that a read takes from.
    from: List<u8>,
}

/// The events with their numbers.
fn numbered(events: &[Event]) -> impl DoubleEndedIterator<Item = (u8, &Event)> + ExactSizeIterator {
    events.iter().enumerate().map(|(x, event)| (x as u8, event))
}

impl Facts {
    fn of(events: &[Event]) -> Facts {
        let mut facts = Facts {
            writes: NO_SET,
            mates: NO_SETS,
            higher: NO_SETS,
            takers: NO_SETS,
            others: NO_SETS,
            from: List([0; MOST_EVENTS]),
        };
        for (w, write) in numbered(events).filter(|(_, e)| e.write) {
            facts.writes.add(w);
            for (x, event) in numbered(events).filter(|&(x, e)| x != w && e.star == write.star) {
                if event.write {
                    facts.mates[w].add(x);
                    if w < x {
                        facts.higher[w].add(x);
                    }
                } else if event.revision == write.revision {
                    facts.takers[w].add(x);
                    facts.from[x] = w;
                } else if event.revision != 0 {
                    facts.others[w].add(x);
                }
            }
        }
        facts
    }
}

// The relation.

/// A row of events for each event, its own number among them, and a trail that takes changes back.
struct Table {
    rows: List<Set>,
    /// How many changes there are to take back.
    changes: usize,
    /// For each change, which row it was and what it held before. (Plain words, so that the system hands out zeros.)
    at: Vec<u8>,
    old: Vec<Words>,
}

impl Table {
    fn new() -> Table {
        let mut rows = NO_SETS;
        (0..=u8::MAX).for_each(|x| rows[x].add(x));
        Table { rows, changes: 0, at: vec![0; MOST_PAIRS], old: vec![Words::default(); MOST_PAIRS] }
    }

    /// Adds events to some of the rows.
    #[inline(always)]
    fn widen(&mut self, which: Set, by: Set) {
        let mut changes = self.changes;
        which.each(|x| {
            let row = &mut self.rows[x];
            self.at[changes] = x;
            self.old[changes] = row.0;
            changes += 1;
            *row = row.or(by);
        });
        self.changes = changes;
    }

    /// Takes back all but so many changes.
    #[inline(always)]
    fn undo_to(&mut self, changes: usize) {
        let at = &self.at[changes..self.changes];
        let old = &self.old[changes..self.changes];
        for (&x, &row) in at.iter().zip(old).rev() {
            self.rows[x] = Set(row);
        }
        self.changes = changes;
    }
}

impl Index<u8> for Table {
    type Output = Set;

    #[inline(always)]
    fn index(&self, x: u8) -> &Set {
        &self.rows[x]
    }
}

/// An order of events, closed under chains.
struct Relation {
    count: usize,
    after: Table,
    before: Table,
    /// The writes whose successors have changed since they were looked at.
    dirty: Set,
}

/// Two events that would each be before the other.
struct Clash;

impl Relation {
    fn new(count: usize) -> Relation {
        Relation { count, after: Table::new(), before: Table::new(), dirty: NO_SET }
    }

    /// Puts `u` before another event `v`, with all that follows by chains.
    #[inline(always)]
    fn link(&mut self, facts: &Facts, u: u8, v: u8) -> Result<(), Clash> {
        if self.after[u].has(v) {
            Ok(())
        } else {
            self.link_new(facts, u, v)
        }
    }

    /// The same where `u` is not before `v` yet.
    #[inline(always)]
    fn link_new(&mut self, facts: &Facts, u: u8, v: u8) -> Result<(), Clash> {
        if self.after[v].has(u) {
            return Err(Clash);
        }
        self.join(facts, u, v);
        Ok(())
    }

    /// Puts `u` and all before it before `v` and all after it.
    fn join(&mut self, facts: &Facts, u: u8, v: u8) {
        let above = self.before[u];
        let below = self.after[v];
        let heads = above.minus(self.before[v]);
        let tails = below.minus(self.after[u]);
        self.dirty = self.dirty.or(heads.and(facts.writes));
        self.after.widen(heads, below);
        self.before.widen(tails, above);
    }

    /// Follows the two rules with a premise until nothing is left to do: a write is before the source of each read
    /// after it, and a read is before each write after its source.
    fn saturate(&mut self, facts: &Facts) -> Result<(), Clash> {
        while let Some(w) = self.dirty.pop() {
            let reads = self.after[w].and(facts.others[w]);
            reads.try_each(|r| self.link(facts, w, facts.from[r]))?;
            let later = self.after[w].and(facts.mates[w]);
            facts.takers[w].try_each(|r| {
                while let Some(q) = later.minus(self.after[r]).first() {
                    self.link_new(facts, r, q)?;
                }
                Ok(())
            })?;
        }
        Ok(())
    }

    /// The relation of a history with nothing chosen.
    fn root(&mut self, events: &[Event], facts: &Facts) -> Result<(), Clash> {
        let mut next = [None; 16];
        // From the last event on, so that what follows by chains is there already.
        for (x, e) in numbered(events).rev() {
            if let Some(y) = next[usize::from(e.session)].replace(x) {
                self.link(facts, x, y)?;
            }
        }
        for (x, e) in numbered(events) {
            facts.takers[x].try_each(|r| self.link(facts, x, r))?;
            if !e.write && e.revision == 0 {
                for (w, _) in numbered(events).filter(|(_, w)| w.write && w.star == e.star) {
                    self.link(facts, x, w)?;
                }
            }
        }
        self.saturate(facts)
    }

    /// The first two writes of a star that are not ordered, the lower of them `from` or a later one.
    fn first_unordered(&self, facts: &Facts, from: u8) -> Option<(u8, u8)> {
        (usize::from(from)..self.count).find_map(|a| {
            let a = a as u8;
            let b = facts.higher[a].minus(self.after[a]).minus(self.before[a]).first()?;
            Some((a, b))
        })
    }

    fn mark(&self) -> (usize, usize) {
        (self.after.changes, self.before.changes)
    }

    fn undo_to(&mut self, (after, before): (usize, usize)) {
        self.after.undo_to(after);
        self.before.undo_to(before);
        self.dirty = NO_SET;
    }

    /// The order that places the lowest event whose predecessors are placed, again and again.
    fn order(&self) -> Vec<u8> {
        let mut left = NO_SET;
        (0..self.count).for_each(|x| left.add(x as u8));
        let mut order = Vec::with_capacity(self.count);
        let mut ready = left;
        while let Some(x) = ready.pop() {
            // An event that is not ready yet is looked at again when one of its predecessors is placed.
            if self.before[x].and(left).minus(self.after[x]).is_empty() {
                order.push(x);
                left = left.minus(self.before[x]);
                ready = ready.or(self.after[x].and(left));
            }
        }
        order
    }
}

// The search.

/// A pair of writes that was chosen, the first to come before the second.
struct Choice {
    first: u8,
    second: u8,
    /// The relation before the pair was added.
    mark: (usize, usize),
    /// Whether the other way round was tried before.
    last: bool,
}
enum Verdict {
    Serial(u32),
    None(u32),
    Spent,
}

struct Search {
    facts: Facts,
    relation: Relation,
    choices: Vec<Choice>,
    clashed: bool,
}

impl Search {
    fn new(events: &[Event]) -> Search {
        let facts = Facts::of(events);
        let mut relation = Relation::new(events.len());
        let clashed = relation.root(events, &facts).is_err();
        Search { facts, relation, choices: Vec::new(), clashed }
    }

    fn run(&mut self) -> Verdict {
        for step in 1..=MOST_STEPS {
            if self.enter() {
                if !self.descend() {
                    return Verdict::Serial(step);
                }
            } else if !self.retreat() {
                return Verdict::None(step);
            }
        }
        Verdict::Spent
    }

    /// Comes to the next node, and says whether it has no clash.
    fn enter(&mut self) -> bool {
        let Some(&Choice { first, second, .. }) = self.choices.last() else {
            return !self.clashed;
        };
        let linked = self.relation.link(&self.facts, first, second);
        linked.and_then(|()| self.relation.saturate(&self.facts)).is_ok()
    }

    /// Chooses the first unordered pair, the lower write first, and says whether there is one.
    fn descend(&mut self) -> bool {
        // No pair below the lower write of the parent's pair is unordered.
        let lowest = self.choices.last().map_or(0, |c| c.first.min(c.second));
        let Some((first, second)) = self.relation.first_unordered(&self.facts, lowest) else {
            return false;
        };
        let mark = self.relation.mark();
        self.choices.push(Choice { first, second, mark, last: false });
        true
    }

    /// Turns round the latest pair that was tried one way only, and says whether there is one.
    fn retreat(&mut self) -> bool {
        while let Some(Choice { first, second, mark, last }) = self.choices.pop() {
            if !last {
                self.relation.undo_to(mark);
                self.choices.push(Choice { first: second, second: first, mark, last: true });
                return true;
            }
        }
        false
    }
}
