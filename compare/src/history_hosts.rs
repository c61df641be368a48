//! Hosts that write wrongly: each must be seen to break a promise, so the promises can be seen to be broken.

use crate::creation::{pairs_written, slots_zeroed, Creation, SLOTS};
use crate::creation_answers::{NOT_WRITABLE, OLDER_READ};
use crate::cut_records::clean_mark;
use crate::cut_store;
use crate::history::History;
use crate::history_pair::{Pair, Write};
use crate::history_promises::{CONFIRMED, COUNTS, DECODED, KNOWN, NAMED};
use crate::history_writes::{new_written, random_pair, random_store, random_write};
use crate::implementation::Library;
use crate::part::Checked;
use crate::plan_reference::{above, Plan};
use crate::rng::Rng;
use crate::trials::Running;
use std::collections::BTreeMap;

/// How many histories each host writes, and how many writes each has at most.
const HISTORIES: usize = 200;
const MOST_WRITES: usize = 40;

/// What a host does in a creation, each in all of a slot: it zeroes one of a pair, or writes a pair first.
#[derive(Clone, Copy)]
enum Act {
    Zero(usize, usize),
    First(usize),
}

struct Host {
    name: &'static str,
    /// The promise that it must be seen to break.
    breaks: &'static str,
    fault: Fault,
}

enum Fault {
    /// It makes this of the plan of the right pair.
    Plan(fn(&History, Plan) -> Plan),
    /// It writes this pair next.
    Pair(fn(&mut Rng, &History) -> usize),
    /// It writes this next; `None` where it finds nothing to write.
    Write(fn(&mut Rng, &mut History) -> Option<Write>),
    /// It hands this mark to the judge.
    Mark(fn(&History) -> bool),
    /// Over an older store it creates one in this order.
    Order(fn(&mut Rng, usize) -> Vec<Act>),
}

impl Host {
    const fn new(name: &'static str, breaks: &'static str, fault: Fault) -> Self {
        Self { name, breaks, fault }
    }

    const fn planning(name: &'static str, plan: fn(&History, Plan) -> Plan) -> Self {
        Self::new(name, CONFIRMED, Fault::Plan(plan))
    }

    fn next_write(&self, rng: &mut Rng, history: &mut History) -> Option<Write> {
        if let Fault::Write(write) = self.fault {
            return write(rng, history);
        }
        let pair = match self.fault {
            Fault::Pair(pair) => pair(rng, history),
            _ => random_pair(rng, history),
        };
        let right = history.next(pair).ok()?;
        let plan = match self.fault {
            Fault::Plan(plan) => plan(history, right),
            _ => right,
        };
        Some(random_write(rng, history, pair, &plan))
    }

    fn mark(&self, history: &History) -> bool {
        match self.fault {
            Fault::Mark(mark) => mark(history),
            _ => history.mark_read(),
        }
    }
}

const HOSTS: &[Host] = &[
    Host::planning("heals with its operator's next number", |history, plan| {
        let next = history.named().and_then(|named| history.next_number(named).ok());
        Plan { number: next.unwrap_or(plan.number), ..plan }
    }),
    Host::planning("takes a number above all operators' slots", |history, plan| {
        let above_all = above(history.pairs.iter().flat_map(Pair::numbers)).ok();
        let free = above_all.filter(|_| history.named().is_none());
        Plan { number: free.unwrap_or(plan.number), ..plan }
    }),
    Host::planning("heals above all operators' winners", |history, plan| {
        let above_all = above(history.pairs.iter().map(|pair| pair.current.number())).ok();
        let heal = above_all.filter(|_| history.named().is_some());
        Plan { number: heal.unwrap_or(plan.number), ..plan }
    }),
    Host::planning("takes the highest number again", |_, plan| Plan { number: plan.number - 1, ..plan }),
    Host::planning("leaves a number out", |_, plan| Plan { number: plan.number.saturating_add(1), ..plan }),
    Host::planning("takes the winner's generation again", |_, plan| Plan { generation: plan.generation - 1, ..plan }),
    Host::planning("leaves a generation out", |_, plan| Plan { generation: plan.generation.saturating_add(1), ..plan }),
    Host::planning("has another previous checksum", |_, plan| Plan { previous: plan.previous ^ 1, ..plan }),
    Host::new("writes another pair than the named one", NAMED, Fault::Pair(any_pair)),
    Host::new("writes over the winner", KNOWN, Fault::Write(over_the_winner)),
    Host::new("writes a record that does not decode", DECODED, Fault::Write(not_decoding)),
    // Under the mark no write was in flight, so a page that is torn is damage.
    Host::new("writes a page under the mark", CONFIRMED, Fault::Pair(page_under_the_mark)),
    // Once the store is opened a torn page is damage to this one as well, but the mark counts wrongly before.
    Host::new("hands over the mark of the older record", COUNTS, Fault::Mark(mark_of_the_older)),
    // Beside a record of pair 0 a pair without one is a lost page, and the store is writable.
    Host::new("writes pair 0 first", NOT_WRITABLE, Fault::Order(volume_first)),
    Host::new("zeroes the pages before pair 0", NOT_WRITABLE, Fault::Order(pages_zeroed_first)),
    Host::new("zeroes the pages before pair 0", OLDER_READ, Fault::Order(pages_zeroed_first)),
];

fn any_pair(rng: &mut Rng, history: &History) -> usize {
    if history.named().is_some() {
        rng.below(history.pairs.len())
    } else {
        random_pair(rng, history)
    }
}

fn over_the_winner(rng: &mut Rng, history: &mut History) -> Option<Write> {
    let at = random_pair(rng, history);
    let pair = &mut history.pairs[at];
    pair.winner = pair.other();
    let plan = history.next(at).ok()?;
    Some(random_write(rng, history, at, &plan))
}

fn not_decoding(rng: &mut Rng, history: &mut History) -> Option<Write> {
    let pair = random_pair(rng, history);
    let plan = history.next(pair).ok()?;
    Some(history.planned_write(pair, &plan, new_written(rng), &[0xff; 40]))
}

fn page_under_the_mark(rng: &mut Rng, history: &History) -> usize {
    let pages = history.pairs.len() - 1;
    if pages > 0 && history.named().is_none() && history.mark() {
        1 + rng.below(pages)
    } else {
        random_pair(rng, history)
    }
}

fn mark_of_the_older(history: &History) -> bool {
    history.pairs[0].older.as_ref().is_some_and(|older| clean_mark(&older.record))
}

fn volume_first(rng: &mut Rng, pairs: usize) -> Vec<Act> {
    let zeros = slots_zeroed(rng, pairs);
    let mut written = pairs_written(rng, pairs);
    written.rotate_right(1);
    acts(zeros, written)
}

fn pages_zeroed_first(rng: &mut Rng, pairs: usize) -> Vec<Act> {
    let mut zeros = slots_zeroed(rng, pairs);
    zeros.rotate_left(SLOTS);
    acts(zeros, pairs_written(rng, pairs))
}

fn acts(zeros: Vec<(usize, usize)>, written: Vec<usize>) -> Vec<Act> {
    let zeros = zeros.into_iter().map(|(at, slot)| Act::Zero(at, slot));
    zeros.chain(written.into_iter().map(Act::First)).collect()
}

/// The trial of these hosts.
pub struct Hosts {
    rng: Rng,
    /// How many histories and creations of a host broke a promise.
    broken: BTreeMap<(&'static str, &'static str), u64>,
}

impl Hosts {
    pub fn new(rng: Rng) -> Self {
        Self { rng, broken: BTreeMap::new() }
    }

    /// The promise that a host breaks: in a history the first, in a creation, which goes on until then, its own.
    fn broken_by(&mut self, host: &Host) -> Option<&'static str> {
        let store = random_store(&mut self.rng, &Library);
        match host.fault {
            Fault::Order(order) => self.breaks_in_creation(host.breaks, order, store).then_some(host.breaks),
            _ => self.broken_in_history(host, store),
        }
    }

    fn broken_in_history(&mut self, host: &Host, store: Vec<cut_store::Pair>) -> Option<&'static str> {
        let mut history = History::new(&Library, store);
        for _ in 0..MOST_WRITES {
            let write = host.next_write(&mut self.rng, &mut history)?;
            let step = history.write(&write).ok()?;
            let broken = history.broken(&history.found(&step, host.mark(&history)));
            if broken.is_some() {
                return broken;
            }
        }
        None
    }

    fn breaks_in_creation(
        &mut self,
        promise: &str,
        order: fn(&mut Rng, usize) -> Vec<Act>,
        store: Vec<cut_store::Pair>,
    ) -> bool {
        let acts = order(&mut self.rng, store.len());
        let mut creation = Creation::over(&Library, store);
        acts.into_iter().any(|act| {
            match act {
                Act::Zero(at, slot) => creation.zero(at, slot, None),
                Act::First(at) => {
                    let write = creation.first_write(&mut self.rng, at);
                    creation.write(&write, None);
                }
            }
            creation.breaks(&creation.judged_found(), promise)
        })
    }
}

impl Running for Hosts {
    fn title(&self) -> &'static str {
        "hosts that write wrongly"
    }

    fn run(&mut self) -> Checked {
        for host in HOSTS {
            for _ in 0..HISTORIES {
                if let Some(promise) = self.broken_by(host) {
                    *self.broken.entry((host.name, promise)).or_insert(0) += 1;
                }
            }
        }
        Ok(())
    }

    fn print(&self) {
        for ((host, promise), histories) in &self.broken {
            println!("{host:<42} {promise:<70} {histories:>4}");
        }
    }

    fn faults(&self) -> Vec<String> {
        let unseen = HOSTS.iter().filter(|host| !self.broken.contains_key(&(host.name, host.breaks)));
        unseen.map(|host| format!("a host that {} was not seen to break: {}", host.name, host.breaks)).collect()
    }

    /// Nothing that they write counts as a case.
    fn total(&self) -> u64 {
        0
    }
}
