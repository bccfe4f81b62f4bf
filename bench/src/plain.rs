// The search over every set in plain Rust, written for the comparison. It reads a condition by looking for the part of the set inside the
// domain in the family, which is sorted, and tests a span by going through every set of it.
use crate::book::{Answer, Book, Condition, Entry, Rule, Way};

fn holds(c: &Condition, set: u64) -> bool {
    c.family.binary_search(&(set & c.domain)).is_ok()
}

// Whether a condition is so (or not so) at every set from the lower one to the upper one.
fn stays(c: &Condition, lower: u64, upper: u64, so: bool) -> bool {
    let lower = lower & c.domain;
    let open = upper & c.domain & !lower;
    let mut part = 0u64;
    loop {
        if c.family.binary_search(&(lower | part)).is_ok() != so {
            return false;
        }
        part = part.wrapping_sub(open) & open;
        if part == 0 {
            return true;
        }
    }
}

fn keeps(book: &Book, rule: &Rule, set: u64) -> bool {
    if let Some(d) = rule.head
        && set >> d & 1 == 1
    {
        return true;
    }
    !rule.body.iter().all(|e| holds(&book.conditions[e.condition], set) != e.negated)
}

fn carried(book: &Book, e: &Entry, lower: u64, upper: u64) -> bool {
    let c = &book.conditions[e.condition];
    match (e.negated, book.way) {
        (false, _) => stays(c, lower, upper, true),
        (true, Way::Complement) => stays(c, lower, upper, false),
        (true, Way::Reduct) => !holds(c, upper),
    }
}

// One round: what was reached, with the heads of the rules that are carried from there to the set.
fn round(book: &Book, reached: u64, set: u64) -> u64 {
    let mut next = reached;
    for rule in &book.rules {
        let Some(d) = rule.head else { continue };
        let head = 1u64 << d;
        if next & head == 0 && rule.body.iter().all(|e| carried(book, e, reached, set)) {
            next |= head;
        }
    }
    next
}

// Whether the rounds reach the set, which keeps every rule.
fn reached_by_rounds(book: &Book, set: u64) -> bool {
    let mut reached = 0;
    while reached != set {
        let next = round(book, reached, set);
        if next == reached {
            return false;
        }
        reached = next;
    }
    true
}

pub fn search(book: &Book) -> Answer {
    let heads = book.rules.iter().filter_map(|r| r.head).fold(0u64, |h, d| h | 1 << d);
    let mut tried = 0;
    let mut set = 0u64;
    loop {
        if set >= book.start {
            tried += 1;
            if book.rules.iter().all(|r| keeps(book, r, set)) && reached_by_rounds(book, set) {
                return Answer { found: Some(set), tried };
            }
        }
        set = set.wrapping_sub(heads) & heads;
        if set == 0 {
            return Answer { found: None, tried };
        }
    }
}
