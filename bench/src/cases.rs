// The books that are searched.
use crate::book::{Book, Condition, Entry, Rule, Way, subsets};

fn yes(condition: usize) -> Entry {
    Entry { condition, negated: false }
}

fn not(condition: usize) -> Entry {
    Entry { condition, negated: true }
}

fn rule(head: usize, body: &[Entry]) -> Rule {
    Rule { head: Some(head as u8), body: body.to_vec() }
}

fn ban(body: &[Entry]) -> Rule {
    Rule { head: None, body: body.to_vec() }
}

// Condition d for each decision d below n: the decision itself.
fn singles(n: usize) -> Vec<Condition> {
    (0..n).map(|d| Condition { domain: 1 << d, family: vec![1 << d] }).collect()
}

// The domain of twelve decisions out of sixteen, from d on and around.
fn twelve_from(d: usize) -> u64 {
    (0..12).fold(0, |s, i| s | 1 << ((d + i) % 16))
}

fn condition(domain: u64, accepts: impl Fn(u64) -> bool) -> Condition {
    Condition { domain, family: subsets(domain, accepts) }
}

// In each of n/2 pairs one decision follows where the other is absent; bans on both decisions of the first pair leave nothing.
fn pairs(name: &'static str, n: usize) -> Book {
    let mut rules: Vec<Rule> = (0..n).map(|d| rule(d, &[not(d ^ 1)])).collect();
    rules.push(ban(&[yes(0)]));
    rules.push(ban(&[yes(1)]));
    Book { name, way: Way::Reduct, start: 0, conditions: singles(n), rules }
}

// Each decision rests on itself: every set keeps the rules, and only the empty set, below the start, is borne.
fn selves(name: &'static str, n: usize) -> Book {
    let rules = (0..n).map(|d| rule(d, &[yes(d)])).collect();
    Book { name, way: Way::Reduct, start: 1, conditions: singles(n), rules }
}

// Decision 0 is a fact and each other one follows from the one before: the full set alone is borne.
fn chain(name: &'static str, n: usize) -> Book {
    let mut rules = vec![rule(0, &[])];
    rules.extend((1..n).map(|d| rule(d, &[yes(d - 1)])));
    Book { name, way: Way::Reduct, start: 0, conditions: singles(n), rules }
}

// As `selves`, and where all of a domain is there every decision follows: from the start on the full set alone is borne.
fn selves_or_all(name: &'static str, n: usize, domain: u64) -> Book {
    let mut conditions = singles(n);
    conditions.push(condition(domain, |s| s != domain));
    let mut rules: Vec<Rule> = (0..n).map(|d| rule(d, &[yes(d)])).collect();
    rules.extend((0..n).map(|d| rule(d, &[not(n)])));
    Book { name, way: Way::Reduct, start: 1, conditions, rules }
}

// Each decision follows where some of its twelve is there: the empty set alone is borne, and lies below the start.
fn some_of_twelve(name: &'static str) -> Book {
    let conditions = (0..16).map(|d| condition(twelve_from(d), |s| s != 0)).collect();
    let rules = (0..16).map(|d| rule(d, &[yes(d)])).collect();
    Book { name, way: Way::Reduct, start: 1, conditions, rules }
}

// Each decision follows where not just six of its twelve are there, by complement.
fn not_six_of_twelve(name: &'static str) -> Book {
    let conditions = (0..16).map(|d| condition(twelve_from(d), |s| s.count_ones() == 6)).collect();
    let rules = (0..16).map(|d| rule(d, &[not(d)])).collect();
    Book { name, way: Way::Complement, start: 0, conditions, rules }
}

// Each decision rests on itself and on a condition that holds at every set: the whole span has to be looked through before the rule fails.
fn wide_spans(name: &'static str) -> Book {
    let mut conditions = singles(12);
    conditions.push(condition(0xfff, |_| true));
    let rules = (0..12).map(|d| rule(d, &[yes(12), yes(d)])).collect();
    Book { name, way: Way::Reduct, start: 1, conditions, rules }
}

pub fn cases() -> Vec<Book> {
    vec![
        pairs("16 heads, none found, most sets break a rule", 16),
        selves("16 heads, none found, every set keeps the rules", 16),
        chain("16 heads, found at the end, all others break a rule", 16),
        selves_or_all("16 heads, found at the end, most others keep the rules", 16, 0xf000),
        pairs("8 heads, none found", 8),
        chain("8 heads, found at the end", 8),
        some_of_twelve("16 heads, domains of 12, families of 4095, none found"),
        not_six_of_twelve("16 heads, domains of 12, families of 924, by complement"),
        selves_or_all("16 heads, a domain of 12, family of 4095, found at the end", 16, 0xfff0),
        wide_spans("12 heads, a domain of 12, family of 4096, wide spans"),
    ]
}
