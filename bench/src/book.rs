// A book to search, in plain Rust: conditions, rules, the way and the start.

pub struct Condition {
    pub domain: u64,
    // ascending
    pub family: Vec<u64>,
}

#[derive(Clone, Copy)]
pub struct Entry {
    pub condition: usize,
    pub negated: bool,
}

pub struct Rule {
    pub head: Option<u8>,
    pub body: Vec<Entry>,
}

#[derive(Clone, Copy, PartialEq)]
pub enum Way {
    Reduct,
    Complement,
}

pub struct Book {
    pub name: &'static str,
    pub way: Way,
    pub start: u64,
    pub conditions: Vec<Condition>,
    pub rules: Vec<Rule>,
}

// The answer of a search: the set, if one was found, and how many were tried.
#[derive(Clone, Copy, PartialEq, Debug)]
pub struct Answer {
    pub found: Option<u64>,
    pub tried: usize,
}

// The subsets of a set that a test accepts, ascending.
pub fn subsets(domain: u64, accepts: impl Fn(u64) -> bool) -> Vec<u64> {
    let mut family = Vec::new();
    let mut part = 0u64;
    loop {
        if accepts(part) {
            family.push(part);
        }
        part = part.wrapping_sub(domain) & domain;
        if part == 0 {
            return family;
        }
    }
}
