// The proved search, called in the linked library.
use crate::book::{Answer, Book, Rule, Way};

#[repr(C)]
struct ConditionNumbers {
    domain: u64,
    first: usize,
    len: usize,
}

#[repr(C)]
struct RuleNumbers {
    head: u8,
    len: u8,
    body: [u16; 8],
}

#[repr(C)]
struct FoundNumbers {
    set: u64,
    tried: usize,
}

// A slice crosses as a pointer and then a length.
unsafe extern "C" {
    fn season_next_set(
        conditions: *const ConditionNumbers,
        conditions_len: usize,
        sets: *const u64,
        sets_len: usize,
        rules: *const RuleNumbers,
        rules_len: usize,
        way: u8,
        start: u64,
        found: *mut FoundNumbers,
    ) -> u8;
}

// The refusal for a search that finds none.
const NO_SET: u8 = 28;

// A book in the numbers that the library takes.
pub struct Numbers {
    conditions: Vec<ConditionNumbers>,
    sets: Vec<u64>,
    rules: Vec<RuleNumbers>,
    way: u8,
}

fn rule_numbers(rule: &Rule) -> RuleNumbers {
    let mut body = [0u16; 8];
    for (place, e) in body.iter_mut().zip(&rule.body) {
        *place = e.condition as u16 | if e.negated { 0x8000 } else { 0 };
    }
    RuleNumbers { head: rule.head.unwrap_or(255), len: rule.body.len() as u8, body }
}

impl Numbers {
    pub fn of(book: &Book) -> Numbers {
        let mut sets = Vec::new();
        let mut conditions = Vec::new();
        for c in &book.conditions {
            conditions.push(ConditionNumbers { domain: c.domain, first: sets.len(), len: c.family.len() });
            sets.extend_from_slice(&c.family);
        }
        Numbers { conditions, sets, rules: book.rules.iter().map(rule_numbers).collect(), way: if book.way == Way::Reduct { 0 } else { 1 } }
    }

    // Loads the tables, names the rules and searches from `start` on.
    pub fn search(&self, start: u64) -> Answer {
        let mut found = FoundNumbers { set: 0, tried: 0 };
        // Sound: each pointer comes with the length of its vector, and the layouts are those that the library declares.
        let refusal = unsafe {
            season_next_set(
                self.conditions.as_ptr(),
                self.conditions.len(),
                self.sets.as_ptr(),
                self.sets.len(),
                self.rules.as_ptr(),
                self.rules.len(),
                self.way,
                start,
                &mut found,
            )
        };
        assert!(refusal == 0 || refusal == NO_SET, "refusal {refusal}");
        Answer { found: (refusal == 0).then_some(found.set), tried: found.tried }
    }
}
