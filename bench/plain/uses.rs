//! Open uses of objects by calls, for the rule on overlaps.
//!
//! There are two classes of threads parts: those above the first lifetimes part, which see skipped
//! calls too, and those below it. Parts of one class see the same calls.

use crate::trace::NONE;
use crate::world::World;

pub const ABOVE: usize = 0;
pub const BELOW: usize = 1;

#[derive(Clone, Copy)]
pub struct Use {
    pub object: u32,
    /// The argument to which it belongs, by its flat place.
    pub place: u16,
    pub write: bool,
    /// The classes for which it is a use, as bits.
    pub classes: u8,
}

/// The open calls that use one object, per class and in rising order.
#[derive(Default)]
struct Record {
    any: [Vec<u64>; 2],
    writers: [Vec<u64>; 2],
}

#[derive(Default)]
pub struct Overlaps {
    records: Vec<Record>,
    free: Vec<u32>,
}

impl Overlaps {
    /// Enters a call above all that are entered.
    pub fn enter(&mut self, world: &mut World, call: u64, uses: &[Use], reached: u8) {
        for u in uses {
            let slot = &mut world.objects[u.object as usize].uses;
            if u.classes & reached == 0 {
                continue;
            }
            if *slot == NONE {
                *slot = self.free.pop().unwrap_or(self.records.len() as u32);
                if *slot as usize == self.records.len() {
                    self.records.push(Record::default());
                }
            }
            let record = &mut self.records[*slot as usize];
            for class in [ABOVE, BELOW] {
                if u.classes & reached & (1 << class) != 0 {
                    push(&mut record.any[class], call);
                    if u.write {
                        push(&mut record.writers[class], call);
                    }
                }
            }
        }
    }

    pub fn leave(&mut self, world: &mut World, call: u64, uses: &[Use]) {
        for u in uses {
            let slot = &mut world.objects[u.object as usize].uses;
            let Some(record) = self.records.get_mut(*slot as usize) else { continue };
            let mut empty = true;
            for class in [ABOVE, BELOW] {
                remove(&mut record.any[class], call);
                remove(&mut record.writers[class], call);
                empty &= record.any[class].is_empty();
            }
            if empty {
                self.free.push(*slot);
                *slot = NONE;
            }
        }
    }

    /// The least open call that conflicts with this use.
    pub fn least(&self, world: &World, u: &Use, class: usize) -> Option<u64> {
        if u.classes & (1 << class) == 0 {
            return None;
        }
        let record = self.records.get(world.objects[u.object as usize].uses as usize)?;
        let calls = if u.write { &record.any[class] } else { &record.writers[class] };
        calls.first().copied()
    }
}

fn push(calls: &mut Vec<u64>, call: u64) {
    if calls.last() != Some(&call) {
        calls.push(call);
    }
}

fn remove(calls: &mut Vec<u64>, call: u64) {
    if let Ok(at) = calls.binary_search(&call) {
        calls.remove(at);
    }
}
