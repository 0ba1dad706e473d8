//! The model driver: handles by policy, counted per driver.

#[derive(Clone, Copy, PartialEq, Eq, Debug)]
pub enum Policy { Fresh, Reuse, Share }

/// The values that one driver has out, as a bit set with the place of its first gap.
#[derive(Default)]
struct Out {
    words: Vec<u64>,
    first: usize,
}

impl Out {
    fn take(&mut self) -> u64 {
        while self.first < self.words.len() && self.words[self.first] == u64::MAX {
            self.first += 1;
        }
        if self.first == self.words.len() {
            self.words.push(0);
        }
        let word = &mut self.words[self.first];
        let bit = word.trailing_ones();
        *word |= 1 << bit;
        self.first as u64 * 64 + u64::from(bit) + 1
    }

    fn give_back(&mut self, value: u64) {
        if value == 0 {
            return;
        }
        let at = ((value - 1) / 64) as usize;
        if let Some(word) = self.words.get_mut(at) {
            *word &= !(1 << ((value - 1) % 64));
            self.first = self.first.min(at);
        }
    }
}

pub struct ModelDriver {
    policy: Policy,
    next: Vec<u64>,
    out: Vec<Out>,
}

impl ModelDriver {
    pub fn new(policy: Policy, drivers: usize) -> ModelDriver {
        ModelDriver {
            policy,
            next: vec![0; drivers],
            out: (0..drivers).map(|_| Out::default()).collect(),
        }
    }

    pub fn drivers(&self) -> u32 {
        self.next.len() as u32
    }

    /// One call to one driver. `given_back` are the arguments in the parameter that the row's
    /// destroy or free names; `asked` is 0 where the call doesn't succeed.
    pub fn call(&mut self, driver: usize, args: &[u64], given_back: &[u64], asked: u32, reply: &mut Vec<u64>) {
        std::hint::black_box(args);
        match self.policy {
            Policy::Fresh => {
                let next = &mut self.next[driver];
                for _ in 0..asked {
                    *next += 1;
                    reply.push(*next);
                }
            }
            Policy::Reuse => {
                let out = &mut self.out[driver];
                for value in given_back {
                    out.give_back(*value);
                }
                for _ in 0..asked {
                    reply.push(out.take());
                }
            }
            Policy::Share => reply.extend((0..asked).map(|_| 1)),
        }
    }
}
