//! The generator of traces.

use crate::out::{push_number, ReadFault, Source};

enum Stage { Head, Turns, Buffers(usize), Device, Instance, Done }

/// A source of the generated text; it never fails.
pub struct Generator {
    x: u64,
    turns: u32,
    list: Vec<u32>,
    next: u32,
    stage: Stage,
    text: Vec<u8>,
    given: usize,
}

const HEAD: &[u8] = b"vktrace 1
b 1 vkCreateInstance = %1.1 VK_SUCCESS
r 1
b 1 vkEnumeratePhysicalDevices %1.1 = %1.2 VK_SUCCESS
r 1
b 1 vkCreateDevice %1.2 = %1.3 VK_SUCCESS
r 1
";
const TEXT: usize = 1 << 14;

impl Generator {
    pub fn new(number: u64, calls: u32) -> Generator {
        Generator { x: number, turns: calls, list: Vec::new(), next: 4, stage: Stage::Head, text: Vec::with_capacity(TEXT + 128), given: 0 }
    }

    fn call(&mut self, head: &[u8], name: u32, tail: &[u8]) {
        self.text.extend_from_slice(head);
        push_number(&mut self.text, u64::from(name));
        self.text.extend_from_slice(tail);
    }

    fn destroy(&mut self, name: u32) {
        self.call(b"b 1 vkDestroyBuffer %1.3 %1.", name, b" void\nr 1\n");
    }

    /// Adds the next piece of text; false at the end.
    fn step(&mut self) -> bool {
        match self.stage {
            Stage::Head => {
                self.text.extend_from_slice(HEAD);
                self.stage = Stage::Turns;
            }
            Stage::Turns if self.turns == 0 => self.stage = Stage::Buffers(0),
            Stage::Turns => {
                self.turns -= 1;
                self.x = self.x.wrapping_mul(6_364_136_223_846_793_005).wrapping_add(1_442_695_040_888_963_407);
                let r = self.x >> 33;
                if self.list.is_empty() || r % 3 == 0 {
                    self.call(b"b 1 vkCreateBuffer %1.3 = %1.", self.next, b" VK_SUCCESS\nr 1\n");
                    self.list.push(self.next);
                    self.next += 1;
                } else {
                    let k = ((r / 3) % self.list.len() as u64) as usize;
                    if r % 3 == 1 {
                        self.call(b"b 1 vkGetBufferMemoryRequirements %1.3 %1.", self.list[k], b" void\nr 1\n");
                    } else {
                        let name = self.list.remove(k);
                        self.destroy(name);
                    }
                }
            }
            Stage::Buffers(k) => match self.list.get(k) {
                Some(name) => {
                    self.destroy(*name);
                    self.stage = Stage::Buffers(k + 1);
                }
                None => self.stage = Stage::Device,
            },
            Stage::Device => {
                self.text.extend_from_slice(b"b 1 vkDestroyDevice %1.3 void\nr 1\n");
                self.stage = Stage::Instance;
            }
            Stage::Instance => {
                self.text.extend_from_slice(b"b 1 vkDestroyInstance %1.1 void\nr 1\n");
                self.stage = Stage::Done;
            }
            Stage::Done => return false,
        }
        true
    }

    /// The next piece of the text, empty at the end.
    pub fn piece(&mut self) -> &[u8] {
        self.text.clear();
        while self.text.len() < TEXT && self.step() {}
        &self.text
    }
}

impl Source for Generator {
    fn read(&mut self, room: &mut [u8]) -> Result<usize, ReadFault> {
        if self.given == self.text.len() {
            self.given = 0;
            self.piece();
        }
        let n = room.len().min(self.text.len() - self.given);
        room[..n].copy_from_slice(&self.text[self.given..self.given + n]);
        self.given += n;
        Ok(n)
    }
}
