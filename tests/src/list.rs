//! Lists of job calls: drawn budgets, scratch that differs from call to call, and refused calls among them.

use crate::call::{Buffers, Call};
use crate::checked;
use crate::damage::{damages, Damage};
use crate::draw;
use crate::engine::Answer;
use crate::random::Random;

/// A job on its way, with its own output buffer.
pub struct List {
    pub call: Call,
    pub buffers: Buffers,
    pub accepted: usize,
    pub refused: usize,
    damages: Vec<Damage>,
}

impl List {
    /// The call's job, with buffers of any contents.
    pub fn new(random: &mut Random, call: Call) -> List {
        let (buffers, damages) = (draw::buffers(random, &call), damages(call.engine));
        List { call, buffers, accepted: 0, refused: 0, damages }
    }

    /// Makes an accepted call with a drawn budget. The list's index is then the one that it hands back.
    pub fn advance(&mut self, random: &mut Random, sums: Option<&[i64]>) -> Answer {
        self.call.budget = budget(random, self.call.total() - self.call.next);
        self.lend_scratch(random);
        let answer = checked::job(&self.call, &mut self.buffers, sums);
        assert_eq!(answer.number, 0, "{:?} is refused", self.call.layer);
        self.call.next = answer.next;
        self.accepted += 1;
        answer
    }

    /// Makes a call that is refused, in some of them with another map and kernel. It changes nothing.
    pub fn refuse(&mut self, random: &mut Random) {
        self.lend_scratch(random);
        let mut call = Call { budget: budget(random, self.call.total()), ..self.call.clone() };
        if random.once_in(2) {
            call.map = draw::map(random, &call.layer);
            call.kernel = draw::kernel(random, &call.layer);
        }
        let damage = &self.damages[random.below(self.damages.len())];
        damage.apply(&mut call);
        let answer = checked::job(&call, &mut self.buffers, None);
        assert_eq!(answer.number, damage.rule, "{}", damage.name);
        self.refused += 1;
    }

    /// Makes calls from part 0 until one says done, and checks after each that the index is the lesser of the total and
    /// all budgets.
    pub fn finish(&mut self, random: &mut Random, sums: Option<&[i64]>) {
        let total = self.call.total() as u128;
        let mut budgets = 0;
        self.call.next = 0;
        loop {
            if random.once_in(3) {
                self.refuse(random);
            }
            let answer = self.advance(random, sums);
            budgets += self.call.budget as u128;
            assert_eq!(answer.next as u128, budgets.min(total), "index of {:?}", self.call.layer);
            if answer.done == 1 {
                break;
            }
        }
    }

    fn lend_scratch(&mut self, random: &mut Random) {
        self.call.scratch_length = self.call.scratch_words() + random.below(20);
        self.buffers.scratch = draw::scratch(random, self.call.scratch_length);
    }
}

/// A budget for a job with so many parts left: none, few, a quarter at most; now and then all, one more, or up to the
/// greatest number.
fn budget(random: &mut Random, left: usize) -> usize {
    match random.below(10) {
        0 => 0,
        1..=4 => random.between(1, 2),
        5..=8 => random.between(0, 1 + left / 4),
        _ => random.pick(&[left, left + 1, 1 << 32, 1 << 63, usize::MAX - left, usize::MAX]),
    }
}
