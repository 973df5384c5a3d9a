//! Part 4, held interrupt by interrupt: a word is put together only where one is asked for.

use super::answer::{refuse_if, Answer, Refusal};
use super::guest::Guest;

/// §4.3: INTIDs 0 to 15.
pub const SGIS: u32 = 16;
/// §4.17: INTIDs from here to 1,023 are special numbers and no interrupts, whatever the count is.
const SPECIAL: u32 = 1020;

/// §4.1: one bit of each of a bank's three words.
#[derive(Clone, Copy, PartialEq, Eq, Debug, Default)]
pub struct Irq {
    pub latch: bool,
    pub level: bool,
    pub edge: bool,
}

impl Irq {
    /// §4.4.
    pub fn pending(&self) -> bool {
        if self.edge {
            self.latch
        } else {
            self.latch || self.level
        }
    }
}

/// §4.3: the bank of a VCPU.
pub fn fresh_private() -> [Irq; 32] {
    std::array::from_fn(|intid| Irq { edge: (intid as u32) < SGIS, ..Irq::default() })
}

/// §4.2, §4.17: how many interrupts a bank has. Those that are none have no place in a guest, so that no call can reach
/// them.
pub fn interrupts(bank: u32) -> usize {
    32.min(SPECIAL - 32 * bank) as usize
}

/// §4.3: all the shared banks below this count.
pub fn fresh_shared(count: u32) -> Vec<Vec<Irq>> {
    (1..count / 32).map(|bank| vec![Irq::default(); interrupts(bank)]).collect()
}

/// §4.1: bit n is that of the bank's interrupt n.
pub fn word_of(irqs: &[Irq], part: fn(&Irq) -> bool) -> u32 {
    irqs.iter().enumerate().map(|(n, irq)| (part(irq) as u32) << n).sum()
}

/// §2.11.
pub fn bit(word: u32, n: usize) -> bool {
    word >> n & 1 == 1
}

impl Guest {
    /// §4.2: bank 0 is the VCPU's own, the others are shared. From the count on there is none (§4.9).
    pub fn bank(&self, vcpu: usize, bank: u32) -> Option<&[Irq]> {
        match bank {
            0 => Some(&self.vcpus[vcpu].irqs),
            n if n * 32 < self.count => Some(&self.shared[n as usize - 1]),
            _ => None,
        }
    }

    /// §4.2, §4.9.
    pub fn bank_mut(&mut self, vcpu: usize, bank: u32) -> Option<&mut [Irq]> {
        match bank {
            0 => Some(&mut self.vcpus[vcpu].irqs),
            n if n * 32 < self.count => Some(&mut self.shared[n as usize - 1]),
            _ => None,
        }
    }

    /// §4.8: the tests of all six calls.
    fn check_irq(&self, vcpu: u64, intid: u64) -> Result<(), Refusal> {
        refuse_if(!self.initialised, Refusal::NotReady)?;
        refuse_if(vcpu >= self.vcpus.len() as u64, Refusal::Invalid)?;
        refuse_if(intid > 1023, Refusal::Invalid)
    }

    /// §4.2; none from the count on (§4.9), and none where the INTID is no interrupt (§4.17).
    fn irq(&self, vcpu: u64, intid: u64) -> Option<&Irq> {
        let bank = self.bank(vcpu as usize, intid as u32 / 32)?;
        bank.get(intid as usize % 32)
    }

    /// §4.2, §4.9, §4.17.
    fn irq_mut(&mut self, vcpu: u64, intid: u64) -> Option<&mut Irq> {
        let bank = self.bank_mut(vcpu as usize, intid as u32 / 32)?;
        bank.get_mut(intid as usize % 32)
    }

    /// §4.4; 0 where there is no interrupt (§4.9, §4.17).
    pub fn pending(&self, vcpu: u64, intid: u64) -> Answer {
        self.check_irq(vcpu, intid)?;
        Ok(self.irq(vcpu, intid).is_some_and(Irq::pending) as u64)
    }

    /// §4.5: set, clear and activate.
    pub fn set_latch(&mut self, vcpu: u64, intid: u64, latch: bool) -> Answer {
        self.check_irq(vcpu, intid)?;
        if let Some(irq) = self.irq_mut(vcpu, intid) {
            irq.latch = latch;
        }
        Ok(0)
    }

    /// §4.6; of a level above 1 §4.8 speaks, for SGIs as well.
    pub fn line(&mut self, vcpu: u64, intid: u64, level: u64) -> Answer {
        self.check_irq(vcpu, intid)?;
        refuse_if(level > 1, Refusal::Invalid)?;
        if intid < SGIS as u64 {
            return Ok(0);
        }
        if let Some(irq) = self.irq_mut(vcpu, intid) {
            let rise = !irq.level && level == 1;
            irq.level = level == 1;
            irq.latch |= rise && irq.edge;
        }
        Ok(0)
    }

    /// §4.7: SGIs are passed over. An INTID that is no interrupt names its bank all the same (§4.17).
    pub fn trigger(&mut self, vcpu: u64, intid: u64, word: u32) -> Answer {
        self.check_irq(vcpu, intid)?;
        let number = intid as u32 / 32;
        let first = if number == 0 { SGIS } else { 0 };
        if let Some(bank) = self.bank_mut(vcpu as usize, number) {
            for n in first as usize..bank.len() {
                bank[n].edge = bit(word, n);
            }
        }
        Ok(0)
    }

    /// §4.11, §4.12; 0 where there is no bank (§4.9).
    pub fn latch_word(&self, vcpu: usize, bank: u32) -> u32 {
        self.bank(vcpu, bank).map_or(0, |irqs| word_of(irqs, |irq| irq.latch))
    }

    /// §4.13, §4.17.
    pub fn write_latch_word(&mut self, vcpu: usize, bank: u32, word: u32) {
        for (n, irq) in self.bank_mut(vcpu, bank).unwrap_or_default().iter_mut().enumerate() {
            irq.latch = bit(word, n);
        }
    }

    /// §4.15; 0 where there is no bank (§4.9).
    pub fn level_word(&self, vcpu: usize, bank: u32) -> u32 {
        self.bank(vcpu, bank).map_or(0, |irqs| word_of(irqs, |irq| irq.level))
    }

    /// §4.15, §4.17: no rise is looked for, and SGIs are passed over.
    pub fn write_level_word(&mut self, vcpu: usize, bank: u32, word: u32) {
        let first = if bank == 0 { SGIS as usize } else { 0 };
        for (n, irq) in self.bank_mut(vcpu, bank).unwrap_or_default().iter_mut().enumerate().skip(first) {
            irq.level = bit(word, n);
        }
    }
}
