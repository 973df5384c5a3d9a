//! The attribute calls: names (§2.6, §2.7), values (§2.8) and the order of the tests (§2.5); then the interrupt count
//! (§3.14) and the registers of part 4.

use super::answer::{refuse_if, Answer, Refusal};
use super::banks::fresh_shared;
use super::frames::Base;
use super::guest::Guest;
use crate::call::Device;

/// §2.7: what a group and an attribute name.
#[derive(Clone, Copy, PartialEq, Eq, Debug)]
pub enum Name {
    Base(Base),
    Region,
    Count,
    Init,
    Distributor(Register),
    Redistributor(u32, Register),
    Level(u64),
    ItsInit,
    ItsReset,
    /// Save and restore by the set call: no length is right (§2.9).
    ItsTables,
}

/// §4.11, §4.12.
#[derive(Clone, Copy, PartialEq, Eq, Debug)]
pub enum Register {
    Latch(u32),
    /// Reads 0 and ignores writes.
    Zero,
    Status,
}

/// §4.11: the offsets of group 1.
fn distributor_register(offset: u32) -> Option<Register> {
    match offset {
        0x0010 => Some(Register::Status),
        0x200 => Some(Register::Zero),
        0x204..=0x27c if offset % 4 == 0 => Some(Register::Latch((offset - 0x200) / 4)),
        0x280..=0x2fc if offset % 4 == 0 => Some(Register::Zero),
        _ => None,
    }
}

/// §4.12: the offsets of group 5.
fn redistributor_register(offset: u32) -> Option<Register> {
    match offset {
        0x0010 => Some(Register::Status),
        0x10200 => Some(Register::Latch(0)),
        0x10280 => Some(Register::Zero),
        _ => None,
    }
}

/// §2.6, §2.7: each of the 64 bits counts, but in group 1.
fn vgic_name(group: u64, attribute: u64) -> Option<Name> {
    let offset = attribute as u32;
    let affinity = (attribute >> 32) as u32;
    match (group, attribute) {
        (0, 2) => Some(Name::Base(Base::Distributor)),
        (0, 3) => Some(Name::Base(Base::Single)),
        (0, 5) => Some(Name::Region),
        (1, _) => distributor_register(offset).map(Name::Distributor),
        (3, 0) => Some(Name::Count),
        (4, 0) => Some(Name::Init),
        (5, _) => redistributor_register(offset).map(|register| Name::Redistributor(affinity, register)),
        (7, _) => Some(Name::Level(attribute)),
        _ => None,
    }
}

/// §2.6, §2.7: in group 0 every other attribute is -19.
fn its_name(group: u64, attribute: u64) -> Result<Name, Refusal> {
    match (group, attribute) {
        (0, 4) => Ok(Name::Base(Base::Its)),
        (0, _) => Err(Refusal::NoDevice),
        (4, 0) => Ok(Name::ItsInit),
        (4, 1) | (4, 2) => Ok(Name::ItsTables),
        (4, 4) => Ok(Name::ItsReset),
        _ => Err(Refusal::Unknown),
    }
}

/// §2.6: a name is looked for before anything else.
fn name_of(device: Device, group: u64, attribute: u64) -> Result<Name, Refusal> {
    match device {
        Device::Vgic => vgic_name(group, attribute).ok_or(Refusal::Unknown),
        Device::Its => its_name(group, attribute),
    }
}

/// §2.7: the width of a value in bytes. None is right where memory would have to be lent (§2.9).
fn width_of(name: Name) -> Option<usize> {
    match name {
        Name::Base(_) | Name::Region => Some(8),
        Name::Count | Name::Distributor(_) | Name::Redistributor(..) | Name::Level(_) => Some(4),
        Name::Init | Name::ItsInit | Name::ItsReset => Some(0),
        Name::ItsTables => None,
    }
}

/// §2.8.
fn check_width(name: Name, value: &[u8]) -> Result<(), Refusal> {
    refuse_if(width_of(name) != Some(value.len()), Refusal::Outside)
}

/// §2.8: little endian.
fn read_value(value: &[u8]) -> u64 {
    value.iter().rev().fold(0, |number, byte| number << 8 | *byte as u64)
}

/// §2.8: the whole value.
fn write_value(value: &mut [u8], number: u64) {
    for (n, byte) in value.iter_mut().enumerate() {
        *byte = (number >> (8 * n)) as u8;
    }
}

impl Guest {
    /// §2.5: the name, the width, and then what the function of the name tests.
    pub fn set(&mut self, device: Device, group: u64, attribute: u64, value: &[u8]) -> Answer {
        let name = name_of(device, group, attribute)?;
        check_width(name, value)?;
        let number = read_value(value);
        match name {
            Name::Base(base) => self.set_base(base, number),
            Name::Region => self.add_region(number),
            Name::Count => self.set_count(number),
            Name::Init => self.init(),
            Name::Distributor(register) => self.set_distributor(register, number as u32),
            Name::Redistributor(affinity, register) => self.set_redistributor(affinity, register, number as u32),
            Name::Level(attribute) => self.set_level(attribute, number as u32),
            #[cfg(feature = "its")]
            Name::ItsInit => self.its_init(),
            #[cfg(feature = "its")]
            Name::ItsReset => self.its_reset(),
            _ => Err(Refusal::NotReady),
        }
    }

    /// As a set, but group 4 has none (§2.9). A get of the count is refused by nothing else (§3.15).
    pub fn get(&mut self, device: Device, group: u64, attribute: u64, value: &mut [u8]) -> Answer {
        refuse_if(group == 4, Refusal::Unknown)?;
        let name = name_of(device, group, attribute)?;
        check_width(name, value)?;
        let number = match name {
            Name::Base(base) => self.get_base(base)?,
            Name::Region => self.get_region(read_value(value))?,
            Name::Count => self.count as u64,
            Name::Distributor(register) => self.get_distributor(register)?,
            Name::Redistributor(affinity, register) => self.get_redistributor(affinity, register)?,
            Name::Level(attribute) => self.get_level(attribute)?,
            _ => return Err(Refusal::Unknown),
        };
        write_value(value, number);
        Ok(0)
    }

    /// §3.14.
    fn set_count(&mut self, number: u64) -> Answer {
        refuse_if(number < 64 || number > 1024 || number % 32 != 0, Refusal::Invalid)?;
        refuse_if(self.count_set || self.initialised, Refusal::Busy)?;
        self.count = number as u32;
        self.count_set = true;
        self.shared = fresh_shared(self.count);
        Ok(0)
    }

    /// §4.10, §4.15: groups 1, 5 and 7.
    fn check_ready(&self) -> Result<(), Refusal> {
        refuse_if(!self.initialised, Refusal::NotReady)
    }

    /// §4.10: groups 1 and 5, a get as well as a set.
    fn check_stopped(&self) -> Result<(), Refusal> {
        refuse_if(self.running, Refusal::Busy)
    }

    /// §4.11, §4.13, §4.14. Its latch words are those of the shared banks: no VCPU has a part in them.
    fn set_distributor(&mut self, register: Register, word: u32) -> Answer {
        self.check_ready()?;
        self.check_stopped()?;
        match register {
            Register::Latch(bank) => self.write_latch_word(0, bank, word),
            Register::Zero => {}
            Register::Status => self.status = word & 0xf,
        }
        Ok(0)
    }

    /// §4.11, §4.14.
    fn get_distributor(&self, register: Register) -> Answer {
        self.check_ready()?;
        self.check_stopped()?;
        Ok(match register {
            Register::Latch(bank) => self.latch_word(0, bank) as u64,
            Register::Zero => 0,
            Register::Status => self.status as u64,
        })
    }

    /// §4.12: an affinity is no name (§2.6), and so comes after the tests of §4.10.
    fn redistributor(&self, affinity: u32) -> Result<usize, Refusal> {
        self.check_ready()?;
        self.check_stopped()?;
        self.vcpu_of(affinity).ok_or(Refusal::Invalid)
    }

    /// §4.12, §4.13, §4.14.
    fn set_redistributor(&mut self, affinity: u32, register: Register, word: u32) -> Answer {
        let vcpu = self.redistributor(affinity)?;
        match register {
            Register::Latch(bank) => self.write_latch_word(vcpu, bank, word),
            Register::Zero => {}
            Register::Status => self.vcpus[vcpu].status = word & 0xf,
        }
        Ok(0)
    }

    /// §4.12, §4.14.
    fn get_redistributor(&self, affinity: u32, register: Register) -> Answer {
        let vcpu = self.redistributor(affinity)?;
        Ok(match register {
            Register::Latch(bank) => self.latch_word(vcpu, bank) as u64,
            Register::Zero => 0,
            Register::Status => self.vcpus[vcpu].status as u64,
        })
    }

    /// §4.15: the parts of the attribute, and their tests. vINTID 0 alone has use for the affinity.
    fn level_bank(&self, attribute: u64) -> Result<(usize, u32), Refusal> {
        self.check_ready()?;
        let (affinity, info, vintid) = ((attribute >> 32) as u32, attribute >> 10 & 0x3f_ffff, attribute & 0x3ff);
        refuse_if(info != 0, Refusal::Invalid)?;
        refuse_if(vintid % 32 != 0, Refusal::Invalid)?;
        if vintid == 0 {
            let vcpu = self.vcpu_of(affinity).ok_or(Refusal::Invalid)?;
            return Ok((vcpu, 0));
        }
        Ok((0, vintid as u32 / 32))
    }

    /// §4.15.
    fn set_level(&mut self, attribute: u64, word: u32) -> Answer {
        let (vcpu, bank) = self.level_bank(attribute)?;
        self.write_level_word(vcpu, bank, word);
        Ok(0)
    }

    /// §4.15.
    fn get_level(&self, attribute: u64) -> Answer {
        let (vcpu, bank) = self.level_bank(attribute)?;
        Ok(self.level_word(vcpu, bank) as u64)
    }
}
