//! Part 3 without its VCPUs: bases, regions, VGIC INIT and where each redistributor lies.

use super::answer::{refuse_if, Answer, Refusal};
use super::guest::{Area, Guest, REGION_LIMIT};

/// §3.5.
pub const FRAME_STEP: u64 = 65_536;
/// §3.3.
pub const DISTRIBUTOR_SIZE: u128 = 64 * 1024;
/// §3.3.
pub const ITS_SIZE: u128 = 128 * 1024;
/// §3.3: of each redistributor.
pub const REDIST_SIZE: u128 = 128 * 1024;

#[derive(Clone, Copy, PartialEq, Eq, Debug)]
pub struct Region {
    pub base: u64,
    pub count: u64,
}

#[derive(Clone, PartialEq, Debug, Default)]
pub struct Frames {
    pub distributor: Option<u64>,
    pub single: Option<u64>,
    pub its: Option<u64>,
    pub regions: Vec<Region>,
}

/// §3.5: the bases that an attribute of their own sets.
#[derive(Clone, Copy, PartialEq, Eq, Debug)]
pub enum Base {
    Distributor,
    Single,
    Its,
}

impl Region {
    /// §3.7.
    pub fn area(&self) -> Area {
        Area::new(self.base, self.count as u128 * REDIST_SIZE)
    }

    /// §3.7, with flags 0 (§3.10).
    pub fn word(&self, index: u64) -> u64 {
        self.count << 52 | self.base | index
    }
}

impl Guest {
    fn slot(&mut self, base: Base) -> &mut Option<u64> {
        match base {
            Base::Distributor => &mut self.frames.distributor,
            Base::Single => &mut self.frames.single,
            Base::Its => &mut self.frames.its,
        }
    }

    /// §3.6; `at_init` in the test of INIT itself.
    fn single_size(&self, at_init: bool) -> u128 {
        if self.initialised || at_init {
            self.vcpus.len() as u128 * REDIST_SIZE
        } else {
            REDIST_SIZE
        }
    }

    /// §3.3, §3.6.
    fn base_size(&self, base: Base) -> u128 {
        match base {
            Base::Distributor => DISTRIBUTOR_SIZE,
            Base::Single => self.single_size(false),
            Base::Its => ITS_SIZE,
        }
    }

    /// Every frame that stands (§3.4).
    pub fn standing(&self) -> Vec<Area> {
        let mut areas = self.standing_but_single();
        areas.extend(self.frames.single.map(|base| Area::new(base, self.single_size(false))));
        areas
    }

    /// The same without the single run: INIT holds the whole of it against them (§3.11).
    fn standing_but_single(&self) -> Vec<Area> {
        let mut areas: Vec<Area> = self.frames.regions.iter().map(Region::area).collect();
        areas.extend(self.frames.distributor.map(|base| Area::new(base, DISTRIBUTOR_SIZE)));
        areas.extend(self.frames.its.map(|base| Area::new(base, ITS_SIZE)));
        areas
    }

    /// The last two tests of §3.5 and §3.8.
    fn check_place(&self, area: Area) -> Result<(), Refusal> {
        refuse_if(area.end > self.top(), Refusal::AboveTop)?;
        refuse_if(self.standing().iter().any(|other| other.overlaps(&area)), Refusal::Invalid)
    }

    /// §3.5.
    pub fn set_base(&mut self, base: Base, address: u64) -> Answer {
        refuse_if(base == Base::Single && !self.frames.regions.is_empty(), Refusal::Invalid)?;
        refuse_if(self.slot(base).is_some(), Refusal::Exists)?;
        refuse_if(address % FRAME_STEP != 0, Refusal::Invalid)?;
        self.check_place(Area::new(address, self.base_size(base)))?;
        *self.slot(base) = Some(address);
        Ok(0)
    }

    /// §3.9.
    pub fn get_base(&mut self, base: Base) -> Answer {
        refuse_if(base == Base::Single && !self.frames.regions.is_empty(), Refusal::Invalid)?;
        (*self.slot(base)).ok_or(Refusal::Missing)
    }

    /// §3.8, before INIT and after it.
    pub fn add_region(&mut self, word: u64) -> Answer {
        let (index, flags) = (word & 0xfff, word >> 12 & 0xf);
        let region = Region { base: word & 0x000f_ffff_ffff_0000, count: word >> 52 };
        let standing = self.frames.regions.len();
        refuse_if(self.frames.single.is_some(), Refusal::Invalid)?;
        refuse_if(flags != 0, Refusal::Invalid)?;
        refuse_if(region.count == 0, Refusal::Invalid)?;
        refuse_if(index != standing as u64, Refusal::Invalid)?;
        refuse_if(standing >= REGION_LIMIT, Refusal::Limit)?;
        self.check_place(region.area())?;
        self.frames.regions.push(region);
        Ok(0)
    }

    /// §3.10.
    pub fn get_region(&self, lent: u64) -> Answer {
        refuse_if(self.frames.single.is_some(), Refusal::Invalid)?;
        let index = lent & 0xfff;
        let region = self.frames.regions.get(index as usize).ok_or(Refusal::Missing)?;
        Ok(region.word(index))
    }

    /// §3.11.
    pub fn init(&mut self) -> Answer {
        if self.initialised {
            return Ok(0);
        }
        refuse_if(self.vcpus.is_empty(), Refusal::NoDevice)?;
        refuse_if(self.frames.distributor.is_none(), Refusal::NotReady)?;
        refuse_if(!self.redistributors_fit(), Refusal::NotReady)?;
        self.initialised = true;
        Ok(0)
    }

    /// §3.11: what it says of the single run and of the regions.
    fn redistributors_fit(&self) -> bool {
        if let Some(base) = self.frames.single {
            let whole = Area::new(base, self.single_size(true));
            return whole.end <= self.top() && !self.standing_but_single().iter().any(|other| other.overlaps(&whole));
        }
        let sum: u64 = self.frames.regions.iter().map(|region| region.count).sum();
        !self.frames.regions.is_empty() && sum >= self.vcpus.len() as u64
    }

    /// §3.12: the single run is one region, of all the VCPUs.
    fn places(&self) -> Vec<Region> {
        match self.frames.single {
            Some(base) => vec![Region { base, count: self.vcpus.len() as u64 }],
            None => self.frames.regions.clone(),
        }
    }

    /// §3.13, and §3.12 for the address.
    pub fn redist_base(&self, k: u64) -> Answer {
        refuse_if(!self.initialised, Refusal::NotReady)?;
        refuse_if(k >= self.vcpus.len() as u64, Refusal::Invalid)?;
        let mut before = 0;
        for place in self.places() {
            if before + place.count > k {
                return Ok(place.base + 131_072 * (k - before));
            }
            before += place.count;
        }
        unreachable!("INIT found a place for every VCPU")
    }
}
