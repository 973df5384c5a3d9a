//! What a directed case can do: make a call and say which answer docs/DEFINITION.md gives.

#[cfg(feature = "restore")]
use crate::call::restore_answer;
use crate::call::{Call, Device};
use crate::sides::{Held, Side};

pub struct Case<'a> {
    side: &'a mut dyn Side,
    step: usize,
    pub notes: Vec<String>,
    /// What explain answered before each restore.
    pub explained: Vec<i64>,
    /// What every call must leave as it is, for a while.
    still: Option<Held>,
}

pub const VGIC: Device = Device::Vgic;
pub const ITS: Device = Device::Its;

impl<'a> Case<'a> {
    pub fn new(side: &'a mut dyn Side) -> Case<'a> {
        Case { side, step: 0, notes: Vec::new(), explained: Vec::new(), still: None }
    }

    fn note(&mut self, call: &Call, complaint: &str) {
        self.notes.push(format!("step {}, {call:x?}: {complaint}", self.step));
    }

    fn make(&mut self, call: &Call, lent: &mut [u8]) -> i64 {
        let mut complaints = Vec::new();
        let answer = self.side.call(call, lent, &mut complaints);
        self.step += 1;
        complaints.iter().for_each(|complaint| self.note(call, complaint));
        if self.still.as_ref().is_some_and(|before| *before != self.side.held()) {
            self.note(call, "it changed the state");
        }
        answer
    }

    /// Makes the call with lent bytes and hands back what they hold after it.
    pub fn lent(&mut self, call: Call, bytes: &[u8], want: i64) -> Vec<u8> {
        #[cfg(feature = "restore")]
        if call == Call::Restore {
            self.explain_first(bytes, want);
        }
        let mut lent = bytes.to_vec();
        let answer = self.make(&call, &mut lent);
        if answer != want {
            self.note(&call, &format!("answered {answer}, expected {want}"));
        }
        lent
    }

    /// §13.1: no restore without explain right before it, on the same state and memory. What it names must be what the
    /// restore is then refused with (§13.2 to §13.4).
    #[cfg(feature = "restore")]
    fn explain_first(&mut self, memory: &[u8], restored: i64) {
        let explained = self.make(&Call::Explain, &mut memory.to_vec());
        if restore_answer(explained) != Some(restored) {
            self.note(&Call::Explain, &format!("answered {explained:#x}, a restore is expected to give {restored}"));
        }
        self.explained.push(explained);
    }

    pub fn expect(&mut self, call: Call, want: i64) {
        self.lent(call, &[], want);
    }

    /// Calls that may be accepted, but change nothing: after each of them the state is what it was, to the last byte.
    pub fn idle(&mut self, calls: impl FnOnce(&mut Case<'a>)) {
        self.still = Some(self.side.held());
        calls(self);
        self.still = None;
    }

    /// From here on the guest is one with 256 interrupts that were never set (§1.17).
    pub fn become_former(&mut self) {
        self.side.become_former();
    }

    pub fn setup(&mut self, width: u64, start: u64, length: u64, want: i64) {
        self.expect(Call::Setup { width, start, length }, want);
    }

    pub fn add(&mut self, affinity: u32, want: i64) {
        self.expect(Call::VcpuAdd { affinity }, want);
    }

    /// VCPUs with the affinities 0, 1, 2 and so on.
    pub fn adds(&mut self, count: u32) {
        (0..count).for_each(|affinity| self.add(affinity, 0));
    }

    pub fn start(&mut self, want: i64) {
        self.expect(Call::Start, want);
    }

    pub fn stop(&mut self, want: i64) {
        self.expect(Call::Stop, want);
    }

    pub fn set(&mut self, device: Device, group: u64, attribute: u64, value: &[u8], want: i64) {
        self.lent(Call::Set { device, group, attribute }, value, want);
    }

    /// A get of `preset` bytes; `after` is what they must hold afterwards.
    pub fn get(&mut self, device: Device, group: u64, attribute: u64, preset: &[u8], want: i64, after: &[u8]) {
        let held = self.lent(Call::Get { device, group, attribute }, preset, want);
        if held != after {
            self.notes.push(format!(
                "step {}, get {device:?} {group:x} {attribute:x}: lent bytes {held:x?}, expected {after:x?}",
                self.step
            ));
        }
    }

    /// A get that is refused: the bytes stay.
    pub fn no_get(&mut self, device: Device, group: u64, attribute: u64, width: usize, want: i64) {
        let preset: Vec<u8> = (0..width).map(|n| 0xc0 | n as u8).collect();
        self.get(device, group, attribute, &preset, want, &preset);
    }

    /// A 4-byte get that succeeds.
    pub fn word(&mut self, group: u64, attribute: u64, want: u32) {
        self.get(VGIC, group, attribute, &[0xee; 4], 0, &want.to_le_bytes());
    }

    /// A 4-byte set.
    pub fn put(&mut self, group: u64, attribute: u64, word: u32, want: i64) {
        self.set(VGIC, group, attribute, &word.to_le_bytes(), want);
    }

    /// A base of the VGIC: attribute 2 is the distributor, 3 the single run.
    pub fn base(&mut self, attribute: u64, address: u64, want: i64) {
        self.set(VGIC, 0, attribute, &address.to_le_bytes(), want);
    }

    pub fn its_base(&mut self, address: u64, want: i64) {
        self.set(ITS, 0, 4, &address.to_le_bytes(), want);
    }

    pub fn held_base(&mut self, device: Device, attribute: u64, address: u64) {
        self.get(device, 0, attribute, &[0xee; 8], 0, &address.to_le_bytes());
    }

    pub fn region_word(&mut self, word: u64, want: i64) {
        self.set(VGIC, 0, 5, &word.to_le_bytes(), want);
    }

    pub fn region(&mut self, index: u64, base: u64, count: u64, want: i64) {
        self.region_word(count << 52 | base | index, want);
    }

    pub fn held_region(&mut self, preset: u64, want: u64) {
        self.get(VGIC, 0, 5, &preset.to_le_bytes(), 0, &want.to_le_bytes());
    }

    pub fn init(&mut self, want: i64) {
        self.set(VGIC, 4, 0, &[], want);
    }

    /// A guest past INIT: distributor at 0x08000000, single run at 0x080A0000.
    pub fn ready(&mut self, vcpus: u32) {
        self.adds(vcpus);
        self.base(2, 0x0800_0000, 0);
        self.base(3, 0x080a_0000, 0);
        self.init(0);
    }

    pub fn redist(&mut self, vcpu: u64, want: i64) {
        self.expect(Call::RedistBase { vcpu }, want);
    }

    pub fn pending(&mut self, vcpu: u64, intid: u64, want: i64) {
        self.expect(Call::Pending { vcpu, intid }, want);
    }

    pub fn raise(&mut self, vcpu: u64, intid: u64, want: i64) {
        self.expect(Call::SetPending { vcpu, intid }, want);
    }

    pub fn clear(&mut self, vcpu: u64, intid: u64, want: i64) {
        self.expect(Call::ClearPending { vcpu, intid }, want);
    }

    pub fn activate(&mut self, vcpu: u64, intid: u64, want: i64) {
        self.expect(Call::Activate { vcpu, intid }, want);
    }

    pub fn line(&mut self, vcpu: u64, intid: u64, level: u64, want: i64) {
        self.expect(Call::Line { vcpu, intid, level }, want);
    }

    pub fn trigger(&mut self, vcpu: u64, intid: u64, word: u32, want: i64) {
        self.expect(Call::Trigger { vcpu, intid, word }, want);
    }
}
