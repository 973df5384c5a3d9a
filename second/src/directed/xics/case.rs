//! What a directed case of part 14 can do: make a call and say what docs/DEFINITION.md gives for it, the answer, the value
//! and every byte of the XICS.

use crate::xics::sides::Side;
use crate::xics::Call;

/// 8 bytes, little endian, at a place of the XICS (§14.2).
pub type Put = (usize, u64);

pub struct Case<'a> {
    side: &'a mut dyn Side,
    step: usize,
    pub notes: Vec<String>,
    /// Rows that were registered since the last set-up.
    servers: usize,
    sources: usize,
}

/// The bytes with these numbers written over them.
pub fn with(bytes: &[u8], puts: &[Put]) -> Vec<u8> {
    let mut bytes = bytes.to_vec();
    puts.iter().for_each(|(at, number)| bytes[*at..*at + 8].copy_from_slice(&number.to_le_bytes()));
    bytes
}

impl<'a> Case<'a> {
    pub fn new(side: &'a mut dyn Side) -> Case<'a> {
        Case { side, step: 0, notes: Vec::new(), servers: 0, sources: 0 }
    }

    pub fn bytes(&self) -> Vec<u8> {
        self.side.bytes().to_vec()
    }

    /// Other bytes are lent from now on.
    pub fn lend(&mut self, bytes: &[u8]) {
        self.side.lend(bytes);
    }

    /// Writes numbers into the lent bytes.
    pub fn write(&mut self, puts: &[Put]) {
        let bytes = with(self.side.bytes(), puts);
        self.side.lend(&bytes);
    }

    /// Makes the call: the answer, the numbers that it writes into the XICS and nothing else there, the value after it.
    pub fn make(&mut self, call: Call, value: &[u8], want: i64, puts: &[Put], after: &[u8]) {
        let bytes = with(self.side.bytes(), puts);
        let (mut lent, mut notes) = (value.to_vec(), Vec::new());
        let answer = self.side.call(&call, &mut lent, &mut notes);
        self.step += 1;
        if answer != want {
            notes.push(format!("answered {answer}, expected {want}"));
        }
        if lent != after {
            notes.push(format!("the value is {lent:02x?}, expected {after:02x?}"));
        }
        if let Some(at) = (0..bytes.len()).find(|at| self.side.bytes()[*at] != bytes[*at]) {
            notes.push(format!("byte {at} is {:#x}, expected {:#x}", self.side.bytes()[at], bytes[at]));
        }
        self.notes.extend(notes.iter().map(|note| format!("step {}, {call:x?}: {note}", self.step)));
    }

    /// A refused call: nothing changes.
    pub fn refuse(&mut self, call: Call, value: &[u8], want: i64) {
        self.make(call, value, want, &[], value);
    }

    /// §14.4: only the two numbers of rows are written.
    pub fn setup(&mut self) {
        self.make(Call::Setup, &[], 0, &[(0, 0), (8, 0)], &[]);
        (self.servers, self.sources) = (0, 0);
    }

    /// §14.7: one more row of 16 bytes from 16 on.
    pub fn server(&mut self, server: u64) {
        let row = 16 + 16 * self.servers;
        self.servers += 1;
        let puts = [(0, self.servers as u64), (row, server), (row + 8, 0x0000_0000_ffff_0000)];
        self.make(Call::AddServer { server }, &[], 0, &puts, &[]);
    }

    /// §14.8: one more row of 16 bytes from 1,040 on.
    pub fn source(&mut self, source: u64, server: u64) {
        let row = 1040 + 16 * self.sources;
        self.sources += 1;
        let puts = [(8, self.sources as u64), (row, source), (row + 8, 0x0000_02ff_0000_0000 + server)];
        self.make(Call::AddSource { source, server }, &[], 0, &puts, &[]);
    }

    pub fn no_server(&mut self, server: u64, want: i64) {
        self.refuse(Call::AddServer { server }, &[], want);
    }

    pub fn no_source(&mut self, source: u64, server: u64, want: i64) {
        self.refuse(Call::AddSource { source, server }, &[], want);
    }

    /// §14.9: an accepted set of the source in this row.
    pub fn set_source(&mut self, row: usize, source: u64, word: u64) {
        let value = word.to_le_bytes();
        self.make(Call::SetSource { source }, &value, 0, &[(1048 + 16 * row, word)], &value);
    }

    /// §14.10: an accepted set of the server in this row, and the word that stands then.
    pub fn set_server(&mut self, row: usize, server: u64, word: u64, held: u64) {
        let value = word.to_le_bytes();
        self.make(Call::SetServer { server }, &value, 0, &[(24 + 16 * row, held)], &value);
    }

    pub fn no_set_source(&mut self, source: u64, word: u64, want: i64) {
        self.refuse(Call::SetSource { source }, &word.to_le_bytes(), want);
    }

    pub fn no_set_server(&mut self, server: u64, word: u64, want: i64) {
        self.refuse(Call::SetServer { server }, &word.to_le_bytes(), want);
    }

    /// §14.11: an accepted get.
    pub fn source_is(&mut self, source: u64, word: u64) {
        self.make(Call::GetSource { source }, &[0xee; 8], 0, &[], &word.to_le_bytes());
    }

    pub fn server_is(&mut self, server: u64, word: u64) {
        self.make(Call::GetServer { server }, &[0xee; 8], 0, &[], &word.to_le_bytes());
    }

    pub fn no_get_source(&mut self, source: u64, want: i64) {
        self.refuse(Call::GetSource { source }, &[0xee; 8], want);
    }

    pub fn no_get_server(&mut self, server: u64, want: i64) {
        self.refuse(Call::GetServer { server }, &[0xee; 8], want);
    }

    /// §14.11: 1 or 0, or a refusal.
    pub fn deliverable(&mut self, source: u64, want: i64) {
        self.refuse(Call::Deliverable { source }, &[], want);
    }

    /// Servers with the numbers from 100 on.
    pub fn servers(&mut self, count: u64) {
        (100..100 + count).for_each(|server| self.server(server));
    }

    /// Sources with the numbers from 200 on, all of one server.
    pub fn sources(&mut self, count: u64, server: u64) {
        (200..200 + count).for_each(|source| self.source(source, server));
    }
}
