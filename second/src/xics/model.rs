//! The model of part 14: an XICS as lists of numbers with their fields, and each call on it. It has no bytes; the test of
//! the lent bytes (§14.3) is in `sides.rs`.

use super::call::Call;
use crate::model::answer::{refuse_if, Answer, Refusal};

/// §14.1: so many servers, and so many sources.
pub const MOST: usize = 64;
/// §14.1: servers' numbers are below this.
pub const SERVERS_END: u64 = 1 << 32;
/// §14.1: sources' numbers are below this.
pub const SOURCES_END: u64 = 1 << 20;
/// §14.9 to §14.11: the bytes of a lent word.
pub const WIDTH: usize = 8;
/// §14.7, §14.8: the priority of nothing.
const LOWEST: u8 = 255;

/// §14.5.
#[derive(Clone, Copy, Debug, PartialEq, Eq)]
pub struct Source {
    pub destination: u32,
    pub priority: u8,
    pub level: bool,
    pub masked: bool,
    pub pending: bool,
}

impl Source {
    /// §14.8: what is registered.
    fn fresh(server: u64) -> Source {
        Source { destination: server as u32, priority: LOWEST, level: false, masked: true, pending: false }
    }

    /// §14.5: the fields of a word; what lies above them is not looked at here.
    pub fn of(word: u64) -> Source {
        Source {
            destination: word as u32,
            priority: (word >> 32) as u8,
            level: word >> 40 & 1 == 1,
            masked: word >> 41 & 1 == 1,
            pending: word >> 42 & 1 == 1,
        }
    }

    pub fn word(&self) -> u64 {
        let marks = (self.level as u64) + 2 * (self.masked as u64) + 4 * (self.pending as u64);
        marks << 40 | (self.priority as u64) << 32 | self.destination as u64
    }
}

/// §14.6.
#[derive(Clone, Copy, Debug, PartialEq, Eq)]
pub struct Server {
    pub pending: u8,
    pub ipi: u8,
    pub source: u32,
    pub current: u8,
}

impl Server {
    /// §14.7: what is registered.
    fn fresh() -> Server {
        Server { pending: LOWEST, ipi: LOWEST, source: 0, current: 0 }
    }

    /// §14.6: the fields of a word; bits 15:0 are not used.
    pub fn of(word: u64) -> Server {
        Server {
            pending: (word >> 16) as u8,
            ipi: (word >> 24) as u8,
            source: (word >> 32) as u32 & 0xff_ffff,
            current: (word >> 56) as u8,
        }
    }

    pub fn word(&self) -> u64 {
        let low = (self.ipi as u64) << 24 | (self.pending as u64) << 16;
        (self.current as u64) << 56 | (self.source as u64) << 32 | low
    }
}

/// §14.1: what is registered, in the order of registering (§14.2).
#[derive(Clone, Debug, PartialEq, Eq, Default)]
pub struct Xics {
    pub servers: Vec<(u64, Server)>,
    pub sources: Vec<(u64, Source)>,
}

/// §14.9, §14.10: a lent word is little endian (§2.8).
fn lent(value: &[u8]) -> Result<u64, Refusal> {
    refuse_if(value.len() != WIDTH, Refusal::Outside)?;
    Ok(value.iter().rev().fold(0, |word, byte| word << 8 | *byte as u64))
}

/// §14.11.
fn fill(value: &mut [u8], word: u64) -> Answer {
    (0..WIDTH).for_each(|n| value[n] = (word >> (8 * n)) as u8);
    Ok(0)
}

impl Xics {
    /// A call on a sound XICS of the right length.
    pub fn call(&mut self, call: &Call, value: &mut [u8]) -> Answer {
        match *call {
            Call::Setup => unreachable!("set-up does not look at what there is"),
            Call::AddServer { server } => self.add_server(server),
            Call::AddSource { source, server } => self.add_source(source, server),
            Call::SetSource { source } => self.set_source(source, value),
            Call::SetServer { server } => self.set_server(server, value),
            Call::GetSource { source } => self.get_source(source, value),
            Call::GetServer { server } => self.get_server(server, value),
            Call::Deliverable { source } => self.deliverable(source),
        }
    }

    pub fn server(&self, number: u64) -> Option<&Server> {
        self.servers.iter().find(|row| row.0 == number).map(|row| &row.1)
    }

    pub fn source(&self, number: u64) -> Option<&Source> {
        self.sources.iter().find(|row| row.0 == number).map(|row| &row.1)
    }

    /// §14.7.
    fn add_server(&mut self, server: u64) -> Answer {
        refuse_if(server >= SERVERS_END, Refusal::Invalid)?;
        refuse_if(self.server(server).is_some(), Refusal::Exists)?;
        refuse_if(self.servers.len() >= MOST, Refusal::Limit)?;
        self.servers.push((server, Server::fresh()));
        Ok(0)
    }

    /// §14.8.
    fn add_source(&mut self, source: u64, server: u64) -> Answer {
        refuse_if(source >= SOURCES_END, Refusal::Invalid)?;
        refuse_if(server >= SERVERS_END, Refusal::Invalid)?;
        refuse_if(self.source(source).is_some(), Refusal::Exists)?;
        refuse_if(self.server(server).is_none(), Refusal::Missing)?;
        refuse_if(self.sources.len() >= MOST, Refusal::Limit)?;
        self.sources.push((source, Source::fresh(server)));
        Ok(0)
    }

    /// §14.9.
    fn set_source(&mut self, source: u64, value: &[u8]) -> Answer {
        let word = lent(value)?;
        let row = self.sources.iter().position(|row| row.0 == source).ok_or(Refusal::Missing)?;
        refuse_if(word >= 1 << 43, Refusal::Invalid)?;
        let new = Source::of(word);
        refuse_if(self.server(new.destination as u64).is_none(), Refusal::Invalid)?;
        self.sources[row].1 = new;
        Ok(0)
    }

    /// §14.10. The fields do not have bits 15:0, so that these come back as 0.
    fn set_server(&mut self, server: u64, value: &[u8]) -> Answer {
        let new = Server::of(lent(value)?);
        let row = self.servers.iter().position(|row| row.0 == server).ok_or(Refusal::Missing)?;
        refuse_if(new.source == 0 && new.pending != LOWEST, Refusal::Invalid)?;
        refuse_if(new.pending == LOWEST && new.source != 0, Refusal::Invalid)?;
        self.servers[row].1 = new;
        Ok(0)
    }

    /// §14.11.
    fn get_source(&self, source: u64, value: &mut [u8]) -> Answer {
        refuse_if(value.len() != WIDTH, Refusal::Outside)?;
        fill(value, self.source(source).ok_or(Refusal::Missing)?.word())
    }

    /// §14.11.
    fn get_server(&self, server: u64, value: &mut [u8]) -> Answer {
        refuse_if(value.len() != WIDTH, Refusal::Outside)?;
        fill(value, self.server(server).ok_or(Refusal::Missing)?.word())
    }

    /// §14.11, §14.16.
    fn deliverable(&self, source: u64) -> Answer {
        let source = self.source(source).ok_or(Refusal::Missing)?;
        let server = self.server(source.destination as u64).expect("§14.12: every destination is registered");
        Ok((source.pending && !source.masked && source.priority < server.current) as u64)
    }
}
