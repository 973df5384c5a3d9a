//! Each kind of call that takes an XICS, set-up apart: for bytes on which all must be refused.

use super::Call;

/// Calls that would be good on an XICS with this server and this source, and such as would be refused for other reasons:
/// a wrong width, a number that is too large, one that nobody has.
pub fn each_kind(server: u64, source: u64) -> Vec<(Call, Vec<u8>)> {
    let idle = 0x0500_0000_ffff_0000u64.to_le_bytes().to_vec();
    let ready = (0x404_0000_0000 | server & 0xffff_ffff).to_le_bytes().to_vec();
    vec![
        (Call::AddServer { server: 0x1234_5678 }, vec![]),
        (Call::AddServer { server }, vec![]),
        (Call::AddServer { server: 1 << 32 }, vec![]),
        (Call::AddSource { source: 0x12345, server }, vec![]),
        (Call::AddSource { source, server }, vec![]),
        (Call::AddSource { source: 0x12345, server: 0x1234_5678 }, vec![]),
        (Call::AddSource { source: 1 << 20, server: 1 << 32 }, vec![]),
        (Call::SetSource { source }, ready.clone()),
        (Call::SetSource { source }, vec![0xff; 8]),
        (Call::SetSource { source }, vec![0; 7]),
        (Call::SetSource { source: 1 << 20 }, ready),
        (Call::SetServer { server }, idle.clone()),
        (Call::SetServer { server }, vec![0; 8]),
        (Call::SetServer { server }, vec![0; 9]),
        (Call::SetServer { server: 1 << 32 }, idle),
        (Call::GetSource { source }, vec![0x77; 8]),
        (Call::GetSource { source }, vec![0x77; 4]),
        (Call::GetSource { source: 1 << 20 }, vec![0x77; 8]),
        (Call::GetServer { server }, vec![0x77; 8]),
        (Call::GetServer { server }, vec![]),
        (Call::GetServer { server: 1 << 32 }, vec![0x77; 8]),
        (Call::Deliverable { source }, vec![]),
        (Call::Deliverable { source: 1 << 20 }, vec![]),
    ]
}
