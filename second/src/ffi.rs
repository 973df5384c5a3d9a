//! The library's C names, wrapped so that the rest of the program passes slices.

use crate::call::{Call, Device};
use crate::xics;

mod names {
    type Bytes = *const u8;
    type BytesMut = *mut u8;

    extern "C" {
        pub fn rk_state_len() -> i64;
        pub fn rk_setup(state: BytesMut, len: usize, width: u64, start: u64, length: u64) -> i64;
        pub fn rk_vcpu_add(state: BytesMut, len: usize, affinity: u32) -> i64;
        pub fn rk_vcpus_start(state: BytesMut, len: usize) -> i64;
        pub fn rk_vcpus_stop(state: BytesMut, len: usize) -> i64;
        pub fn rk_vgic_set(state: BytesMut, len: usize, group: u64, attribute: u64, value: Bytes, width: usize) -> i64;
        pub fn rk_its_set(state: BytesMut, len: usize, group: u64, attribute: u64, value: Bytes, width: usize) -> i64;
        pub fn rk_vgic_get(state: Bytes, len: usize, group: u64, attribute: u64, value: BytesMut, width: usize) -> i64;
        pub fn rk_its_get(state: Bytes, len: usize, group: u64, attribute: u64, value: BytesMut, width: usize) -> i64;
        pub fn rk_redist_base(state: Bytes, len: usize, vcpu: u64) -> i64;
        pub fn rk_irq_pending(state: Bytes, len: usize, vcpu: u64, intid: u64) -> i64;
        pub fn rk_irq_set_pending(state: BytesMut, len: usize, vcpu: u64, intid: u64) -> i64;
        pub fn rk_irq_clear_pending(state: BytesMut, len: usize, vcpu: u64, intid: u64) -> i64;
        pub fn rk_irq_activate(state: BytesMut, len: usize, vcpu: u64, intid: u64) -> i64;
        pub fn rk_irq_line(state: BytesMut, len: usize, vcpu: u64, intid: u64, level: u64) -> i64;
        pub fn rk_irq_trigger(state: BytesMut, len: usize, vcpu: u64, intid: u64, word: u32) -> i64;
    }

    extern "C" {
        pub fn rk_xics_len() -> i64;
        pub fn rk_xics_setup(xics: BytesMut, len: usize) -> i64;
        pub fn rk_xics_add_server(xics: BytesMut, len: usize, server: u64) -> i64;
        pub fn rk_xics_add_source(xics: BytesMut, len: usize, source: u64, server: u64) -> i64;
        pub fn rk_xics_set_source(xics: BytesMut, len: usize, source: u64, value: Bytes, width: usize) -> i64;
        pub fn rk_xics_set_server(xics: BytesMut, len: usize, server: u64, value: Bytes, width: usize) -> i64;
        pub fn rk_xics_get_source(xics: Bytes, len: usize, source: u64, value: BytesMut, width: usize) -> i64;
        pub fn rk_xics_get_server(xics: Bytes, len: usize, server: u64, value: BytesMut, width: usize) -> i64;
        pub fn rk_xics_deliverable(xics: Bytes, len: usize, source: u64) -> i64;
    }

    #[cfg(feature = "its")]
    extern "C" {
        pub fn rk_its_place(
            state: BytesMut,
            len: usize,
            device_start: u64,
            device_pages: u64,
            collection_start: u64,
            collection_pages: u64,
        ) -> i64;
        pub fn rk_its_map_device(state: BytesMut, len: usize, device: u64, itt: u64, bits: u64) -> i64;
        pub fn rk_its_unmap_device(state: BytesMut, len: usize, device: u64) -> i64;
        pub fn rk_its_map_collection(state: BytesMut, len: usize, icid: u64, pe: u64) -> i64;
        pub fn rk_its_unmap_collection(state: BytesMut, len: usize, icid: u64) -> i64;
        pub fn rk_its_map_event(state: BytesMut, len: usize, device: u64, event: u64, lpi: u64, icid: u64) -> i64;
        pub fn rk_its_discard(state: BytesMut, len: usize, device: u64, event: u64) -> i64;
        pub fn rk_its_move(state: BytesMut, len: usize, device: u64, event: u64, icid: u64) -> i64;
        pub fn rk_its_lookup(state: Bytes, len: usize, device: u64, event: u64) -> i64;
        pub fn rk_its_save(state: Bytes, len: usize, memory: BytesMut, length: usize) -> i64;
    }

    #[cfg(feature = "restore")]
    extern "C" {
        pub fn rk_its_restore(state: BytesMut, len: usize, memory: Bytes, length: usize) -> i64;
        pub fn rk_its_explain(state: Bytes, len: usize, memory: Bytes, length: usize) -> i64;
    }
}

/// The length of a guest's state.
pub fn state_len() -> i64 {
    // SAFETY: the call takes nothing.
    unsafe { names::rk_state_len() }
}

/// The length of an XICS.
pub fn xics_len() -> i64 {
    // SAFETY: the call takes nothing.
    unsafe { names::rk_xics_len() }
}

/// Makes one call on the lent XICS and the lent value.
pub fn xics_call(call: &xics::Call, xics: &mut [u8], value: &mut [u8]) -> i64 {
    use xics::Call;
    let (x, n) = (xics.as_mut_ptr(), xics.len());
    let (v, width) = (value.as_mut_ptr(), value.len());
    // SAFETY: pointer and length come from one slice each, borrowed for the whole call.
    unsafe {
        match *call {
            Call::Setup => names::rk_xics_setup(x, n),
            Call::AddServer { server } => names::rk_xics_add_server(x, n, server),
            Call::AddSource { source, server } => names::rk_xics_add_source(x, n, source, server),
            Call::SetSource { source } => names::rk_xics_set_source(x, n, source, v, width),
            Call::SetServer { server } => names::rk_xics_set_server(x, n, server, v, width),
            Call::GetSource { source } => names::rk_xics_get_source(x, n, source, v, width),
            Call::GetServer { server } => names::rk_xics_get_server(x, n, server, v, width),
            Call::Deliverable { source } => names::rk_xics_deliverable(x, n, source),
        }
    }
}

/// Makes one call on the lent state and the lent value or memory.
pub fn call(call: &Call, state: &mut [u8], lent: &mut [u8]) -> i64 {
    let (s, n) = (state.as_mut_ptr(), state.len());
    // SAFETY: pointer and length come from one slice each, borrowed for the whole call.
    unsafe {
        match *call {
            Call::Setup { width, start, length } => names::rk_setup(s, n, width, start, length),
            Call::VcpuAdd { affinity } => names::rk_vcpu_add(s, n, affinity),
            Call::Start => names::rk_vcpus_start(s, n),
            Call::Stop => names::rk_vcpus_stop(s, n),
            Call::Set { device, group, attribute } => set(device, group, attribute, state, lent),
            Call::Get { device, group, attribute } => get(device, group, attribute, state, lent),
            Call::RedistBase { vcpu } => names::rk_redist_base(s, n, vcpu),
            Call::Pending { vcpu, intid } => names::rk_irq_pending(s, n, vcpu, intid),
            Call::SetPending { vcpu, intid } => names::rk_irq_set_pending(s, n, vcpu, intid),
            Call::ClearPending { vcpu, intid } => names::rk_irq_clear_pending(s, n, vcpu, intid),
            Call::Activate { vcpu, intid } => names::rk_irq_activate(s, n, vcpu, intid),
            Call::Line { vcpu, intid, level } => names::rk_irq_line(s, n, vcpu, intid, level),
            Call::Trigger { vcpu, intid, word } => names::rk_irq_trigger(s, n, vcpu, intid, word),
            #[cfg(feature = "its")]
            _ => its_call(call, state, lent),
        }
    }
}

fn set(device: Device, group: u64, attribute: u64, state: &mut [u8], value: &[u8]) -> i64 {
    let (s, n) = (state.as_mut_ptr(), state.len());
    // SAFETY: as above.
    unsafe {
        match device {
            Device::Vgic => names::rk_vgic_set(s, n, group, attribute, value.as_ptr(), value.len()),
            Device::Its => names::rk_its_set(s, n, group, attribute, value.as_ptr(), value.len()),
        }
    }
}

fn get(device: Device, group: u64, attribute: u64, state: &mut [u8], value: &mut [u8]) -> i64 {
    let (s, n) = (state.as_mut_ptr(), state.len());
    // SAFETY: as above.
    unsafe {
        match device {
            Device::Vgic => names::rk_vgic_get(s, n, group, attribute, value.as_mut_ptr(), value.len()),
            Device::Its => names::rk_its_get(s, n, group, attribute, value.as_mut_ptr(), value.len()),
        }
    }
}

#[cfg(feature = "its")]
fn its_call(call: &Call, state: &mut [u8], lent: &mut [u8]) -> i64 {
    let (s, n) = (state.as_mut_ptr(), state.len());
    // SAFETY: as above.
    unsafe {
        match *call {
            Call::Place { device_start, device_pages, collection_start, collection_pages } => {
                names::rk_its_place(s, n, device_start, device_pages, collection_start, collection_pages)
            }
            Call::MapDevice { device, itt, bits } => names::rk_its_map_device(s, n, device, itt, bits),
            Call::UnmapDevice { device } => names::rk_its_unmap_device(s, n, device),
            Call::MapCollection { icid, pe } => names::rk_its_map_collection(s, n, icid, pe),
            Call::UnmapCollection { icid } => names::rk_its_unmap_collection(s, n, icid),
            Call::MapEvent { device, event, lpi, icid } => names::rk_its_map_event(s, n, device, event, lpi, icid),
            Call::Discard { device, event } => names::rk_its_discard(s, n, device, event),
            Call::Move { device, event, icid } => names::rk_its_move(s, n, device, event, icid),
            Call::Lookup { device, event } => names::rk_its_lookup(s, n, device, event),
            Call::Save => names::rk_its_save(s, n, lent.as_mut_ptr(), lent.len()),
            #[cfg(feature = "restore")]
            Call::Restore => names::rk_its_restore(s, n, lent.as_ptr(), lent.len()),
            #[cfg(feature = "restore")]
            Call::Explain => names::rk_its_explain(s, n, lent.as_ptr(), lent.len()),
            _ => unreachable!("made above"),
        }
    }
}
