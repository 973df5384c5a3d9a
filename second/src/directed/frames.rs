//! Part 3: VCPUs and frames.

use super::case::{Case, ITS, VGIC};

pub const CASES: &[(&str, fn(&mut Case))] = &[
    ("§3.1 a VCPU after INIT is -16", add_after_init),
    ("§3.1 an affinity that is taken is -22, with 64 VCPUs too", taken_affinity),
    ("§3.1, §4.12 affinities are 32 bits wide", wide_affinities),
    ("§3.2 start and stop: -6 before INIT, then 0 however often", start_and_stop),
    ("§3.5 a base that is not divisible by 65,536 is -22", misaligned),
    ("§3.5, §2.10 a frame may end at 2^p, not above", top_of_space),
    ("§2.10, §3.5, §3.8 sums do not wrap", no_wrap),
    ("§3.5 a base that is set already is -17, before its other faults", set_twice),
    ("§3.5, §3.9 attribute 3 while a region stands is -22", single_after_regions),
    ("§3.3 the distributor has 64 KiB, a redistributor and the ITS 128 KiB", sizes),
    ("§3.4, §3.5 an overlap is -22, a neighbour is no overlap", overlaps),
    ("§3.5, §3.8 -7 comes before the overlap", top_before_overlap),
    ("§3.6 before INIT the single run is one redistributor", single_before_init),
    ("§3.6, §3.11 at INIT the single run is whole: overlap -6", whole_overlap_at_init),
    ("§3.6, §3.11 at INIT the single run is whole: end above 2^p -6", whole_top_at_init),
    ("§3.6 after INIT the single run is whole", whole_after_init),
    ("§3.7, §2.11, §12.1 the fields of a region's word", region_fields),
    ("§3.8, §3.10 a region while the single run stands is -22", region_after_single),
    ("§3.8 a flag of a region is -22", region_flags),
    ("§3.8, §12.12 a region with count 0 is -22", region_count_zero),
    ("§3.8 an index that is not the number of regions is -22", region_index),
    ("§3.8 with 32 regions index 32 is -12, any other -22", region_full),
    ("§3.8 -12 comes before -7 and the overlap", region_full_first),
    ("§3.8, §2.10 a region may end at 2^p, not above", region_top),
    ("§3.8, §3.4 the overlap of a region is -22", region_overlap),
    ("§2.4, §3.8 a refused region is not there", region_refused),
    ("§3.8 regions may be added after INIT, beside a single run never", region_after_init),
    ("§3.10 get 5 looks at the index alone", get_region),
    ("§3.10 get 5 while the single run stands is -22", get_region_single),
    ("§3.9 get 3 while a region stands is -22; a base that is not set is -2", get_bases),
    ("§3.11, §2.5 INIT without a VCPU is -19, before its -6", init_no_vcpu),
    ("§3.11 INIT without a distributor or a redistributor place is -6", init_missing),
    ("§3.11 INIT with fewer places in regions than VCPUs is -6", init_counts),
    ("§3.11 a repeated INIT is 0, while running too", init_again),
    ("§3.11, §2.4 a refused INIT can be made good", init_made_good),
    ("§3.12, §3.13 frames of VCPUs in the single run", redist_single),
    ("§3.12, §3.13, §12.5 frames of VCPUs in regions", redist_regions),
    ("§3.12 the region of a VCPU is the first whose sum is above its number", redist_sums),
    ("§3.13 a number that no VCPU has is -22", redist_bad),
    ("§3.14 the interrupt count is 64, 96 and so on up to 1,024", count_values),
    ("§3.14 the interrupt count is set once, before INIT", count_once),
    ("§3.14, §1.5 setting the 64 that a fresh guest has counts as set", count_that_stands),
    ("§3.14 a refused set of the interrupt count does not count as set", count_refused),
    ("§3.14, §1.5 after INIT a count that was never set is -16 too", count_after_init),
    ("§3.14, §4.3 the shared banks of a new count are fresh, and there are no more", count_banks),
    ("§3.15 the interrupt count is read at any time", count_read),
    ("§2.5, §3.15 groups 0 and 3 do not look at running", running_is_no_fault),
    ("§3.4 frames may lie over guest memory", over_memory),
];

const K64: u64 = 0x1_0000;
const K128: u64 = 0x2_0000;
const TOP: u64 = 1 << 40;

fn add_after_init(c: &mut Case) {
    c.ready(2);
    c.add(9, -16);
    c.add(0, -16);
    c.start(0);
    c.add(9, -16);
}

fn taken_affinity(c: &mut Case) {
    c.add(5, 0);
    c.add(5, -22);
    c.add(6, 0);
    c.add(5, -22);
    c.add(6, -22);
    for affinity in 100..162 {
        c.add(affinity, 0);
    }
    c.add(5, -22);
    c.add(161, -22);
    c.add(7, -12);
}

fn wide_affinities(c: &mut Case) {
    for affinity in [0, 0xffff_ffff, 0x8000_0000, 0x0100_0000, 0x0001_0000, 0x0000_0100, 1] {
        c.add(affinity, 0);
        c.add(affinity, -22);
    }
    c.base(2, 0x0800_0000, 0);
    c.base(3, 0x0900_0000, 0);
    c.init(0);
    c.put(5, (0xffff_ffff << 32) + 0x10, 3, 0);
    c.put(5, (0x8000_0000 << 32) + 0x10, 5, 0);
    c.word(5, 0x10, 0);
    c.word(5, (0xffff_ffff << 32) + 0x10, 3);
    c.word(5, (0x8000_0000 << 32) + 0x10, 5);
    c.no_get(VGIC, 5, (0x8000_0001 << 32) + 0x10, 4, -22);
}

fn start_and_stop(c: &mut Case) {
    c.start(-6);
    c.stop(-6);
    c.ready(1);
    c.stop(0);
    c.word(1, 0x10, 0);
    c.start(0);
    c.start(0);
    c.no_get(VGIC, 1, 0x10, 4, -16);
    c.stop(0);
    c.word(1, 0x10, 0);
    c.stop(0);
}

fn misaligned(c: &mut Case) {
    for off in [1, 2, 0x100, 0x1000, 0x8000, 0xffff] {
        c.base(2, 0x0800_0000 + off, -22);
        c.base(3, 0x0800_0000 + off, -22);
        c.its_base(0x0800_0000 + off, -22);
        // Not a multiple comes before -7.
        c.base(2, TOP + off, -22);
        c.base(3, u64::MAX - 0xffff + off, -22);
    }
    c.no_get(VGIC, 0, 2, 8, -2);
}

fn top_of_space(c: &mut Case) {
    for attribute in [2, 3] {
        c.base(attribute, TOP, -7);
        c.base(attribute, TOP + K64, -7);
        c.base(attribute, 2 * TOP, -7);
    }
    c.base(3, TOP - K64, -7);
    c.its_base(TOP - K64, -7);
    c.its_base(TOP, -7);
    c.its_base(TOP - K128, 0);
    c.base(2, TOP - K128 - K64, 0);
    c.setup(40, 0, 0x1000, 0);
    c.base(2, TOP - K64, 0);
    c.base(3, TOP - K64 - K128, 0);
    c.held_base(VGIC, 2, TOP - K64);
    c.setup(40, 0, 0x1000, 0);
    c.base(3, TOP - K128, 0);
}

fn no_wrap(c: &mut Case) {
    c.setup(52, 0, 0x1000, 0);
    for address in [0xffff_ffff_ffff_0000, 0xffff_ffff_fffe_0000, 1 << 63, 1 << 52] {
        c.base(2, address, -7);
        c.base(3, address, -7);
        c.its_base(address, -7);
    }
    c.region(0, 0xf_ffff_ffff_0000, 4095, -7);
    c.no_get(VGIC, 0, 2, 8, -2);
}

fn set_twice(c: &mut Case) {
    c.base(2, 0x0800_0000, 0);
    c.base(3, 0x0900_0000, 0);
    c.its_base(0x0a00_0000, 0);
    for address in [0x0800_0000, 0x0b00_0000, 0x0b00_0001, TOP, 0x0900_0000, u64::MAX] {
        c.base(2, address, -17);
        c.base(3, address, -17);
        c.its_base(address, -17);
    }
    c.held_base(VGIC, 2, 0x0800_0000);
    c.held_base(VGIC, 3, 0x0900_0000);
    c.held_base(ITS, 4, 0x0a00_0000);
    c.add(0, 0);
    c.init(0);
    c.base(2, 0x0b00_0000, -17);
    c.base(3, 0x0b00_0000, -17);
}

fn single_after_regions(c: &mut Case) {
    c.region(0, 0x0900_0000, 1, 0);
    c.base(3, 0x0b00_0000, -22);
    c.base(3, TOP, -22);
    c.no_get(VGIC, 0, 3, 8, -22);
}

fn sizes(c: &mut Case) {
    // The distributor is 64 KiB: its neighbour begins there, and not below.
    c.base(2, 0x0800_0000, 0);
    c.its_base(0x0800_0000 + K64, 0);
    c.base(3, 0x0800_0000 + K64 + K64, -22);
    c.base(3, 0x0800_0000 + K64 + K128, 0);
    c.setup(40, 0, 0x1000, 0);
    c.base(3, 0x0900_0000, 0);
    c.base(2, 0x0900_0000 + K64, -22);
    c.base(2, 0x0900_0000 + K128, 0);
    c.its_base(0x0900_0000 - K64, -22);
    c.its_base(0x0900_0000 - K128, 0);
}

fn overlaps(c: &mut Case) {
    c.base(2, 0x0800_0000, 0);
    c.base(3, 0x0800_0000, -22);
    c.base(3, 0x0800_0000 - K64, -22);
    c.its_base(0x0800_0000, -22);
    c.its_base(0x0800_0000 - K64, -22);
    c.its_base(0x0800_0000 - K128, 0);
    c.base(3, 0x0800_0000 - K128, -22);
    c.base(3, 0x0800_0000 - K128 - K64, -22);
    c.base(3, 0x0800_0000 - K128 - K128, 0);
    c.setup(40, 0, 0x1000, 0);
    c.its_base(0, 0);
    c.base(2, 0, -22);
    c.base(2, K64, -22);
    c.base(2, K128, 0);
}

fn top_before_overlap(c: &mut Case) {
    c.base(2, TOP - K64, 0);
    c.base(3, TOP - K64, -7);
    c.its_base(TOP - K64, -7);
    c.its_base(TOP - K128, -22);
    c.region(0, TOP - K64, 1, -7);
    c.region(0, TOP - K128, 1, -22);
}

fn single_before_init(c: &mut Case) {
    c.adds(4);
    c.base(3, 0x0900_0000, 0);
    c.its_base(0x0900_0000 + K64, -22);
    c.its_base(0x0900_0000 + K128, 0);
    c.base(2, 0x0900_0000 - K64, 0);
}

fn whole_overlap_at_init(c: &mut Case) {
    for (gap, want) in [(K128, -6), (4 * K128 - K64, -6), (4 * K128, 0)] {
        c.setup(40, 0, 0x1000, 0);
        c.adds(4);
        c.base(3, 0x0900_0000, 0);
        c.base(2, 0x0800_0000, 0);
        c.its_base(0x0900_0000 + gap, 0);
        c.init(want);
        c.setup(40, 0, 0x1000, 0);
        c.adds(4);
        c.base(3, 0x0900_0000, 0);
        c.base(2, 0x0900_0000 + gap, 0);
        c.init(want);
        c.redist(3, if want == 0 { 0x0906_0000 } else { -6 });
    }
}

fn whole_top_at_init(c: &mut Case) {
    for (base, want) in [(TOP - K128, -6), (TOP - 4 * K128 + K64, -6), (TOP - 4 * K128, 0)] {
        c.setup(40, 0, 0x1000, 0);
        c.adds(4);
        c.base(3, base, 0);
        c.base(2, 0x0800_0000, 0);
        c.init(want);
        c.start(want);
    }
}

fn whole_after_init(c: &mut Case) {
    c.adds(4);
    c.base(2, 0x0800_0000, 0);
    c.base(3, 0x0900_0000, 0);
    c.init(0);
    for gap in [0, K64, K128, 3 * K128, 4 * K128 - K64] {
        c.its_base(0x0900_0000 + gap, -22);
    }
    c.its_base(0x0900_0000 - K64, -22);
    c.its_base(0x0900_0000 + 4 * K128, 0);
}

fn region_fields(c: &mut Case) {
    c.region_word(0x0010_0000_0808_0000, 0);
    c.region_word(0x0040_0000_080a_0001, 0);
    c.held_region(0, 0x0010_0000_0808_0000);
    c.held_region(1, 0x0040_0000_080a_0001);
    // Region 1 has 4 redistributors and ends at 0x08120000.
    c.base(2, 0x0811_0000, -22);
    c.base(2, 0x0812_0000, 0);
    c.its_base(0x0807_0000, -22);
    c.its_base(0x0806_0000, 0);
    c.setup(52, 0, 0x1000, 0);
    c.region_word(0x0010_0000_0000_0000, 0);
    c.region_word(0x001f_ffff_fffe_0001, 0);
    c.region_word(0xfff8_0000_0000_0002, 0);
    c.held_region(1, 0x001f_ffff_fffe_0001);
    c.held_region(2, 0xfff8_0000_0000_0002);
}

fn region_after_single(c: &mut Case) {
    c.base(3, 0x0900_0000, 0);
    c.region(0, 0x0a00_0000, 1, -22);
    c.region(0, TOP, 1, -22);
    c.region(32, 0x0a00_0000, 1, -22);
    c.get(VGIC, 0, 5, &[0; 8], -22, &[0; 8]);
}

fn region_flags(c: &mut Case) {
    for flags in 1..16 {
        c.region_word(1 << 52 | 0x0a00_0000 | flags << 12, -22);
    }
    c.region_word(1 << 52 | TOP | 1 << 12, -22);
    c.region_word(1 << 52 | 0x0a00_0000, 0);
}

fn region_count_zero(c: &mut Case) {
    c.region(0, 0x0a00_0000, 0, -22);
    c.region(0, TOP, 0, -22);
    c.region(0, 0x0a00_0000, 1, 0);
    c.region(1, 0x0b00_0000, 0, -22);
}

fn region_index(c: &mut Case) {
    for index in [1, 2, 31, 32, 33, 0x100, 0xfff] {
        c.region(index, 0x0a00_0000, 1, -22);
    }
    c.region(1, TOP, 1, -22);
    c.region(0, 0x0a00_0000, 1, 0);
    c.region(0, 0x0b00_0000, 1, -22);
    c.region(2, 0x0b00_0000, 1, -22);
    c.region(1, 0x0b00_0000, 1, 0);
}

fn fill_regions(c: &mut Case) {
    for index in 0..32 {
        c.region(index, 0x1000_0000 + index * K128, 1, 0);
    }
}

fn region_full(c: &mut Case) {
    fill_regions(c);
    c.region(32, 0x2000_0000, 1, -12);
    for index in [0, 1, 30, 31, 33, 34, 0x20 + 0x100, 0xfff] {
        c.region(index, 0x2000_0000, 1, -22);
    }
    c.region(32, 0x2000_0000, 0, -22);
    c.region_word(1 << 52 | 0x2000_0000 | 1 << 12 | 32, -22);
}

fn region_full_first(c: &mut Case) {
    fill_regions(c);
    c.region(32, TOP, 1, -12);
    c.region(32, 0x1000_0000, 1, -12);
    c.adds(32);
    c.base(2, 0x0800_0000, 0);
    c.init(0);
    c.region(32, 0x2000_0000, 1, -12);
    c.redist(31, 0x1000_0000 + 31 * 0x2_0000);
}

fn region_top(c: &mut Case) {
    c.region(0, TOP - K64, 1, -7);
    c.region(0, TOP, 1, -7);
    c.region(0, TOP - 3 * K128 + K64, 3, -7);
    c.region(0, TOP - K128, 4095, -7);
    c.region(0, 0xf_ffff_ffff_0000, 1, -7);
    c.region(0, TOP - 4095 * K128 + K64, 4095, -7);
    c.region(0, TOP - 4095 * K128, 4095, 0);
}

fn region_overlap(c: &mut Case) {
    c.base(2, 0x0a00_0000, 0);
    c.its_base(0x0b00_0000, 0);
    c.region(0, 0x0a00_0000, 1, -22);
    c.region(0, 0x0a00_0000 - 5 * K128 + K64, 5, -22);
    c.region(0, 0x0a00_0000 - 5 * K128, 5, 0);
    c.region(1, 0x0b00_0000 + K64, 1, -22);
    c.region(1, 0x0b00_0000 - K128 + K64, 1, -22);
    c.region(1, 0x0b00_0000 + K128, 7, 0);
    c.region(2, 0x0b00_0000 + K128, 7, -22);
    c.region(2, 0x0b00_0000 + 8 * K128 - K64, 1, -22);
    c.region(2, 0x0900_0000, 0x800, -22);
    c.region(2, 0x0b00_0000 + 8 * K128, 1, 0);
    c.region(3, 0x0a00_0000 - 6 * K128, 1, 0);
}

fn region_refused(c: &mut Case) {
    c.region(0, TOP, 1, -7);
    c.get(VGIC, 0, 5, &[0; 8], -2, &[0; 8]);
    c.base(3, 0x0a00_0000, 0);
    c.held_base(VGIC, 3, 0x0a00_0000);
}

fn region_after_init(c: &mut Case) {
    c.adds(2);
    c.base(2, 0x0800_0000, 0);
    c.region(0, 0x0900_0000, 2, 0);
    c.init(0);
    c.start(0);
    c.region(1, 0x0900_0000 + K128, 1, -22);
    c.region(1, 0x0a00_0000, 9, 0);
    c.region(1, 0x0c00_0000, 9, -22);
    c.held_region(1, 0x0090_0000_0a00_0001);
    c.redist(0, 0x0900_0000);
    c.redist(1, 0x0902_0000);
    c.base(3, 0x0c00_0000, -22);
    c.setup(40, 0, 0x1000, 0);
    c.ready(1);
    c.region(0, 0x0a00_0000, 1, -22);
}

fn get_region(c: &mut Case) {
    c.region(0, 0x0900_0000, 2, 0);
    c.region(1, 0x0a00_0000, 3, 0);
    c.held_region(0xffff_ffff_ffff_f001, 0x0030_0000_0a00_0001);
    c.held_region(0x0000_0000_0000_f000, 0x0020_0000_0900_0000);
    c.held_region(0xabcd_ef01_2345_6000, 0x0020_0000_0900_0000);
    for index in [2u64, 3, 32, 0x100, 0x800, 0xfff] {
        c.get(VGIC, 0, 5, &index.to_le_bytes(), -2, &index.to_le_bytes());
    }
}

fn get_region_single(c: &mut Case) {
    c.get(VGIC, 0, 5, &[0; 8], -2, &[0; 8]);
    c.base(3, 0x0900_0000, 0);
    c.get(VGIC, 0, 5, &[0; 8], -22, &[0; 8]);
    c.get(VGIC, 0, 5, &[0xff; 8], -22, &[0xff; 8]);
}

fn get_bases(c: &mut Case) {
    c.no_get(VGIC, 0, 2, 8, -2);
    c.no_get(VGIC, 0, 3, 8, -2);
    c.no_get(ITS, 0, 4, 8, -2);
    c.region(0, 0x0900_0000, 2, 0);
    c.no_get(VGIC, 0, 3, 8, -22);
    c.no_get(VGIC, 0, 2, 8, -2);
    c.base(2, 0, 0);
    c.held_base(VGIC, 2, 0);
    c.its_base(0xff_ffee_0000, 0);
    c.held_base(ITS, 4, 0xff_ffee_0000);
}

fn init_no_vcpu(c: &mut Case) {
    c.init(-19);
    c.base(2, 0x0800_0000, 0);
    c.init(-19);
    c.base(3, 0x0900_0000, 0);
    c.init(-19);
    c.start(-6);
}

fn init_missing(c: &mut Case) {
    c.add(0, 0);
    c.init(-6);
    c.base(2, 0x0800_0000, 0);
    c.init(-6);
    c.setup(40, 0, 0x1000, 0);
    c.add(0, 0);
    c.base(3, 0x0900_0000, 0);
    c.init(-6);
    c.setup(40, 0, 0x1000, 0);
    c.add(0, 0);
    c.region(0, 0x0900_0000, 2, 0);
    c.init(-6);
    c.its_base(0x0800_0000, 0);
    c.init(-6);
    c.start(-6);
}

fn init_counts(c: &mut Case) {
    c.adds(5);
    c.base(2, 0x0800_0000, 0);
    c.region(0, 0x0900_0000, 2, 0);
    c.init(-6);
    c.region(1, 0x0a00_0000, 2, 0);
    c.init(-6);
    c.region(2, 0x0b00_0000, 1, 0);
    c.init(0);
    c.setup(40, 0, 0x1000, 0);
    c.adds(5);
    c.base(2, 0x0800_0000, 0);
    c.region(0, 0x1000_0000, 4095, 0);
    c.init(0);
    // Sums are numbers: 256 and 4,096 are not 0.
    for (first, second) in [(255, 1), (4095, 1)] {
        c.setup(40, 0, 0x1000, 0);
        c.adds(5);
        c.base(2, 0x0800_0000, 0);
        c.region(0, 0x1000_0000, first, 0);
        c.region(1, 0x0900_0000, second, 0);
        c.init(0);
    }
}

fn init_again(c: &mut Case) {
    c.ready(1);
    c.init(0);
    c.start(0);
    c.init(0);
    c.raise(0, 40, 0);
    c.init(0);
    c.pending(0, 40, 1);
    c.no_get(VGIC, 1, 0x10, 4, -16);
}

fn init_made_good(c: &mut Case) {
    c.init(-19);
    c.adds(2);
    c.init(-6);
    c.base(2, 0x0800_0000, 0);
    c.init(-6);
    c.add(9, 0);
    c.put(3, 0, 64, 0);
    c.region(0, 0x0900_0000, 3, 0);
    c.init(0);
    c.redist(2, 0x0904_0000);
    c.word(3, 0, 64);
}

fn redist_single(c: &mut Case) {
    c.redist(0, -6);
    c.ready(3);
    c.redist(0, 0x080a_0000);
    c.redist(1, 0x080c_0000);
    c.redist(2, 0x080e_0000);
    c.redist(3, -22);
}

fn redist_regions(c: &mut Case) {
    c.adds(4);
    c.base(2, 0x0800_0000, 0);
    c.region_word(0x0010_0000_0808_0000, 0);
    c.region_word(0x0040_0000_080a_0001, 0);
    c.redist(2, -6);
    c.init(0);
    c.redist(0, 0x0808_0000);
    c.redist(1, 0x080a_0000);
    c.redist(2, 0x080c_0000);
    c.redist(3, 0x080e_0000);
    c.redist(4, -22);
}

fn redist_sums(c: &mut Case) {
    c.adds(7);
    c.base(2, 0x0800_0000, 0);
    c.region(0, 0x0d00_0000, 2, 0);
    c.region(1, 0x0a00_0000, 1, 0);
    c.region(2, 0x0c00_0000, 3, 0);
    c.region(3, 0x0b00_0000, 9, 0);
    c.init(0);
    c.redist(0, 0x0d00_0000);
    c.redist(1, 0x0d02_0000);
    c.redist(2, 0x0a00_0000);
    c.redist(3, 0x0c00_0000);
    c.redist(4, 0x0c02_0000);
    c.redist(5, 0x0c04_0000);
    c.redist(6, 0x0b00_0000);
    c.redist(7, -22);
    c.setup(52, 0, 0x1000, 0);
    c.add(3, 0);
    c.base(2, 0x0800_0000, 0);
    c.region(0, 0xf_ffff_fffe_0000, 1, 0);
    c.init(0);
    c.redist(0, 0xf_ffff_fffe_0000);
}

fn redist_bad(c: &mut Case) {
    c.ready(2);
    for vcpu in [2, 3, 64, 256, 1 << 32, (1 << 32) + 1, 1 << 63, u64::MAX] {
        c.redist(vcpu, -22);
    }
    c.start(0);
    c.redist(1, 0x080c_0000);
}

fn count_values(c: &mut Case) {
    for number in [0, 1, 32, 63, 65, 80, 95, 97, 1000, 1023, 1025, 1056, 0x1_0040, 0x8000_0000, u32::MAX] {
        c.put(3, 0, number, -22);
    }
    c.word(3, 0, 64);
    for number in (64..=1024).step_by(32) {
        c.setup(40, 0, 0x1000, 0);
        c.word(3, 0, 64);
        c.put(3, 0, number, 0);
        c.word(3, 0, number);
    }
}

fn count_once(c: &mut Case) {
    c.put(3, 0, 33, -22);
    c.put(3, 0, 256, 0);
    c.put(3, 0, 256, -16);
    c.put(3, 0, 64, -16);
    // The value's -22 comes first.
    c.put(3, 0, 33, -22);
    c.put(3, 0, 2048, -22);
    c.word(3, 0, 256);
    for number in [64, 96, 256, 1024] {
        c.setup(40, 0, 0x1000, 0);
        c.put(3, 0, number, 0);
        no_count(c, -16);
        c.ready(1);
        no_count(c, -16);
        c.word(3, 0, number);
    }
}

/// No set of the count is taken; the value's -22 comes first.
fn no_count(c: &mut Case, want: i64) {
    (64..=1024).step_by(32).for_each(|number| c.put(3, 0, number, want));
    [0, 32, 65, 1056].into_iter().for_each(|number| c.put(3, 0, number, -22));
}

fn count_that_stands(c: &mut Case) {
    c.word(3, 0, 64);
    c.put(3, 0, 64, 0);
    c.word(3, 0, 64);
    no_count(c, -16);
    c.word(3, 0, 64);
    c.ready(1);
    c.word(3, 0, 64);
    c.raise(0, 63, 0);
    c.raise(0, 64, 0);
    c.pending(0, 63, 1);
    c.pending(0, 64, 0);
}

/// Each way in which a set of the count is refused on a guest that may set it.
fn each_refused_count(c: &mut Case) {
    for number in [0, 32, 63, 65, 255, 1025, 1056, u32::MAX] {
        c.put(3, 0, number, -22);
    }
    for width in [0, 1, 3, 5, 8] {
        c.set(VGIC, 3, 0, &vec![64; width], -14);
    }
    for attribute in [1, 64, 1 << 32, u64::MAX] {
        c.put(3, attribute, 64, -6);
    }
    c.put((1 << 32) + 3, 0, 64, -6);
    c.set(ITS, 3, 0, &64u32.to_le_bytes(), -6);
}

fn count_refused(c: &mut Case) {
    for number in [64, 96, 256, 1024] {
        c.setup(40, 0, 0x1000, 0);
        each_refused_count(c);
        c.word(3, 0, 64);
        c.put(3, 0, number, 0);
        c.put(3, 0, number, -16);
        // On one that has set it they are refused alike.
        each_refused_count(c);
        c.word(3, 0, number);
    }
}

fn count_after_init(c: &mut Case) {
    c.ready(1);
    no_count(c, -16);
    c.word(3, 0, 64);
    c.start(0);
    no_count(c, -16);
    c.stop(0);
    each_refused_count(c);
    c.word(3, 0, 64);
    c.raise(0, 64, 0);
    c.pending(0, 64, 0);
}

fn count_banks(c: &mut Case) {
    for number in [64, 96, 256, 288, 992, 1024] {
        c.setup(40, 0, 0x1000, 0);
        c.put(3, 0, number as u32, 0);
        c.ready(1);
        for bank in 1..32 {
            c.word(1, 0x200 + 4 * bank, 0);
            c.word(7, 32 * bank, 0);
            let there = (32 * bank < number) as i64;
            c.raise(0, 32 * bank, 0);
            c.pending(0, 32 * bank, there);
            // A fresh interrupt is level: its line is seen as long as it is up.
            c.line(0, 32 * bank + 1, 1, 0);
            c.pending(0, 32 * bank + 1, there);
            c.line(0, 32 * bank + 1, 0, 0);
            c.pending(0, 32 * bank + 1, 0);
        }
    }
}

fn count_read(c: &mut Case) {
    c.word(3, 0, 64);
    c.put(3, 0, 96, 0);
    c.word(3, 0, 96);
    c.ready(1);
    c.word(3, 0, 96);
    c.start(0);
    c.word(3, 0, 96);
    c.no_get(VGIC, 3, 0, 8, -14);
    c.stop(0);
    c.word(3, 0, 96);
}

fn running_is_no_fault(c: &mut Case) {
    c.ready(1);
    c.start(0);
    c.its_base(0x0900_0000, 0);
    c.held_base(ITS, 4, 0x0900_0000);
    c.held_base(VGIC, 2, 0x0800_0000);
    c.held_base(VGIC, 3, 0x080a_0000);
    c.word(3, 0, 64);
    c.put(3, 0, 64, -16);
    c.put(3, 0, 256, -16);
    c.put(3, 0, 65, -22);
    c.base(2, 0, -17);
}

fn over_memory(c: &mut Case) {
    c.add(0, 0);
    c.base(2, 0x4000_0000, 0);
    c.base(3, 0x4001_0000, 0);
    c.its_base(0x4003_0000, 0);
    c.init(0);
    c.redist(0, 0x4001_0000);
}
