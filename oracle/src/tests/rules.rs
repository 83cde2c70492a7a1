//! The rules on tables hold after every line of a generated session, so that
//! no event of it could answer 101.

use crate::generate::write_session;
use crate::model::Host;
use crate::session::answer_line;
use crate::tables::{Cpu, Group, Guest, Ring, Source, TsbDescriptor};

#[test]
fn tables_hold_after_every_line() {
    for seed in 0..8 {
        let mut text = Vec::new();
        write_session(seed, 10_000, &mut text).expect("writing to memory");
        let mut host = Host::new();
        for line in text.split(|&byte| byte == b'\n') {
            answer_line(&mut host, line, &mut Vec::new());
            for guest in &host.tables.guests {
                check_guest(guest);
            }
        }
    }
}

fn check_guest(guest: &Guest) {
    for group in [
        Group::Sun4v,
        Group::Core,
        Group::Interrupts,
        Group::Statistics,
    ] {
        assert!(guest.major(group) <= group.highest_major());
    }
    guest.cpus.iter().for_each(|cpu| check_cpu(guest, cpu));
    guest
        .sources
        .iter()
        .for_each(|source| check_source(guest, source));
}

fn check_cpu(guest: &Guest, cpu: &Cpu) {
    cpu.queues
        .iter()
        .flatten()
        .for_each(|ring| check_ring(guest, ring));
    for list in &cpu.tsb_lists {
        list.iter()
            .flatten()
            .for_each(|descriptor| check_descriptor(guest, descriptor));
        // Nothing behind the first place that is unset.
        assert!(list
            .windows(2)
            .all(|pair| pair[0].is_some() || pair[1].is_none()));
    }
    let statistics = crate::tables::RealAddress(cpu.statistics);
    assert!(cpu.statistics == 0 || guest.is_valid(statistics, 512) && statistics.is_on(64));
}

fn check_ring(guest: &Guest, ring: &Ring) {
    assert!([128, 256, 512, 1024, 2048, 4096, 8192, 16384].contains(&ring.size));
    assert!(ring.base.is_on(ring.size) && guest.is_valid(ring.base, ring.size));
    assert!(ring.head < ring.size && ring.head % 64 == 0);
    assert!(ring.tail < ring.size && ring.tail % 64 == 0);
}

fn check_descriptor(guest: &Guest, descriptor: &TsbDescriptor) {
    let size = 16 * u64::from(descriptor.entries);
    assert!(descriptor.entries.is_power_of_two() && (13..=24).contains(&size.ilog2()));
    assert!(descriptor.base.is_on(size) && guest.is_valid(descriptor.base, size));
    assert_eq!(descriptor.page_mask & 0x2b, descriptor.page_mask);
    assert_eq!(
        descriptor.page_mask.trailing_zeros(),
        u32::from(descriptor.page_index)
    );
}

fn check_source(guest: &Guest, source: &Source) {
    let major = guest.major(Group::Interrupts);
    assert!(source.target < guest.cpus.len());
    assert!(source.cookie == 0 || source.cookie > 2047 && major == 2 && source.cookie_support);
    assert!(!source.enabled || major == 1 || major == 2 && source.cookie != 0);
}
