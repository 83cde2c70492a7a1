//! TSB lists.

use crate::calls::Caller;
use crate::model::{Outcome, Status, DONE};
use crate::tables::{Guest, RealAddress, TsbDescriptor, TsbList};

const DESCRIPTOR_SIZE: usize = 32;
/// One bit for each page index there is: 0, 1, 3 and 5.
const PAGE_SIZES: u32 = 0x2b;

/// The fields of a descriptor as they stand in memory, before any test.
struct Fields {
    page_index: u16,
    associativity: u16,
    entries: u32,
    context_index: u32,
    page_mask: u32,
    base: RealAddress,
}

impl Fields {
    fn read(bytes: &[u8]) -> Fields {
        Fields {
            page_index: number(bytes, 0, 2) as u16,
            associativity: number(bytes, 2, 2) as u16,
            entries: number(bytes, 4, 4) as u32,
            context_index: number(bytes, 8, 4) as u32,
            page_mask: number(bytes, 12, 4) as u32,
            base: RealAddress(number(bytes, 16, 8)),
        }
    }

    fn accept(&self, guest: &Guest) -> Result<TsbDescriptor, Status> {
        let mask = self.page_mask;
        if !matches!(self.page_index, 0 | 1 | 3 | 5) || mask == 0 || mask & !PAGE_SIZES != 0 {
            return Err(Status::EBADPGSZ);
        }
        let entries_fit = (512..=1_048_576).contains(&self.entries);
        if self.associativity != 1 || !self.entries.is_power_of_two() || !entries_fit {
            return Err(Status::EBADTSB);
        }
        if self.context_index != 0 || u32::from(self.page_index) != mask.trailing_zeros() {
            return Err(Status::EINVAL);
        }
        let size = 16 * u64::from(self.entries);
        if !self.base.is_on(size) {
            return Err(Status::EBADALIGN);
        }
        guest.accept_range(self.base, size)?;
        Ok(TsbDescriptor {
            page_index: self.page_index,
            entries: self.entries,
            page_mask: mask,
            base: self.base,
        })
    }
}

/// A big-endian number of `width` bytes.
fn number(bytes: &[u8], at: usize, width: usize) -> u64 {
    bytes[at..at + width]
        .iter()
        .fold(0, |value, &byte| value << 8 | u64::from(byte))
}

impl Caller<'_> {
    pub fn set_tsb_list(&mut self, list: usize, ntsb: u64, pointer: RealAddress) -> Outcome {
        // Built aside: all descriptors are stored or none.
        let accepted = self.read_tsb_list(ntsb, pointer)?;
        self.guest.cpus[self.cpuid].tsb_lists[list] = accepted;
        DONE
    }

    fn read_tsb_list(&self, ntsb: u64, pointer: RealAddress) -> Result<TsbList, Status> {
        let mut list = TsbList::default();
        if ntsb == 0 {
            return Ok(list);
        }
        if ntsb > list.len() as u64 {
            return Err(Status::EINVAL);
        }
        if !pointer.is_on(8) {
            return Err(Status::EBADALIGN);
        }
        let size = DESCRIPTOR_SIZE * ntsb as usize;
        self.guest.accept_range(pointer, size as u64)?;
        // A descriptor on 8 may lie on both sides of a seam.
        let mut bytes = [0; DESCRIPTOR_SIZE * 4];
        let bytes = &mut bytes[..size];
        self.guest.read(pointer, self.memory, bytes);
        for (kept, descriptor) in list.iter_mut().zip(bytes.chunks_exact(DESCRIPTOR_SIZE)) {
            *kept = Some(Fields::read(descriptor).accept(self.guest)?);
        }
        Ok(list)
    }
}
