//! What passes its checksum in a slot as it stands.

use crate::implementation::Implementation;
use crate::sample::{HEADER, HEADER_CRC, HEADER_LEN, MAGIC, PAYLOAD_CRC, PAYLOAD_LEN};
use crate::stored::get;
use std::ops::Range;

/// Where a slot's payload lies by the length in its header; a Blank slot has none.
pub fn stored_payload(slot: &[u8]) -> Range<usize> {
    HEADER..HEADER + get(slot, PAYLOAD_LEN) as usize
}

/// Of a slot whose header has lengths that fit.
pub fn payload_passes(tried: &dyn Implementation, slot: &[u8]) -> bool {
    u64::from(tried.checksum(&slot[stored_payload(slot)])) == get(slot, PAYLOAD_CRC)
}

pub fn header_passes(tried: &dyn Implementation, slot: &[u8]) -> bool {
    let len = get(slot, HEADER_LEN) as usize;
    (HEADER..=slot.len()).contains(&len) && {
        let counted = [&slot[MAGIC], &[0; 4], &slot[HEADER_CRC.end..len]].concat();
        u64::from(tried.checksum(&counted)) == get(slot, HEADER_CRC)
    }
}
