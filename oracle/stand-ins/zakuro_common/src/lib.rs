//! stands in for zakuro_common: the size of a page.

pub mod memory_map {
    pub const PAGE_BITS: u32 = 12;
}
