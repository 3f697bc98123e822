//! stands in for the emulator's memory: the two regions the DSP shares with
//! a title, and one window of physical memory.

use zakuro_cpu::Bus;

use crate::services::dsp_voices::REGION_STRIDE;

/// region 0 begins at address 0 and region 1 at REGION_STRIDE. an access
/// outside them is a mistake of the comparison and panics.
#[derive(Debug, Clone, Default)]
pub struct Memory {
    pub regions: [Vec<u8>; 2],
    pub phys: Window,
}

/// the bytes at the physical addresses from base on.
#[derive(Debug, Clone, Default)]
pub struct Window {
    pub base: u32,
    pub bytes: Vec<u8>,
}

impl Window {
    /// present exactly if every byte asked for lies inside.
    pub fn host_slice_mut(&mut self, address: u32, length: u32) -> Option<&mut [u8]> {
        if length == 0 {
            return Some(&mut []);
        }
        let at = address.checked_sub(self.base)? as usize;
        self.bytes.get_mut(at..at + length as usize)
    }
}

impl Memory {
    fn at(&mut self, address: u32, length: usize) -> &mut [u8] {
        let region = (address / REGION_STRIDE) as usize;
        let at = (address % REGION_STRIDE) as usize;
        &mut self.regions[region][at..at + length]
    }

    fn inside(&self, address: u32, length: u32) -> bool {
        self.regions
            .get((address / REGION_STRIDE) as usize)
            .is_some_and(|region| (address % REGION_STRIDE) as usize + length as usize <= region.len())
    }

    pub fn is_readable(&self, address: u32, length: u32) -> bool {
        self.inside(address, length)
    }

    pub fn is_writable(&self, address: u32, length: u32) -> bool {
        self.inside(address, length)
    }

    pub fn read_bytes(&mut self, address: u32, out: &mut [u8]) {
        out.copy_from_slice(self.at(address, out.len()));
    }

    pub fn write_bytes(&mut self, address: u32, data: &[u8]) {
        self.at(address, data.len()).copy_from_slice(data);
    }

    fn read<const N: usize>(&mut self, address: u32) -> [u8; N] {
        self.at(address, N).try_into().unwrap()
    }
}

impl Bus for Memory {
    fn read8(&mut self, address: u32) -> u8 {
        u8::from_le_bytes(self.read(address))
    }

    fn read16(&mut self, address: u32) -> u16 {
        u16::from_le_bytes(self.read(address))
    }

    fn read32(&mut self, address: u32) -> u32 {
        u32::from_le_bytes(self.read(address))
    }

    fn write8(&mut self, address: u32, value: u8) {
        self.write_bytes(address, &value.to_le_bytes());
    }

    fn write16(&mut self, address: u32, value: u16) {
        self.write_bytes(address, &value.to_le_bytes());
    }

    fn write32(&mut self, address: u32, value: u32) {
        self.write_bytes(address, &value.to_le_bytes());
    }
}
