//! One stored count: where it stands, and its bits.

use std::ops::Range;

/// The place of a stored count of 2^order bits.
#[derive(Clone, Copy)]
pub(crate) struct Cell {
    at: usize,
    order: u32,
    /// Below eight bits: the count's lowest bit in its byte.
    shift: u32,
}

impl Cell {
    /// Count `index` of the block at `block_at`.
    pub fn of(order: u32, block_at: usize, index: usize) -> Cell {
        let bit = index << order;
        Cell { at: block_at + bit / 8, order, shift: bit as u32 % 8 }
    }

    /// The bytes in which it stands; below eight bits it shares one.
    pub fn bytes(self) -> Range<usize> {
        self.at..self.at + (1 << self.order.saturating_sub(3))
    }

    pub fn load(self, image: &[u8]) -> u64 {
        let bytes = &image[self.at..];
        match self.order {
            0..=2 => u64::from(bytes[0] >> self.shift & self.ones()),
            3 => bytes[0].into(),
            4 => u16::from_be_bytes(first(bytes)).into(),
            5 => u32::from_be_bytes(first(bytes)).into(),
            _ => u64::from_be_bytes(first(bytes)),
        }
    }

    /// Below eight bits the byte's other counts stay as they stand now.
    pub fn store(self, image: &mut [u8], value: u64) {
        let bytes = &mut image[self.at..];
        match self.order {
            0..=2 => {
                let others = bytes[0] & !(self.ones() << self.shift);
                bytes[0] = others | (value as u8 & self.ones()) << self.shift;
            }
            3 => bytes[0] = value as u8,
            4 => bytes[..2].copy_from_slice(&(value as u16).to_be_bytes()),
            5 => bytes[..4].copy_from_slice(&(value as u32).to_be_bytes()),
            _ => bytes[..8].copy_from_slice(&value.to_be_bytes()),
        }
    }

    /// The greatest count of less than eight bits.
    fn ones(self) -> u8 {
        (1 << (1 << self.order)) - 1
    }
}

fn first<const LEN: usize>(bytes: &[u8]) -> [u8; LEN] {
    bytes[..LEN].try_into().unwrap()
}
