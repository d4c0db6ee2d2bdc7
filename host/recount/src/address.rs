//! Addresses, and the 32-bit little-endian fields that everything lent is made of.

use crate::limits::STEP_BYTES;

/// A scale and a point, ordered by signed scale, then point.
#[derive(Debug, Clone, Copy, PartialEq, Eq, PartialOrd, Ord, Hash, Default)]
pub struct Address {
    /// The scale, signed.
    pub scale: i32,
    /// The point.
    pub point: u32,
}

impl Address {
    /// An address from its two parts.
    pub const fn new(scale: i32, point: u32) -> Address {
        Address { scale, point }
    }

    /// The address at the front of `bytes`.
    pub fn read(bytes: &[u8]) -> Address {
        Address { scale: word(bytes, 0) as i32, point: word(bytes, 1) }
    }

    /// The eight bytes of the address.
    pub fn bytes(self) -> [u8; STEP_BYTES] {
        let mut bytes = [0; STEP_BYTES];
        bytes[..4].copy_from_slice(&self.scale.to_le_bytes());
        bytes[4..].copy_from_slice(&self.point.to_le_bytes());
        bytes
    }
}

/// The field number `index` of `bytes`.
pub fn word(bytes: &[u8], index: usize) -> u32 {
    let field = &bytes[4 * index..4 * index + 4];
    u32::from_le_bytes([field[0], field[1], field[2], field[3]])
}

/// A path's steps as lent bytes.
pub fn path_bytes(path: &[Address]) -> Vec<u8> {
    path.iter().flat_map(|step| step.bytes()).collect()
}

/// The steps in lent bytes of whole steps.
pub fn steps(bytes: &[u8]) -> Vec<Address> {
    bytes.chunks(STEP_BYTES).map(Address::read).collect()
}
