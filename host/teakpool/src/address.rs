//! Addresses and paths, and the bytes that they are lent as: 32-bit fields, little-endian.

use core::fmt::{self, Write};
use core::str::FromStr;

/// A scale and a point, ordered by signed scale, then point. Written as `SCALE/POINT`.
///
/// ```
/// use teakpool::{Address, ParseAddressError};
///
/// let address: Address = "-1/37".parse()?;
/// assert_eq!(address, Address::new(-1, 37));
/// assert_eq!(address.to_string(), "-1/37");
/// assert!(address < Address::new(0, 0));
/// assert_eq!("1:7".parse::<Address>(), Err(ParseAddressError));
/// # Ok::<(), ParseAddressError>(())
/// ```
#[derive(Debug, Clone, Copy, PartialEq, Eq, PartialOrd, Ord, Hash, Default)]
pub struct Address {
    /// The scale, signed.
    pub scale: i32,
    /// The point.
    pub point: u32,
}

impl Address {
    /// Bytes of an address.
    pub const BYTES: usize = 8;

    /// An address from its two parts.
    pub const fn new(scale: i32, point: u32) -> Address {
        Address { scale, point }
    }

    /// The eight bytes of the address.
    pub fn bytes(self) -> [u8; 8] {
        let [a, b, c, d] = self.scale.to_le_bytes();
        let [e, f, g, h] = self.point.to_le_bytes();
        [a, b, c, d, e, f, g, h]
    }

    /// The address that eight bytes hold.
    pub fn from_bytes([a, b, c, d, e, f, g, h]: [u8; 8]) -> Address {
        Address { scale: i32::from_le_bytes([a, b, c, d]), point: u32::from_le_bytes([e, f, g, h]) }
    }
}

/// The text of an address, at most `-2147483648/4294967295`, so that it can be padded as a whole.
#[derive(Default)]
struct Text {
    bytes: [u8; 22],
    length: usize,
}

impl Write for Text {
    fn write_str(&mut self, part: &str) -> fmt::Result {
        let end = self.length + part.len();
        self.bytes.get_mut(self.length..end).ok_or(fmt::Error)?.copy_from_slice(part.as_bytes());
        self.length = end;
        Ok(())
    }
}

/// Written as scale/point.
impl fmt::Display for Address {
    fn fmt(&self, f: &mut fmt::Formatter) -> fmt::Result {
        let mut text = Text::default();
        write!(text, "{}/{}", self.scale, self.point)?;
        f.pad(core::str::from_utf8(&text.bytes[..text.length]).map_err(|_| fmt::Error)?)
    }
}

/// A text that is no address.
#[derive(Debug, Clone, Copy, PartialEq, Eq)]
pub struct ParseAddressError;

impl fmt::Display for ParseAddressError {
    fn fmt(&self, f: &mut fmt::Formatter) -> fmt::Result {
        f.write_str("an address is SCALE/POINT, as 2/0 or -1/37")
    }
}

impl core::error::Error for ParseAddressError {}

/// Reads scale/point.
impl FromStr for Address {
    type Err = ParseAddressError;

    fn from_str(text: &str) -> Result<Address, ParseAddressError> {
        let (scale, point) = text.split_once('/').ok_or(ParseAddressError)?;
        match (scale.parse(), point.parse()) {
            (Ok(scale), Ok(point)) => Ok(Address { scale, point }),
            _ => Err(ParseAddressError),
        }
    }
}

/// Most steps of a path.
pub const MAX_STEPS: usize = 64;

/// Room for a path's bytes, and for one step more: a path that is too long keeps a length that is
/// refused.
pub(crate) struct PathBytes {
    bytes: [u8; (MAX_STEPS + 1) * Address::BYTES],
    length: usize,
}

impl PathBytes {
    /// The bytes of the first 65 steps at most.
    pub(crate) fn of(path: &[Address]) -> PathBytes {
        let mut bytes = [0; (MAX_STEPS + 1) * Address::BYTES];
        for (place, step) in bytes.chunks_exact_mut(Address::BYTES).zip(path) {
            place.copy_from_slice(&step.bytes());
        }
        PathBytes { bytes, length: Address::BYTES * path.len().min(MAX_STEPS + 1) }
    }

    pub(crate) fn bytes(&self) -> &[u8] {
        &self.bytes[..self.length]
    }
}

/// A path's steps as bytes, as `Tracker::add_path_bytes` is lent them.
///
/// ```
/// use teakpool::{path_bytes, Address};
///
/// let path = path_bytes(&[Address::new(1, 7), Address::new(0, 9)]);
/// assert_eq!(path, [1, 0, 0, 0, 7, 0, 0, 0, 0, 0, 0, 0, 9, 0, 0, 0]);
/// ```
#[cfg(feature = "std")]
pub fn path_bytes(path: &[Address]) -> std::vec::Vec<u8> {
    path.iter().flat_map(|step| step.bytes()).collect()
}

#[cfg(test)]
mod tests {
    use super::{Address, ParseAddressError};
    use std::format;
    use std::string::ToString;

    #[test]
    fn texts_of_addresses() {
        for address in [Address::new(i32::MIN, u32::MAX), Address::new(i32::MAX, 0), Address::default()] {
            assert_eq!(address.to_string().parse(), Ok(address));
        }
        assert_eq!(Address::new(i32::MIN, u32::MAX).to_string(), "-2147483648/4294967295");
        assert_eq!(format!("{:<8}|{:>6}|", Address::new(2, 0), Address::new(-1, 3)), "2/0     |  -1/3|");
        for text in ["", "/", "1", "1/", "/1", "1/-1", "2147483648/0", "0/4294967296", "1/2/3", " 1/2"] {
            assert_eq!(text.parse::<Address>(), Err(ParseAddressError), "{}", text);
        }
    }
}
