//! How a capture writes its numbers, as its file header says, and refusals 31 to 34.

use crate::capture::refusals::HeaderFault;

/// Bytes of the header that a capture begins with.
pub const FILE_HEADER: usize = 24;

const VERSION: [u32; 2] = [2, 4];

/// Raw IP packets.
const LINK_TYPE: u32 = 101;

pub struct Layout {
    /// The lowest byte of a number comes first.
    lowest_first: bool,
    /// Parts of a second are nanoseconds; else they are microseconds.
    nanoseconds: bool,
}

impl Layout {
    /// The layout of an accepted file header.
    pub fn read(capture: &[u8]) -> Result<Layout, HeaderFault> {
        let header: &[u8; FILE_HEADER] = capture.first_chunk().ok_or(HeaderFault::Short {
            bytes: capture.len(),
        })?;
        let magic = [header[0], header[1], header[2], header[3]];
        let layout = Layout::of_magic(magic).ok_or(HeaderFault::Magic { bytes: magic })?;
        let [major, minor] = [4, 6].map(|at| layout.number(&header[at..at + 2]));
        if [major, minor] != VERSION {
            return Err(HeaderFault::Version { major, minor });
        }
        let link_type = layout.number(&header[20..24]);
        if link_type != LINK_TYPE {
            return Err(HeaderFault::LinkType { link_type });
        }
        Ok(layout)
    }

    fn of_magic(magic: [u8; 4]) -> Option<Layout> {
        let (lowest_first, nanoseconds) = match magic {
            [0xa1, 0xb2, 0xc3, 0xd4] => (false, false),
            [0xa1, 0xb2, 0x3c, 0x4d] => (false, true),
            [0xd4, 0xc3, 0xb2, 0xa1] => (true, false),
            [0x4d, 0x3c, 0xb2, 0xa1] => (true, true),
            _ => return None,
        };
        Some(Layout {
            lowest_first,
            nanoseconds,
        })
    }

    /// The number in these bytes, of which there are at most four.
    pub fn number(&self, bytes: &[u8]) -> u32 {
        let append = |number: u32, byte: &u8| (number << 8) | u32::from(*byte);
        match self.lowest_first {
            true => bytes.iter().rev().fold(0, append),
            false => bytes.iter().fold(0, append),
        }
    }

    /// A stamp in whole microseconds. A part of a million and more carries into the seconds.
    pub fn stamp(&self, seconds: u32, part: u32) -> u64 {
        let part = if self.nanoseconds { part / 1_000 } else { part };
        u64::from(seconds) * 1_000_000 + u64::from(part)
    }
}
