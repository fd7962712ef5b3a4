//! Which shares are allowed, and what a packet is charged under each.

/// A parent's whole, in parts; also the ticks of one byte.
pub const WHOLE: u32 = 840;

/// What a byte costs a class with share 1, in ticks.
pub const UNIT_COST: u32 = WHOLE * WHOLE;

pub fn is_allowed(share: u32) -> bool {
    (1..=WHOLE).contains(&share)
}

/// Whether no charge under this share, which is allowed, is ever rounded.
pub fn is_exact(share: u32) -> bool {
    UNIT_COST.is_multiple_of(share)
}

/// Ticks that a packet of this length costs a class with this share, which is allowed. They
/// are rounded up once, for the whole packet.
pub fn charge(length: u32, share: u32) -> u64 {
    let under_share_1 = u64::from(UNIT_COST) * u64::from(length);
    under_share_1.div_ceil(u64::from(share))
}
