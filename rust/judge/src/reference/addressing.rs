//! How a network's addresses are come by, for IPv4 with its four bytes and IPv6 with its sixteen alike.

/// Of a ConnMan setting and of a join record: "IPv4 as dhcp, off, or static with address, length 1 to 32 and perhaps a gateway", and of
/// IPv6 "the join record gains the static case", with lengths that "run from 1 to 128" (request 2026-03).
#[derive(Clone, Copy, Debug, PartialEq, Eq)]
pub enum Addressing<const WIDTH: usize> {
    /// IPv4's `dhcp`, IPv6's `auto`.
    Auto,
    Off,
    Static {
        address: [u8; WIDTH],
        prefix_length: u8,
        gateway: Option<[u8; WIDTH]>,
    },
}

pub type Ipv4 = Addressing<4>;
pub type Ipv6 = Addressing<16>;

impl<const WIDTH: usize> Addressing<WIDTH> {
    /// Whether a length is within the bits of an address.
    pub fn is_well_formed(&self) -> bool {
        match self {
            Addressing::Static { prefix_length, .. } => (1..=8 * WIDTH).contains(&usize::from(*prefix_length)),
            Addressing::Auto | Addressing::Off => true,
        }
    }

    /// "Static without gateway", which iwd has no place for.
    pub fn lacks_gateway(&self) -> bool {
        matches!(self, Addressing::Static { gateway: None, .. })
    }
}
