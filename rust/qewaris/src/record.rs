//! The join record: what a till needs to join a network.

use crate::raw;
use crate::refusal::{answered, Refusal};
use crate::Hidden;
use std::fmt;
use std::net::{Ipv4Addr, Ipv6Addr};

/// A join record. Any value of this type may be handed to the writer, which refuses one that is malformed.
#[derive(Clone, Debug, PartialEq, Eq)]
pub struct JoinRecord {
    /// The network name (SSID), 1 to 32 bytes.
    pub name: Vec<u8>,
    pub credential: Credential,
    pub hidden: bool,
    pub ipv4: Ipv4,
    /// The name servers, at most 4, in order.
    pub name_servers: Vec<Ipv4Addr>,
    /// The domain, at most 253 bytes of UTF-8 without byte 0; empty where it is absent.
    pub domain: Vec<u8>,
    pub ipv6: Ipv6,
}

/// What the network asks for. `Debug` does not show a passphrase or a key.
///
/// There will be more of them, and so of every enum that is marked as this one is: a `match` has an arm for the others.
///
/// ```compile_fail
/// fn is_open(credential: &qewaris::Credential) -> bool {
///     match credential {
///         qewaris::Credential::None => true,
///         qewaris::Credential::Passphrase(_) | qewaris::Credential::Key(_) => false,
///     }
/// }
/// ```
#[derive(Clone, PartialEq, Eq)]
#[non_exhaustive]
pub enum Credential {
    None,
    /// 8 to 63 bytes of UTF-8 without byte 0.
    Passphrase(Vec<u8>),
    Key([u8; 32]),
}

#[derive(Clone, Copy, Debug, PartialEq, Eq)]
pub enum Ipv4 {
    Dhcp,
    Off,
    Static(StaticIpv4),
}

#[derive(Clone, Copy, Debug, PartialEq, Eq)]
pub enum Ipv6 {
    Auto,
    Off,
    Static(StaticIpv6),
}

/// A fixed address. iwd has no place for one without a gateway, which is refused with 16 where it is written or moved.
///
/// ```
/// use qewaris::{Ipv6, StaticIpv6};
///
/// let file = b"[service_till]\nType = wifi\nName = Desk 4\nIPv6 = 2001:db8::14/64\n";
/// let record = qewaris::service_record(b"shop.config", file, 1)?;
/// let fixed = StaticIpv6 { address: "2001:db8::14".parse().unwrap(), prefix_length: 64, gateway: None };
/// assert_eq!(record.ipv6, Ipv6::Static(fixed));
/// assert_eq!(qewaris::write_iwd(&record).unwrap_err().number(), 16);
/// # Ok::<(), qewaris::Refusal>(())
/// ```
#[derive(Clone, Copy, Debug, PartialEq, Eq)]
pub struct StaticAddress<A> {
    pub address: A,
    /// 1 to 32 in IPv4, 1 to 128 in IPv6.
    pub prefix_length: u8,
    pub gateway: Option<A>,
}

pub type StaticIpv4 = StaticAddress<Ipv4Addr>;

pub type StaticIpv6 = StaticAddress<Ipv6Addr>;

impl Credential {
    /// What it is called: `none`, `passphrase` or `key`.
    pub fn word(&self) -> &'static str {
        match self {
            Credential::None => "none",
            Credential::Passphrase(_) => "passphrase",
            Credential::Key(_) => "key",
        }
    }
}

impl Ipv6 {
    /// What it is called: `auto`, `off` or `static`.
    pub fn word(self) -> &'static str {
        match self {
            Ipv6::Auto => "auto",
            Ipv6::Off => "off",
            Ipv6::Static(_) => "static",
        }
    }
}

impl<A> StaticAddress<A> {
    /// The address of the places that the archive's structs have for it.
    pub(crate) fn from_places<const N: usize>(address: [u8; N], prefix_length: u8, has_gateway: u8, gateway: [u8; N]) -> Self
    where
        A: From<[u8; N]>,
    {
        StaticAddress {
            address: address.into(),
            prefix_length,
            gateway: (has_gateway == 1).then(|| gateway.into()),
        }
    }

    /// These places: the address, its length, whether there is a gateway, and the gateway.
    fn places<const N: usize>(&self, octets: impl Fn(&A) -> [u8; N]) -> ([u8; N], u8, u8, [u8; N]) {
        let gateway = self.gateway.as_ref();
        (
            octets(&self.address),
            self.prefix_length,
            gateway.is_some().into(),
            gateway.map_or([0; N], &octets),
        )
    }
}

impl fmt::Debug for Credential {
    fn fmt(&self, f: &mut fmt::Formatter<'_>) -> fmt::Result {
        match self {
            Credential::None => f.write_str("None"),
            Credential::Passphrase(_) => f.debug_tuple("Passphrase").field(&Hidden).finish(),
            Credential::Key(_) => f.debug_tuple("Key").field(&Hidden).finish(),
        }
    }
}

/// The join record of an iwd file.
///
/// ```
/// let record = qewaris::iwd_record(b"Desk 4.open", b"")?;
/// assert_eq!(record, qewaris::JoinRecord::open(b"Desk 4"));
/// # Ok::<(), qewaris::Refusal>(())
/// ```
pub fn iwd_record(name: &[u8], file: &[u8]) -> Result<JoinRecord, Refusal> {
    // SAFETY: the pointers and lengths are those of slices, which nothing changes during the call.
    joined(unsafe { raw::qewaris_iwd_record(name.as_ptr(), name.len(), file.as_ptr(), file.len()) })
}

/// The join record of a ConnMan service, by its number from 1. Refused with 16 for an ethernet, wep or ieee8021x service.
pub fn service_record(name: &[u8], file: &[u8], service: usize) -> Result<JoinRecord, Refusal> {
    // SAFETY: as above.
    joined(unsafe { raw::qewaris_service_record(name.as_ptr(), name.len(), file.as_ptr(), file.len(), service) })
}

fn joined(answer: raw::RecordAnswer) -> Result<JoinRecord, Refusal> {
    answered(answer.number, answer.line, || JoinRecord::from_raw(&answer.record))
}

impl JoinRecord {
    /// An open network with this name, with every other part at its default.
    pub fn open(name: &[u8]) -> JoinRecord {
        JoinRecord {
            name: name.to_vec(),
            credential: Credential::None,
            hidden: false,
            ipv4: Ipv4::Dhcp,
            name_servers: Vec::new(),
            domain: Vec::new(),
            ipv6: Ipv6::Auto,
        }
    }

    /// Whether joining asks for a passphrase or a key.
    pub fn needs_key(&self) -> bool {
        self.credential != Credential::None
    }

    /// The record in the archive's struct; none where a part is too long for it.
    pub(crate) fn to_raw(&self) -> Option<raw::Record> {
        let mut record = raw::Record {
            hidden: self.hidden.into(),
            ..raw::Record::ZERO
        };
        record.name_len = laid(&self.name, &mut record.name)?;
        match &self.credential {
            Credential::None => {}
            Credential::Passphrase(bytes) => {
                record.credential = raw::CREDENTIAL_PASSPHRASE;
                record.passphrase_len = laid(bytes, &mut record.passphrase)?;
            }
            Credential::Key(bytes) => {
                record.credential = raw::CREDENTIAL_KEY;
                record.key = *bytes;
            }
        }
        match &self.ipv4 {
            Ipv4::Dhcp => {}
            Ipv4::Off => record.ipv4 = raw::IPV4_OFF,
            Ipv4::Static(fixed) => {
                record.ipv4 = raw::IPV4_STATIC;
                (record.address, record.prefix_length, record.has_gateway, record.gateway) = fixed.places(Ipv4Addr::octets);
            }
        }
        let servers: Vec<u8> = self.name_servers.iter().flat_map(Ipv4Addr::octets).collect();
        record.server_count = laid(&servers, &mut record.servers)? / 4;
        record.domain_len = laid(&self.domain, &mut record.domain)?;
        match &self.ipv6 {
            Ipv6::Auto => {}
            Ipv6::Off => record.ipv6 = raw::IPV6_OFF,
            Ipv6::Static(fixed) => {
                record.ipv6 = raw::IPV6_STATIC;
                (
                    record.ipv6_address,
                    record.ipv6_prefix_length,
                    record.has_ipv6_gateway,
                    record.ipv6_gateway,
                ) = fixed.places(Ipv6Addr::octets);
            }
        }
        Some(record)
    }

    /// The record that the archive handed out.
    fn from_raw(record: &raw::Record) -> JoinRecord {
        JoinRecord {
            name: record.name[..record.name_len.into()].to_vec(),
            credential: match record.credential {
                raw::CREDENTIAL_NONE => Credential::None,
                raw::CREDENTIAL_PASSPHRASE => Credential::Passphrase(record.passphrase[..record.passphrase_len.into()].to_vec()),
                _ => Credential::Key(record.key),
            },
            hidden: record.hidden == 1,
            ipv4: match record.ipv4 {
                raw::IPV4_DHCP => Ipv4::Dhcp,
                raw::IPV4_OFF => Ipv4::Off,
                _ => Ipv4::Static(StaticAddress::from_places(
                    record.address,
                    record.prefix_length,
                    record.has_gateway,
                    record.gateway,
                )),
            },
            name_servers: addresses(&record.servers, record.server_count.into()),
            domain: record.domain[..record.domain_len.into()].to_vec(),
            ipv6: match record.ipv6 {
                raw::IPV6_AUTO => Ipv6::Auto,
                raw::IPV6_OFF => Ipv6::Off,
                _ => Ipv6::Static(StaticAddress::from_places(
                    record.ipv6_address,
                    record.ipv6_prefix_length,
                    record.has_ipv6_gateway,
                    record.ipv6_gateway,
                )),
            },
        }
    }
}

/// Lays bytes down at the front of a place and gives their length; none where they do not fit.
fn laid(bytes: &[u8], place: &mut [u8]) -> Option<u8> {
    place.get_mut(..bytes.len())?.copy_from_slice(bytes);
    u8::try_from(bytes.len()).ok()
}

/// The first `count` addresses of 16 bytes.
pub(crate) fn addresses(bytes: &[u8; 16], count: usize) -> Vec<Ipv4Addr> {
    bytes
        .chunks_exact(4)
        .take(count)
        .map(|a| Ipv4Addr::new(a[0], a[1], a[2], a[3]))
        .collect()
}
