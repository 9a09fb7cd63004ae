//! Typed settings: every key of an iwd file or of a ConnMan service, with its value or none.

use crate::raw;
use crate::record::{addresses, Ipv4, Ipv6, StaticAddress};
use crate::refusal::{answered, Refusal};
use crate::Hidden;
use std::fmt;
use std::net::{Ipv4Addr, Ipv6Addr};
use std::ops::Range;

/// The settings of an iwd file, by its groups. A string gives its line; its bytes are looked up.
#[derive(Clone, Debug, PartialEq, Eq)]
pub struct IwdSettings {
    pub general: IwdGeneral,
    pub security: IwdSecurity,
    pub ipv4: IwdIpv4,
    pub ipv6: IwdIpv6,
}

/// iwd's group Settings.
#[derive(Clone, Debug, PartialEq, Eq)]
pub struct IwdGeneral {
    pub auto_connect: Option<bool>,
    pub hidden: Option<bool>,
    pub always_randomize_address: Option<bool>,
    pub address_override: Option<[u8; 6]>,
}

/// iwd's group Security. `Debug` does not show the key.
#[derive(Clone, PartialEq, Eq)]
pub struct IwdSecurity {
    pub passphrase_line: Option<usize>,
    pub pre_shared_key: Option<[u8; 32]>,
}

impl fmt::Debug for IwdSecurity {
    fn fmt(&self, f: &mut fmt::Formatter<'_>) -> fmt::Result {
        let key = self.pre_shared_key.map(|_| Hidden);
        f.debug_struct("IwdSecurity")
            .field("passphrase_line", &self.passphrase_line)
            .field("pre_shared_key", &key)
            .finish()
    }
}

/// iwd's group IPv4.
#[derive(Clone, Debug, PartialEq, Eq)]
pub struct IwdIpv4 {
    pub address: Option<Ipv4Addr>,
    pub gateway: Option<Ipv4Addr>,
    pub broadcast: Option<Ipv4Addr>,
    /// The length of Netmask, 1 to 32.
    pub netmask_length: Option<u8>,
    /// 1 to 4 addresses; empty where it is absent.
    pub dns: Vec<Ipv4Addr>,
    pub domain_name_line: Option<usize>,
    pub send_hostname: Option<bool>,
}

/// iwd's group IPv6.
#[derive(Clone, Debug, PartialEq, Eq)]
pub struct IwdIpv6 {
    pub enabled: Option<bool>,
    pub address: Option<Ipv6Addr>,
    /// The length behind Address, 1 to 128: 128 where it is left off.
    pub prefix_length: Option<u8>,
    pub gateway: Option<Ipv6Addr>,
}

/// The settings of a ConnMan service.
#[derive(Clone, Debug, PartialEq, Eq)]
pub struct ServiceSettings {
    pub network: ServiceNetwork,
    pub addresses: ServiceAddresses,
}

/// Which network a ConnMan service joins, and how.
#[derive(Clone, Debug, PartialEq, Eq)]
pub struct ServiceNetwork {
    pub service_type: Option<ServiceType>,
    pub name_line: Option<usize>,
    /// 1 to 32 bytes.
    pub ssid: Option<Vec<u8>>,
    pub passphrase_line: Option<usize>,
    pub security: Option<Security>,
    pub hidden: Option<bool>,
}

/// The addresses of a ConnMan service.
#[derive(Clone, Debug, PartialEq, Eq)]
pub struct ServiceAddresses {
    pub ipv4: Option<Ipv4>,
    pub ipv6: Option<Ipv6>,
    pub privacy: Option<Privacy>,
    pub mac: Option<[u8; 6]>,
    /// 1 to 4 addresses; empty where it is absent.
    pub nameservers: Vec<Ipv4Addr>,
    /// Where each of 1 to 4 entries stands in the file; empty where it is absent.
    pub search_domains: Vec<Range<usize>>,
    /// As of the search domains.
    pub timeservers: Vec<Range<usize>>,
    pub domain_line: Option<usize>,
}

#[derive(Clone, Copy, Debug, PartialEq, Eq)]
pub enum ServiceType {
    Wifi,
    Ethernet,
}

#[derive(Clone, Copy, Debug, PartialEq, Eq)]
pub enum Security {
    Psk,
    Ieee8021x,
    None,
    Wep,
}

#[derive(Clone, Copy, Debug, PartialEq, Eq)]
pub enum Privacy {
    Disabled,
    Enabled,
    Preferred,
}

/// The settings of an iwd file.
///
/// ```
/// let file = b"[IPv4]\nDNS=10.0.0.2 10.0.0.3\n[IPv6]\nAddress=2001:DB8::14\nGateway=2001:db8::1\n";
/// let settings = qewaris::iwd_settings(b"Desk 4.open", file)?;
/// assert_eq!(settings.ipv4.dns.len(), 2);
/// assert_eq!(settings.ipv6.address, Some("2001:db8::14".parse().unwrap()));
/// assert_eq!(settings.ipv6.prefix_length, Some(128));
/// assert_eq!(settings.general.hidden, None);
/// # Ok::<(), qewaris::Refusal>(())
/// ```
pub fn iwd_settings(name: &[u8], file: &[u8]) -> Result<IwdSettings, Refusal> {
    // SAFETY: the pointers and lengths are those of slices, which nothing changes during the call.
    let found = unsafe { raw::qewaris_iwd_settings_of(name.as_ptr(), name.len(), file.as_ptr(), file.len()) };
    answered(found.number, found.line, || IwdSettings {
        general: IwdGeneral {
            auto_connect: choice(found.general.auto_connect),
            hidden: choice(found.general.hidden),
            always_randomize_address: choice(found.general.always_randomize_address),
            address_override: given(found.general.has_address_override, found.general.address_override),
        },
        security: IwdSecurity {
            passphrase_line: line(found.security.passphrase_line),
            pre_shared_key: given(found.security.has_pre_shared_key, found.security.pre_shared_key),
        },
        ipv4: iwd_ipv4(&found.ipv4),
        ipv6: iwd_ipv6(&found.ipv6),
    })
}

fn iwd_ipv4(found: &raw::IwdIpv4) -> IwdIpv4 {
    IwdIpv4 {
        address: given(found.has_address, found.address.into()),
        gateway: given(found.has_gateway, found.gateway.into()),
        broadcast: given(found.has_broadcast, found.broadcast.into()),
        netmask_length: length(found.netmask_length),
        dns: addresses(&found.dns, found.dns_count),
        domain_name_line: line(found.domain_name_line),
        send_hostname: choice(found.send_hostname),
    }
}

fn iwd_ipv6(found: &raw::IwdIpv6) -> IwdIpv6 {
    IwdIpv6 {
        enabled: choice(found.enabled),
        address: given(found.has_address, found.address.into()),
        prefix_length: length(found.prefix_length),
        gateway: given(found.has_gateway, found.gateway.into()),
    }
}

/// The settings of a ConnMan service, by its number from 1; of every kind of service, wired ones too.
pub fn service_settings(name: &[u8], file: &[u8], service: usize) -> Result<ServiceSettings, Refusal> {
    // SAFETY: as above.
    let found = unsafe { raw::qewaris_service_settings_of(name.as_ptr(), name.len(), file.as_ptr(), file.len(), service) };
    answered(found.number, found.line, || ServiceSettings {
        network: ServiceNetwork {
            service_type: coded(found.network.service_type, &TYPES),
            name_line: line(found.network.name_line),
            ssid: (found.network.ssid_len > 0).then(|| found.network.ssid[..found.network.ssid_len].to_vec()),
            passphrase_line: line(found.network.passphrase_line),
            security: coded(found.network.security, &SECURITIES),
            hidden: choice(found.network.hidden),
        },
        addresses: service_addresses(&found.addresses),
    })
}

fn service_addresses(found: &raw::ServiceAddresses) -> ServiceAddresses {
    let ipv4 = StaticAddress::from_places(found.address, found.prefix_length, found.has_gateway, found.gateway);
    let ipv6 = StaticAddress::from_places(
        found.ipv6_address,
        found.ipv6_prefix_length,
        found.has_ipv6_gateway,
        found.ipv6_gateway,
    );
    let ipv4_methods = [
        (raw::SETTING_IPV4_DHCP, Ipv4::Dhcp),
        (raw::SETTING_IPV4_OFF, Ipv4::Off),
        (raw::SETTING_IPV4_STATIC, Ipv4::Static(ipv4)),
    ];
    let ipv6_methods = [
        (raw::SETTING_IPV6_AUTO, Ipv6::Auto),
        (raw::SETTING_IPV6_OFF, Ipv6::Off),
        (raw::SETTING_IPV6_STATIC, Ipv6::Static(ipv6)),
    ];
    ServiceAddresses {
        ipv4: coded(found.ipv4, &ipv4_methods),
        ipv6: coded(found.ipv6, &ipv6_methods),
        privacy: coded(found.privacy, &PRIVACIES),
        mac: given(found.has_mac, found.mac),
        nameservers: addresses(&found.nameservers, found.nameserver_count),
        search_domains: entries(&found.search_domains),
        timeservers: entries(&found.timeservers),
        domain_line: line(found.domain_line),
    }
}

fn choice(code: u8) -> Option<bool> {
    coded(code, &[(raw::NO, false), (raw::YES, true)])
}

const TYPES: [(u8, ServiceType); 2] = [(raw::TYPE_WIFI, ServiceType::Wifi), (raw::TYPE_ETHERNET, ServiceType::Ethernet)];

const SECURITIES: [(u8, Security); 4] = [
    (raw::SECURITY_PSK, Security::Psk),
    (raw::SECURITY_IEEE8021X, Security::Ieee8021x),
    (raw::SECURITY_NONE, Security::None),
    (raw::SECURITY_WEP, Security::Wep),
];

const PRIVACIES: [(u8, Privacy); 3] = [
    (raw::PRIVACY_DISABLED, Privacy::Disabled),
    (raw::PRIVACY_ENABLED, Privacy::Enabled),
    (raw::PRIVACY_PREFERRED, Privacy::Preferred),
];

/// The case of a code; none where the setting is absent.
fn coded<T: Copy>(code: u8, cases: &[(u8, T)]) -> Option<T> {
    cases.iter().find(|(of, _)| *of == code).map(|(_, case)| *case)
}

fn given<T>(has: u8, value: T) -> Option<T> {
    (has == 1).then_some(value)
}

fn line(line: usize) -> Option<usize> {
    (line > 0).then_some(line)
}

/// The length of a mask or of an address.
fn length(length: u8) -> Option<u8> {
    (length > 0).then_some(length)
}

fn entries(found: &raw::Entries) -> Vec<Range<usize>> {
    let places = found.start.iter().zip(&found.length).take(found.count);
    places.map(|(start, length)| *start..start + length).collect()
}
