//! Reading an iwd file under its name: the first fault, or the file with its settings and its join record.

use super::addressing::{Ipv4, Ipv6};
use super::dialect::{Dialect, GroupKind};
use super::file_name::{read_iwd, Suffix};
use super::groups::{groups, Group, Text};
use super::record::{Credential, Record};
use super::refusal::{Fault, Refusal};
use super::{Counts, LONGEST_FILE};

/// The settings of an iwd file; what is absent is none, an absent list is empty.
#[derive(Clone, Debug, Default, PartialEq, Eq)]
pub struct Settings {
    pub auto_connect: Option<bool>,
    pub hidden: Option<bool>,
    pub always_randomize_address: Option<bool>,
    pub address_override: Option<[u8; 6]>,
    pub passphrase: Option<Text>,
    pub pre_shared_key: Option<[u8; 32]>,
    pub address: Option<[u8; 4]>,
    pub gateway: Option<[u8; 4]>,
    pub broadcast: Option<[u8; 4]>,
    pub netmask_length: Option<u8>,
    pub dns: Vec<[u8; 4]>,
    pub domain_name: Option<Text>,
    pub send_hostname: Option<bool>,
    pub ipv6_enabled: Option<bool>,
    /// With the length of its prefix.
    pub ipv6_address: Option<([u8; 16], u8)>,
    pub ipv6_gateway: Option<[u8; 16]>,
}

/// An accepted iwd file.
#[derive(Clone, Debug, PartialEq, Eq)]
pub struct File {
    pub ssid: Vec<u8>,
    pub suffix: Suffix,
    pub counts: Counts,
    pub settings: Settings,
}

/// Reads an iwd file: "1, 2; then the first faulty line", then 14 and 15 of the file.
pub fn read(name: &[u8], file: &[u8]) -> Result<File, Refusal> {
    if file.len() > LONGEST_FILE {
        return Err(Fault::Size.without_line());
    }
    let (ssid, suffix) = read_iwd(name).ok_or(Fault::FileName.without_line())?;
    let groups = groups(Dialect::Iwd, file)?;
    let settings = Settings::of(&groups);
    settings.obey_rules(suffix).map_err(Fault::without_line)?;
    let counts = Counts {
        settings: groups.iter().map(|group| group.settings.len()).sum(),
        services: 0,
    };
    Ok(File {
        ssid,
        suffix,
        counts,
        settings,
    })
}

impl Settings {
    fn of(groups: &[Group]) -> Settings {
        let in_group = |kind| groups.iter().find(move |group| group.kind == kind);
        let (general, security) = (in_group(GroupKind::Settings), in_group(GroupKind::Security));
        let (ipv4, ipv6) = (in_group(GroupKind::Ipv4), in_group(GroupKind::Ipv6));
        Settings {
            auto_connect: general.and_then(|group| group.flag("AutoConnect")),
            hidden: general.and_then(|group| group.flag("Hidden")),
            always_randomize_address: general.and_then(|group| group.flag("AlwaysRandomizeAddress")),
            address_override: general.and_then(|group| group.mac("AddressOverride")),
            passphrase: security.and_then(|group| group.text("Passphrase")),
            pre_shared_key: security
                .and_then(|group| group.hex("PreSharedKey"))
                .and_then(|key| key.try_into().ok()),
            address: ipv4.and_then(|group| group.address("Address")),
            gateway: ipv4.and_then(|group| group.address("Gateway")),
            broadcast: ipv4.and_then(|group| group.address("Broadcast")),
            netmask_length: ipv4.and_then(|group| group.mask("Netmask")),
            dns: ipv4.map_or(Vec::new(), |group| group.servers("DNS")),
            domain_name: ipv4.and_then(|group| group.text("DomainName")),
            send_hostname: ipv4.and_then(|group| group.flag("SendHostname")),
            ipv6_enabled: ipv6.and_then(|group| group.flag("Enabled")),
            ipv6_address: ipv6.and_then(|group| group.ipv6_prefix("Address")),
            ipv6_gateway: ipv6.and_then(|group| group.ipv6_address("Gateway")),
        }
    }

    /// "iwd 14: .psk with neither key; Address without Gateway; Gateway, Netmask or Broadcast without Address. iwd 15: .open with
    /// either key." And of IPv6, whose group is judged by itself: "iwd Gateway without Address or the reverse 14; iwd Enabled false beside
    /// Address 15" (request 2026-03).
    fn obey_rules(&self, suffix: Suffix) -> Result<(), Fault> {
        let has_key = self.passphrase.is_some() || self.pre_shared_key.is_some();
        let needs_address = self.gateway.is_some() || self.netmask_length.is_some() || self.broadcast.is_some();
        let lacks_key = suffix == Suffix::Psk && !has_key;
        let lacks_gateway = self.address.is_some() && self.gateway.is_none();
        let lacks_address = self.address.is_none() && needs_address;
        let lacks_ipv6_part = self.ipv6_address.is_some() != self.ipv6_gateway.is_some();
        if lacks_key || lacks_gateway || lacks_address || lacks_ipv6_part {
            return Err(Fault::Missing);
        }
        let has_needless_key = suffix == Suffix::Open && has_key;
        let has_address_while_off = self.ipv6_enabled == Some(false) && self.ipv6_address.is_some();
        if has_needless_key || has_address_while_off {
            return Err(Fault::Contradiction);
        }
        Ok(())
    }
}

impl File {
    /// The join record: "the name from the file name; a Passphrase wins over a PreSharedKey; Netmask absent means 24; no Address
    /// means dhcp; Enabled absent or true means auto (house)", or static beside an Address; "Hidden absent means false".
    pub fn record(&self) -> Record {
        let settings = &self.settings;
        let credential = match (&settings.passphrase, settings.pre_shared_key) {
            (Some(passphrase), _) => Credential::Passphrase(passphrase.bytes.clone()),
            (None, Some(key)) => Credential::Key(key),
            (None, None) => Credential::None,
        };
        let ipv4 = match settings.address {
            Some(address) => Ipv4::Static {
                address,
                prefix_length: settings.netmask_length.unwrap_or(24),
                gateway: settings.gateway,
            },
            None => Ipv4::Auto,
        };
        let ipv6 = match settings.ipv6_address {
            _ if settings.ipv6_enabled == Some(false) => Ipv6::Off,
            Some((address, prefix_length)) => Ipv6::Static {
                address,
                prefix_length,
                gateway: settings.ipv6_gateway,
            },
            None => Ipv6::Auto,
        };
        Record {
            ssid: self.ssid.clone(),
            credential,
            hidden: settings.hidden.unwrap_or(false),
            ipv4,
            servers: settings.dns.clone(),
            domain: settings.domain_name.as_ref().map_or(Vec::new(), |domain| domain.bytes.clone()),
            ipv6,
        }
    }
}
