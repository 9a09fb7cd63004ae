//! How a till gets its addresses, as it is shown: alike for both families.

use crate::json::Json;
use qewaris::{ipv6_text, Ipv4, Ipv6, JoinRecord, StaticAddress};
use std::net::{IpAddr, Ipv4Addr};

/// How a till gets its address of a family.
pub struct Addressing {
    /// `dhcp` of IPv4 and `auto` of IPv6, `off`, or `static`.
    method: &'static str,
    /// A fixed address in words.
    fixed: Option<StaticAddress<String>>,
}

impl From<Ipv4> for Addressing {
    fn from(ipv4: Ipv4) -> Addressing {
        match ipv4 {
            Ipv4::Dhcp => Addressing::by("dhcp"),
            Ipv4::Off => Addressing::by("off"),
            Ipv4::Static(fixed) => Addressing::fixed(fixed, |address: Ipv4Addr| address.to_string()),
        }
    }
}

impl From<Ipv6> for Addressing {
    fn from(ipv6: Ipv6) -> Addressing {
        match ipv6 {
            Ipv6::Auto => Addressing::by("auto"),
            Ipv6::Off => Addressing::by("off"),
            Ipv6::Static(fixed) => Addressing::fixed(fixed, ipv6_text),
        }
    }
}

impl Addressing {
    fn by(method: &'static str) -> Addressing {
        Addressing { method, fixed: None }
    }

    fn fixed<A>(fixed: StaticAddress<A>, text: fn(A) -> String) -> Addressing {
        Addressing {
            method: "static",
            fixed: Some(StaticAddress {
                address: text(fixed.address),
                prefix_length: fixed.prefix_length,
                gateway: fixed.gateway.map(text),
            }),
        }
    }

    /// The address and its length, or how the till gets one.
    pub fn short(&self) -> String {
        match &self.fixed {
            Some(fixed) => format!("{}/{}", fixed.address, fixed.prefix_length),
            None => self.method.to_string(),
        }
    }

    /// As a ConnMan file has it.
    pub fn setting(&self) -> String {
        let gateway = self.fixed.as_ref().and_then(|fixed| fixed.gateway.as_ref());
        self.short() + &gateway.map_or(String::new(), |gateway| format!("/{gateway}"))
    }

    /// As a person reads it.
    pub fn told(&self) -> String {
        let gateway = self.fixed.as_ref().map(|fixed| match &fixed.gateway {
            Some(gateway) => format!(", gateway {gateway}"),
            None => ", no gateway".to_string(),
        });
        self.short() + &gateway.unwrap_or_default()
    }

    pub fn json(&self) -> Json {
        let fixed = self.fixed.as_ref();
        Json::object([
            ("method", Json::text(self.method)),
            ("address", Json::from(fixed.map(|fixed| &fixed.address))),
            (
                "prefix_length",
                fixed.map_or(Json::Null, |fixed| Json::Number(fixed.prefix_length.into())),
            ),
            ("gateway", Json::from(fixed.and_then(|fixed| fixed.gateway.as_ref()))),
        ])
    }
}

/// The fixed addresses of a record.
pub fn fixed_addresses(record: &JoinRecord) -> impl Iterator<Item = IpAddr> {
    let ipv4 = match record.ipv4 {
        Ipv4::Static(fixed) => Some(fixed.address.into()),
        _ => None,
    };
    let ipv6 = match record.ipv6 {
        Ipv6::Static(fixed) => Some(fixed.address.into()),
        _ => None,
    };
    ipv4.into_iter().chain(ipv6)
}

/// An address of either family as text.
pub fn address_text(address: IpAddr) -> String {
    match address {
        IpAddr::V4(address) => address.to_string(),
        IpAddr::V6(address) => ipv6_text(address),
    }
}
