//! The C boundary as it is: the structs of `include/qewaris.h`, its enumerators and its functions.
//!
//! The rest of this crate is over these; they are public for programs that lay records out themselves. The gate compares them
//! with the header and with the library (`.ci/layout`), and the build asks the archive for its layout.

mod codes;

pub use codes::*;

#[repr(C)]
#[derive(Clone, Copy, Debug, PartialEq, Eq)]
pub struct Reading {
    pub line: usize,
    pub settings: usize,
    pub services: usize,
    pub number: u8,
    pub reserved: [u8; 7],
}

#[repr(C)]
#[derive(Clone, Copy, Debug, PartialEq, Eq)]
pub struct IwdGeneral {
    pub auto_connect: u8,
    pub hidden: u8,
    pub always_randomize_address: u8,
    pub has_address_override: u8,
    pub address_override: [u8; 6],
}

#[repr(C)]
#[derive(Clone, Copy, PartialEq, Eq)]
pub struct IwdSecurity {
    pub passphrase_line: usize,
    pub has_pre_shared_key: u8,
    pub pre_shared_key: [u8; 32],
    pub reserved: [u8; 7],
}

#[repr(C)]
#[derive(Clone, Copy, Debug, PartialEq, Eq)]
pub struct IwdIpv4 {
    pub domain_name_line: usize,
    pub dns_count: usize,
    pub dns: [u8; 16],
    pub has_address: u8,
    pub address: [u8; 4],
    pub has_gateway: u8,
    pub gateway: [u8; 4],
    pub has_broadcast: u8,
    pub broadcast: [u8; 4],
    pub netmask_length: u8,
    pub send_hostname: u8,
    pub reserved: [u8; 7],
}

#[repr(C)]
#[derive(Clone, Copy, Debug, PartialEq, Eq)]
pub struct IwdIpv6 {
    pub enabled: u8,
    pub has_address: u8,
    pub address: [u8; 16],
    pub prefix_length: u8,
    pub has_gateway: u8,
    pub gateway: [u8; 16],
}

#[repr(C)]
#[derive(Clone, Copy, PartialEq, Eq)]
pub struct IwdSettings {
    pub line: usize,
    pub number: u8,
    pub general: IwdGeneral,
    pub ipv6: IwdIpv6,
    pub reserved: [u8; 1],
    pub security: IwdSecurity,
    pub ipv4: IwdIpv4,
}

#[repr(C)]
#[derive(Clone, Copy, Debug, PartialEq, Eq)]
pub struct Entries {
    pub count: usize,
    pub start: [usize; 4],
    pub length: [usize; 4],
}

#[repr(C)]
#[derive(Clone, Copy, Debug, PartialEq, Eq)]
pub struct ServiceNetwork {
    pub name_line: usize,
    pub passphrase_line: usize,
    pub ssid_len: usize,
    pub ssid: [u8; 32],
    pub service_type: u8,
    pub security: u8,
    pub hidden: u8,
    pub reserved: [u8; 5],
}

#[repr(C)]
#[derive(Clone, Copy, Debug, PartialEq, Eq)]
pub struct ServiceAddresses {
    pub domain_line: usize,
    pub search_domains: Entries,
    pub timeservers: Entries,
    pub nameserver_count: usize,
    pub nameservers: [u8; 16],
    pub ipv4: u8,
    pub address: [u8; 4],
    pub prefix_length: u8,
    pub has_gateway: u8,
    pub gateway: [u8; 4],
    pub ipv6: u8,
    pub ipv6_address: [u8; 16],
    pub ipv6_prefix_length: u8,
    pub has_ipv6_gateway: u8,
    pub ipv6_gateway: [u8; 16],
    pub privacy: u8,
    pub has_mac: u8,
    pub mac: [u8; 6],
    pub reserved: [u8; 2],
}

#[repr(C)]
#[derive(Clone, Copy, Debug, PartialEq, Eq)]
pub struct ServiceSettings {
    pub line: usize,
    pub number: u8,
    pub reserved: [u8; 7],
    pub network: ServiceNetwork,
    pub addresses: ServiceAddresses,
}

#[repr(C)]
#[derive(Clone, Copy, Debug, PartialEq, Eq)]
pub struct Text {
    pub line: usize,
    pub start: usize,
    pub length: usize,
    pub number: u8,
    pub reserved: [u8; 7],
}

#[repr(C)]
#[derive(Clone, Copy, PartialEq, Eq)]
pub struct Record {
    pub name_len: u8,
    pub name: [u8; 32],
    pub credential: u8,
    pub passphrase_len: u8,
    pub passphrase: [u8; 63],
    pub key: [u8; 32],
    pub hidden: u8,
    pub ipv4: u8,
    pub address: [u8; 4],
    pub prefix_length: u8,
    pub has_gateway: u8,
    pub gateway: [u8; 4],
    pub server_count: u8,
    pub servers: [u8; 16],
    pub domain_len: u8,
    pub domain: [u8; 253],
    pub ipv6: u8,
    pub ipv6_address: [u8; 16],
    pub ipv6_prefix_length: u8,
    pub has_ipv6_gateway: u8,
    pub ipv6_gateway: [u8; 16],
}

impl Record {
    /// The record whose every byte is zero. It is malformed, since its network name is empty.
    pub const ZERO: Record = Record {
        name_len: 0,
        name: [0; 32],
        credential: 0,
        passphrase_len: 0,
        passphrase: [0; 63],
        key: [0; 32],
        hidden: 0,
        ipv4: 0,
        address: [0; 4],
        prefix_length: 0,
        has_gateway: 0,
        gateway: [0; 4],
        server_count: 0,
        servers: [0; 16],
        domain_len: 0,
        domain: [0; 253],
        ipv6: 0,
        ipv6_address: [0; 16],
        ipv6_prefix_length: 0,
        has_ipv6_gateway: 0,
        ipv6_gateway: [0; 16],
    };
}

#[repr(C)]
#[derive(Clone, Copy, PartialEq, Eq)]
pub struct RecordAnswer {
    pub line: usize,
    pub number: u8,
    pub record: Record,
    pub reserved: [u8; 7],
}

#[repr(C)]
#[derive(Clone, Copy, Debug, PartialEq, Eq)]
pub struct Written {
    pub line: usize,
    pub name_len: usize,
    pub file_len: usize,
    pub number: u8,
    pub reserved: [u8; 7],
}

extern "C" {
    pub fn qewaris_version() -> u32;
    pub fn qewaris_layout_2() -> u32;
    pub fn qewaris_check_iwd(name: *const u8, name_len: usize, file: *const u8, file_len: usize) -> Reading;
    pub fn qewaris_check_connman(name: *const u8, name_len: usize, file: *const u8, file_len: usize) -> Reading;
    pub fn qewaris_iwd_settings_of(name: *const u8, name_len: usize, file: *const u8, file_len: usize) -> IwdSettings;
    pub fn qewaris_service_settings_of(
        name: *const u8,
        name_len: usize,
        file: *const u8,
        file_len: usize,
        service: usize,
    ) -> ServiceSettings;
    pub fn qewaris_iwd_passphrase(name: *const u8, name_len: usize, file: *const u8, file_len: usize) -> Text;
    pub fn qewaris_iwd_domain_name(name: *const u8, name_len: usize, file: *const u8, file_len: usize) -> Text;
    pub fn qewaris_global_name(name: *const u8, name_len: usize, file: *const u8, file_len: usize) -> Text;
    pub fn qewaris_global_description(name: *const u8, name_len: usize, file: *const u8, file_len: usize) -> Text;
    pub fn qewaris_service_name(name: *const u8, name_len: usize, file: *const u8, file_len: usize, service: usize) -> Text;
    pub fn qewaris_service_passphrase(name: *const u8, name_len: usize, file: *const u8, file_len: usize, service: usize) -> Text;
    pub fn qewaris_service_domain(name: *const u8, name_len: usize, file: *const u8, file_len: usize, service: usize) -> Text;
    pub fn qewaris_iwd_record(name: *const u8, name_len: usize, file: *const u8, file_len: usize) -> RecordAnswer;
    pub fn qewaris_service_record(name: *const u8, name_len: usize, file: *const u8, file_len: usize, service: usize) -> RecordAnswer;
    pub fn qewaris_write_iwd(record: Record, name_out: *mut u8, name_out_len: usize, file_out: *mut u8, file_out_len: usize) -> Written;
    pub fn qewaris_move_service(
        name: *const u8,
        name_len: usize,
        file: *const u8,
        file_len: usize,
        service: usize,
        name_out: *mut u8,
        name_out_len: usize,
        file_out: *mut u8,
        file_out_len: usize,
    ) -> Written;
}
