//! The header's enumerators: the numbers of the answers, the codes of the structs' members, and the greatest lengths.

// The numbers of the answers.
pub const OK: u8 = 0;
pub const SIZE: u8 = 1;
pub const FILE_NAME: u8 = 2;
pub const UNRECOGNIZED: u8 = 3;
pub const EXTENSION: u8 = 4;
pub const BAD_HEADER: u8 = 5;
pub const UNKNOWN_GROUP: u8 = 6;
pub const REPEATED_GROUP: u8 = 7;
pub const NO_GROUP: u8 = 8;
pub const UNKNOWN_KEY: u8 = 9;
pub const REPEATED_KEY: u8 = 10;
pub const VALUE_TEXT: u8 = 11;
pub const VALUE_KIND: u8 = 12;
pub const MANY_SERVICES: u8 = 13;
pub const MISSING: u8 = 14;
pub const CONTRADICTION: u8 = 15;
pub const NO_PLACE: u8 = 16;
pub const SHORT_BUFFER: u8 = 17;
pub const NO_SERVICE: u8 = 18;
pub const MALFORMED: u8 = 19;

// A yes/no that may be absent.
pub const ABSENT: u8 = 0;
pub const NO: u8 = 1;
pub const YES: u8 = 2;

// Type of a ConnMan service; 0 is absent, and so in the next four.
pub const TYPE_WIFI: u8 = 1;
pub const TYPE_ETHERNET: u8 = 2;

// Security of a ConnMan service.
pub const SECURITY_PSK: u8 = 1;
pub const SECURITY_IEEE8021X: u8 = 2;
pub const SECURITY_NONE: u8 = 3;
pub const SECURITY_WEP: u8 = 4;

// IPv4 of a ConnMan service.
pub const SETTING_IPV4_DHCP: u8 = 1;
pub const SETTING_IPV4_OFF: u8 = 2;
pub const SETTING_IPV4_STATIC: u8 = 3;

// IPv6 of a ConnMan service.
pub const SETTING_IPV6_AUTO: u8 = 1;
pub const SETTING_IPV6_OFF: u8 = 2;
pub const SETTING_IPV6_STATIC: u8 = 3;

// IPv6.Privacy of a ConnMan service.
pub const PRIVACY_DISABLED: u8 = 1;
pub const PRIVACY_ENABLED: u8 = 2;
pub const PRIVACY_PREFERRED: u8 = 3;

// The credential of a join record.
pub const CREDENTIAL_NONE: u8 = 0;
pub const CREDENTIAL_PASSPHRASE: u8 = 1;
pub const CREDENTIAL_KEY: u8 = 2;

// IPv4 of a join record.
pub const IPV4_DHCP: u8 = 0;
pub const IPV4_OFF: u8 = 1;
pub const IPV4_STATIC: u8 = 2;

// IPv6 of a join record.
pub const IPV6_AUTO: u8 = 0;
pub const IPV6_OFF: u8 = 1;
pub const IPV6_STATIC: u8 = 2;

// No file name that is written is longer, and no file.
pub const NAME_MAX: usize = 70;
pub const FILE_MAX: usize = 944;
