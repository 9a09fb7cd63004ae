//! Reads iwd's and ConnMan's network files, gives their settings and join records, writes iwd files, and moves ConnMan services
//! to iwd.
//!
//! Every function answers for every input: with what was asked for, or with a [`Refusal`] that has a number, a line and a plain
//! sentence. What they answer is proved of the library behind this crate, a static archive that the build finds or makes; this
//! crate only gives it safe types. A file is given whole, under its name without a folder.
//!
//! For people, [`diagnosis`] tells of a refusal what was found and what is allowed, and which part of the line may be shown.
//!
//! ```
//! let file = b"[service_till]\nType = wifi\nName = Desk 4\nPassphrase = low tide 88\n";
//! let record = qewaris::service_record(b"shop.config", file, 1)?;
//! assert_eq!(record.name, b"Desk 4");
//! assert!(record.needs_key());
//!
//! let moved = qewaris::move_service(b"shop.config", file, 1)?;
//! assert_eq!(moved.name, b"Desk 4.psk");
//! assert_eq!(moved.file, b"[Security]\nPassphrase=low tide 88\n");
//!
//! let refused = qewaris::service_record(b"shop.config", b"[service_till]\nType = wifi\nPassphrase = short\n", 1).unwrap_err();
//! assert_eq!((refused.number(), refused.line()), (12, Some(3)));
//! assert_eq!(refused.to_string(), "line 3: the value is not of its key's kind [12]");
//! # Ok::<(), qewaris::Refusal>(())
//! ```

pub mod catalogue;
pub mod diagnosis;
pub mod escapes;
mod files;
pub mod hex;
mod ipv6;
pub mod layout;
mod messages;
pub mod raw;
mod reading;
mod record;
mod refusal;
pub mod secrets;
mod settings;
mod strings;
pub mod visible;

pub use files::{move_service, move_service_into, write_iwd, write_iwd_into, IwdFile, Written, FILE_MAX, NAME_MAX};
pub use ipv6::ipv6_text;
pub use reading::{check_connman, check_iwd, Counts};
pub use record::{iwd_record, service_record, Credential, Ipv4, Ipv6, JoinRecord, StaticAddress, StaticIpv4, StaticIpv6};
pub use refusal::{Reason, Refusal};
pub use settings::{
    iwd_settings, service_settings, IwdGeneral, IwdIpv4, IwdIpv6, IwdSecurity, IwdSettings, Privacy, Security, ServiceAddresses,
    ServiceNetwork, ServiceSettings, ServiceType,
};
pub use strings::{
    global_description, global_name, iwd_domain_name, iwd_passphrase, service_domain, service_name, service_passphrase, Text,
};

/// A secret as `Debug` shows it, without its length.
struct Hidden;

impl std::fmt::Debug for Hidden {
    fn fmt(&self, f: &mut std::fmt::Formatter<'_>) -> std::fmt::Result {
        f.write_str("<not shown>")
    }
}
