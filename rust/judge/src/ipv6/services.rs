//! What became of services with an IPv6: moved, or none that iwd has a place for.

use crate::answer::Answer;
use crate::blamed::blamed;
use crate::case::FileCase;
use crate::entry::Entry;
use crate::judged::Answers;
use crate::met::Met;
use crate::own;
use crate::reference::Dialect;
use qewaris::raw;

/// What became of services.
pub const SERVICES: [&str; 7] = [
    "moved, static",
    "moved, static IPv4 and IPv6",
    "moved, off",
    "record without gateway",
    "16 at IPv6 alone",
    "16 at IPv6 before another",
    "16 at another before IPv6",
];

/// Counts what became of the service that a case asks for.
pub fn add(met: &mut Met, case: &FileCase, answers: &Answers) {
    let Some(Answer::ServiceSettings(settings)) = own::answer(answers, Entry::ServiceSettings) else {
        return;
    };
    let Some(Answer::Written { written, .. }) = own::answer(answers, Entry::MoveService) else {
        return;
    };
    let record = own::record(answers, Entry::ServiceRecord);
    let ipv6 = record.map(|record| (record.ipv6, record.has_ipv6_gateway));
    let is_static = ipv6 == Some((raw::IPV6_STATIC, 1));
    let lacks_gateway = settings.addresses.ipv6 == raw::SETTING_IPV6_STATIC && settings.addresses.has_ipv6_gateway == 0;
    let named = (written.number == raw::NO_PLACE && lacks_gateway)
        .then(|| blamed(Dialect::Connman, &case.file, written.line).is_some_and(|line| line.key == "IPv6"));
    let alone = !has_other_without_place(settings);
    let events = [
        written.number == 0 && is_static,
        written.number == 0 && is_static && record.is_some_and(|record| record.ipv4 == raw::IPV4_STATIC),
        written.number == 0 && ipv6 == Some((raw::IPV6_OFF, 0)),
        ipv6 == Some((raw::IPV6_STATIC, 0)),
        named == Some(true) && alone,
        named == Some(true) && !alone,
        named == Some(false),
    ];
    for (event, _) in events.iter().enumerate().filter(|(_, holds)| **holds) {
        met.add(event, &[]);
    }
}

/// Whether a service has a thing on the move's list beside its IPv6.
fn has_other_without_place(settings: &raw::ServiceSettings) -> bool {
    let raw::ServiceSettings { network, addresses, .. } = settings;
    let is_foreign = network.service_type == raw::TYPE_ETHERNET || [raw::SECURITY_WEP, raw::SECURITY_IEEE8021X].contains(&network.security);
    let has_ipv4 = addresses.ipv4 == raw::SETTING_IPV4_OFF || (addresses.ipv4 == raw::SETTING_IPV4_STATIC && addresses.has_gateway == 0);
    let has_list = addresses.search_domains.count > 0 || addresses.timeservers.count > 0;
    is_foreign || has_ipv4 || has_list || addresses.has_mac == 1 || addresses.privacy > 0
}
