//! The rules over iwd's group IPv6, each met where nothing else in the file would be answered so.

use crate::case::FileCase;
use crate::met::Met;
use crate::reference::dialect::GroupKind;
use crate::reference::groups::Group;
use crate::reference::iwd;

/// What iwd's group IPv6 has: what Enabled says, whether there is an Address, and whether a Gateway.
type Has = (Option<bool>, bool, bool);

/// A rule by the answer to a file and that to the file without the settings of the group, by whether the group IPv4 has Address and Gateway
/// where that matters, and by what IPv6 has.
type Rule = (&'static str, (u8, u8), Option<bool>, fn(Has) -> bool);

pub const RULES: [Rule; 11] = [
    ("14, Address alone", (14, 0), None, |(enabled, address, gateway)| {
        enabled != Some(false) && address && !gateway
    }),
    ("14, Gateway alone", (14, 0), None, |(_, address, gateway)| !address && gateway),
    ("14, Address alone, Enabled=false", (14, 0), None, |has| {
        has == (Some(false), true, false)
    }),
    ("14, Address beside static IPv4", (14, 0), Some(true), |(_, address, gateway)| {
        address && !gateway
    }),
    ("14, Gateway beside static IPv4", (14, 0), Some(true), |(_, address, gateway)| {
        !address && gateway
    }),
    ("14 before 15 of the key", (14, 15), None, |(_, address, gateway)| {
        address != gateway
    }),
    ("15, Enabled=false", (15, 0), None, |has| has == (Some(false), true, true)),
    ("accepted, Enabled=true", (0, 0), None, |has| has == (Some(true), true, true)),
    ("accepted, no Enabled", (0, 0), None, |has| has == (None, true, true)),
    ("accepted, beside static IPv4", (0, 0), Some(true), |(_, address, gateway)| {
        address && gateway
    }),
    ("accepted, off", (0, 0), None, |has| has == (Some(false), false, false)),
];

/// Counts the rules that an iwd file met whose lines are all good, and which was answered with the number.
pub fn add(met: &mut Met, case: &FileCase, groups: &[Group], number: u8) {
    let group = |kind: GroupKind| groups.iter().find(|group| group.kind == kind);
    let Some(ipv6) = group(GroupKind::Ipv6).filter(|group| !group.settings.is_empty()) else {
        return;
    };
    let has: Has = (ipv6.flag("Enabled"), ipv6.has_any(&["Address"]), ipv6.has_any(&["Gateway"]));
    let without = if number == 0 { 0 } else { number_without(case, ipv6) };
    let has_ipv4 = group(GroupKind::Ipv4).is_some_and(|group| group.has_any(&["Address"]) && group.has_any(&["Gateway"]));
    for (event, (_, numbers, static_ipv4, holds)) in RULES.iter().enumerate() {
        if *numbers == (number, without) && static_ipv4.is_none_or(|wanted| wanted == has_ipv4) && holds(has) {
            met.add(event, &[]);
        }
    }
}

/// The answer to an iwd file without the settings of its group IPv6.
fn number_without(case: &FileCase, ipv6: &Group) -> u8 {
    let is_kept = |line: usize| ipv6.settings.iter().all(|setting| setting.line != line);
    let lines = case.file.split_inclusive(|&byte| byte == b'\n').enumerate();
    let kept: Vec<&[u8]> = lines.filter(|(place, _)| is_kept(place + 1)).map(|(_, line)| line).collect();
    iwd::read(&case.name, &kept.concat()).err().map_or(0, |refusal| refusal.number())
}
