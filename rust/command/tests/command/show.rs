//! `qewaris show`, as a table and as JSON.

use crate::common::json::{read, text, Value};
use crate::common::{Folder, DESK, SHOP};

const OFFICE: &str = "[global]\nName = Office\nDescription = Two tills\n[service_a]\nType = wifi\nSSID = 436166e9\n\
Security = none\nDomain = shop.example\n[service_b]\nType = ethernet\nMAC = 02:00:5E:10:00:01\nTimeservers = a,b\n\
IPv6.Privacy = prefered\nIPv4 = off\n";

#[test]
fn a_table_has_settings_and_record() {
    let folder = Folder::new("table");
    folder.write("shop.config", SHOP);
    let told = "\
shop.config (ConnMan, 7 settings, 1 service)

  service 1, [service_till] on line 1
    Type                    wifi
    IPv4                    10.20.0.14/24/10.20.0.1
    IPv6                    off
    Nameservers             10.20.0.2, 10.20.0.3
    Name                    Desk 4
    Passphrase              .......... (hidden, --secrets shows it)
    Hidden                  true

  join record
    network name            Desk 4
    passphrase              .......... (hidden, --secrets shows it)
    hidden                  yes
    IPv4                    10.20.0.14/24, gateway 10.20.0.1
    name servers            10.20.0.2, 10.20.0.3
    domain                  none
    IPv6                    off
";
    folder.run(&["show", "shop.config"]).gives(0, told, "");
    folder.run(&["show", "shop.config", "1"]).gives(0, told, "");
    let open = told.replace(".......... (hidden, --secrets shows it)", "low\\tide 88");
    folder.run(&["show", "--secrets", "shop.config"]).gives(0, &open, "");
}

#[test]
fn an_iwd_file_is_shown_by_its_groups() {
    let folder = Folder::new("iwd-table");
    folder.write("Desk 4.psk", DESK);
    let run = folder.run(&["show", "Desk 4.psk", "--secrets"]);
    assert_eq!((run.code, run.err.as_str()), (Some(0), ""));
    assert!(run
        .out
        .starts_with("Desk 4.psk (iwd, 7 settings)\n\n  Settings\n    Hidden                  true\n"));
    for key in ["Passphrase", "passphrase"] {
        assert!(run.out.contains(&format!("    {key}              low\\tide 88\n")), "with its tab");
    }
    folder.write("Desk.open", "");
    let run = folder.run(&["show", "Desk.open"]);
    assert!(run.out.contains("    credential              none, the network is open\n"));
    assert_eq!(run.code, Some(0));
}

/// IPv6 as a ConnMan file may have it, as it is shown among its settings, and in its record.
const CONNMAN_IPV6: &[(&str, &str, &str)] = &[
    ("auto", "auto", "auto"),
    ("off", "off", "off"),
    (
        "2001:0DB8:0:0:0:0:0:14/64/2001:db8:0::1",
        "2001:db8::14/64/2001:db8::1",
        "2001:db8::14/64, gateway 2001:db8::1",
    ),
    ("::ffff:192.0.2.14/96", "::ffff:c000:20e/96", "::ffff:c000:20e/96, no gateway"),
    ("1:0:0:2:0:0:0:3/1/::", "1:0:0:2::3/1/::", "1:0:0:2::3/1, gateway ::"),
    ("1:0:2:0:3:0:4:0/128", "1:0:2:0:3:0:4:0/128", "1:0:2:0:3:0:4:0/128, no gateway"),
];

#[test]
fn an_ipv6_address_is_shown_in_one_form() {
    let folder = Folder::new("ipv6");
    for (value, setting, told) in CONNMAN_IPV6 {
        folder.write(
            "shop.config",
            format!("[service_a]\nType = wifi\nName = Desk\nSecurity = none\nIPv6 = {value}\n"),
        );
        let shown = folder.run(&["show", "shop.config"]).out;
        for row in [setting, told] {
            assert!(shown.contains(&format!("\n    IPv6                    {row}\n")), "{row}: {shown}");
        }
    }
    let told = "\
Desk.open (iwd, 5 settings)

  IPv4
    Address                 10.60.0.14
    Gateway                 10.60.0.1

  IPv6
    Enabled                 true
    Address                 64:ff9b::a3c:e/128
    Gateway                 2001:db8::1

  join record
    network name            Desk
    credential              none, the network is open
    hidden                  no
    IPv4                    10.60.0.14/24, gateway 10.60.0.1
    name servers            none
    domain                  none
    IPv6                    64:ff9b::a3c:e/128, gateway 2001:db8::1
";
    let file = "[IPv4]\nAddress=10.60.0.14\nGateway=10.60.0.1\n[IPv6]\nEnabled=1\nAddress=64:FF9B::10.60.0.14\nGateway=2001:db8:0:0::1\n";
    folder.write("Desk.open", file);
    folder.run(&["show", "Desk.open"]).gives(0, told, "");
}

#[test]
fn json_has_the_parts_of_an_ipv6_address() {
    let folder = Folder::new("ipv6-json");
    folder.write("Desk.open", "[IPv6]\nGateway=2001:DB8::1\nAddress=2001:0db8::14\n");
    let value = read(&folder.run(&["show", "--json", "Desk.open"]).out);
    for (place, found) in [
        ("settings/IPv6/Enabled", Value::Null),
        ("settings/IPv6/Address", text("2001:db8::14/128")),
        ("settings/IPv6/Gateway", text("2001:db8::1")),
        ("settings/IPv4/Address", Value::Null),
        ("record/ipv6/method", text("static")),
        ("record/ipv6/address", text("2001:db8::14")),
        ("record/ipv6/prefix_length", Value::Number(128)),
        ("record/ipv6/gateway", text("2001:db8::1")),
    ] {
        assert_eq!(*value.at(place), found, "{place}");
    }
    folder.write("a.config", "[service_a]\nType = wifi\nName = Desk\nSecurity = none\nIPv6 = ::2/9\n");
    let value = read(&folder.run(&["show", "--json", "a.config"]).out);
    assert_eq!(*value.at("services/0/settings/IPv6"), text("::2/9"));
    assert_eq!(*value.at("services/0/record/ipv6/gateway"), Value::Null);
    assert_eq!(*value.at("services/0/move_refusals/0/line"), Value::Number(5));
}

#[test]
fn a_service_without_a_record_is_shown_with_the_reason() {
    let folder = Folder::new("no-record");
    folder.write("office.config", OFFICE);
    let run = folder.run(&["show", "office.config"]);
    assert_eq!((run.code, run.err.as_str()), (Some(0), ""));
    assert!(run.out.contains("  global\n    Name                    Office\n"));
    assert!(run.out.contains("    network name            Caf\\xe9\n"));
    let reason = "    none                    line 10: [service_b] is ethernet, which has no place in iwd; only wifi moves [16]\n";
    assert!(run.out.contains(reason), "{}", run.out);
    assert!(!folder.run(&["show", "office.config", "1"]).out.contains("ethernet"));
}

#[test]
fn a_refused_file_is_told_as_by_check() {
    let folder = Folder::new("show-refused");
    folder.write("Desk.psk", "[Security]\nPassphrase=lowtide\n");
    let told = folder.run(&["check", "Desk.psk"]).out;
    folder.run(&["show", "Desk.psk"]).gives(1, &told, "");
    folder.write("shop.config", SHOP);
    for number in ["0", "2", "99999999999999999999"] {
        let run = folder.run(&["show", "shop.config", number]);
        assert_eq!((run.code, run.err.as_str()), (Some(1), ""));
        let told = format!("shop.config: error: There is no service {number}; the file has 1 [18]\n");
        assert_eq!(run.out, told);
        assert_eq!(folder.run(&["move", "shop.config", "--service", number]).out, told);
    }
}

#[test]
fn an_iwd_file_has_no_services() {
    let folder = Folder::new("iwd-service");
    folder.write("Desk.open", "");
    let told = "qewaris: An iwd file has no services, so no number of one can be given. Try qewaris show --help\n";
    folder.run(&["show", "Desk.open", "1"]).gives(3, "", told);
}

#[test]
fn json_has_every_member() {
    let folder = Folder::new("json");
    folder.write("shop.config", SHOP);
    let run = folder.run(&["show", "--json", "shop.config"]);
    assert_eq!((run.code, run.err.as_str()), (Some(0), ""));
    let value = read(&run.out);
    assert_eq!(*value.at("format"), Value::Number(4));
    assert_eq!(*value.at("file"), text("shop.config"));
    assert_eq!(*value.at("kind"), text("connman"));
    assert_eq!(*value.at("refusal"), Value::Null);
    assert_eq!(
        (value.at("setting_count"), value.at("service_count")),
        (&Value::Number(7), &Value::Number(1))
    );
    let service = value.at("services/0");
    assert_eq!((service.at("number"), service.at("line")), (&Value::Number(1), &Value::Number(1)));
    assert_eq!(*service.at("group"), text("service_till"));
    assert_eq!(*service.at("settings/Nameservers/1"), text("10.20.0.3"));
    assert_eq!(*service.at("settings/IPv6.Privacy"), Value::Null);
    assert_eq!(*service.at("settings/Passphrase"), Value::Null);
    assert_eq!(*service.at("settings/Passphrase_hidden"), Value::Bool(true));
    assert_eq!(*service.at("record/name_hex"), text("4465736b2034"));
    assert_eq!(*service.at("record/credential"), text("passphrase"));
    assert_eq!(*service.at("record/passphrase_hidden"), Value::Bool(true));
    assert_eq!(*service.at("record/key_hidden"), Value::Bool(false));
    assert_eq!(*service.at("record/ipv4/prefix_length"), Value::Number(24));
    assert_eq!(*service.at("record/ipv6/method"), text("off"));
    assert_eq!(*service.at("record/ipv6/address"), Value::Null);
    assert_eq!(*service.at("record_refusal"), Value::Null);
    let open = read(&folder.run(&["show", "--json", "--secrets", "shop.config"]).out);
    assert_eq!(*open.at("services/0/record/passphrase"), text("low\tide 88"));
    assert_eq!(*open.at("services/0/settings/Passphrase_hidden"), Value::Bool(false));
}

#[test]
fn json_of_odd_bytes_is_valid() {
    let folder = Folder::new("json-odd");
    folder.write("office.config", OFFICE);
    let value = read(&folder.run(&["show", "--json", "office.config"]).out);
    assert_eq!(*value.at("global/Description"), text("Two tills"));
    assert_eq!(*value.at("services/0/record/name"), Value::Null);
    assert_eq!(*value.at("services/0/record/name_hex"), text("436166e9"));
    assert_eq!(*value.at("services/1/record"), Value::Null);
    assert_eq!(*value.at("services/1/record_refusal/number"), Value::Number(16));
    assert_eq!(*value.at("services/1/settings/IPv6.Privacy"), text("preferred"));
    assert_eq!(*value.at("services/1/settings/MAC"), text("02:00:5e:10:00:01"));
    let odd = "[IPv4]\nDomainName=\u{1}\"\\\\\\n\u{e9}\u{1f600}\u{7f}\u{2028}\n[Security]\nPreSharedKey=";
    folder.write("Desk.psk", format!("{odd}{}\n", "5A".repeat(32)));
    let value = read(&folder.run(&["show", "--json", "Desk.psk"]).out);
    for place in ["record/domain", "settings/IPv4/DomainName"] {
        assert_eq!(*value.at(place), text("\u{1}\"\\\n\u{e9}\u{1f600}\u{7f}\u{2028}"));
    }
    assert_eq!(*value.at("record/key"), Value::Null);
    let open = read(&folder.run(&["show", "--json", "--secrets", "Desk.psk"]).out);
    assert_eq!(*open.at("record/key"), text(&"5a".repeat(32)));
}

/// Strings with a tab, a newline, a backslash and a blank at either end, as they stand in a ConnMan file.
const ESCAPED: &str = "[global]\nName = \\sall\\\\tills\nDescription = a\\nb\n[service_a]\nType = wifi\nName = Desk\\t4\\n\\s\n\
Passphrase = low\\\\tide\\s\nDomain = shop\\r\\n.example\\t\nSearchDomains = a\\tb\n";

#[test]
fn a_string_is_shown_as_it_is_meant_and_no_two_look_alike() {
    let folder = Folder::new("escaped");
    folder.write("shop.config", ESCAPED);
    let shown = folder.run(&["show", "--secrets", "shop.config"]).out;
    for row in [
        "Name                    \\sall\\\\tills",
        "Description             a\\nb",
        "Name                    Desk\\t4\\n\\s",
        "Passphrase              low\\\\tide\\s",
        "Domain                  shop\\r\\n.example\\t",
        "SearchDomains           a\\tb",
        "network name            Desk\\t4\\n\\s",
        "passphrase              low\\\\tide\\s",
        "domain                  shop\\r\\n.example\\t",
    ] {
        assert!(shown.contains(&format!("\n    {row}\n")), "{row}: {shown}");
    }
    let hidden = folder.run(&["show", "shop.config"]).out;
    assert_eq!(
        hidden.matches("         ......... (hidden, --secrets shows it)\n").count(),
        2,
        "{hidden}"
    );
    assert!(folder.run(&["list", "shop.config"]).out.contains("  Desk\\t4\\n\\s  passphrase  "));
}

#[test]
fn a_string_in_json_is_its_bytes() {
    let folder = Folder::new("escaped-json");
    folder.write("shop.config", ESCAPED);
    let value = read(&folder.run(&["show", "--json", "--secrets", "shop.config"]).out);
    for (place, meant) in [
        ("global/Name", " all\\tills"),
        ("global/Description", "a\nb"),
        ("services/0/settings/Name", "Desk\t4\n "),
        ("services/0/settings/Passphrase", "low\\tide "),
        ("services/0/settings/Domain", "shop\r\n.example\t"),
        ("services/0/settings/SearchDomains/0", "a\\tb"),
        ("services/0/record/name", "Desk\t4\n "),
        ("services/0/record/passphrase", "low\\tide "),
        ("services/0/record/domain", "shop\r\n.example\t"),
    ] {
        assert_eq!(*value.at(place), text(meant), "{place}");
    }
    let row = folder.run(&["list", "--json", "shop.config"]).out;
    assert_eq!(*read(row.lines().next().unwrap()).at("network"), text("Desk\t4\n "));
}

#[test]
fn json_of_a_refused_file_tells_the_refusal() {
    let folder = Folder::new("json-refused");
    folder.write("Desk.psk", "[Security]\nPassphrase=lowtide\n");
    let run = folder.run(&["show", "--json", "Desk.psk"]);
    assert_eq!((run.code, run.err.as_str()), (Some(1), ""));
    let value = read(&run.out);
    assert_eq!(*value.at("refusal/number"), Value::Number(12));
    assert_eq!(*value.at("refusal/line"), Value::Number(2));
    assert_eq!(
        *value.at("refusal/sentence"),
        text("Passphrase has too few bytes; it needs 8 to 63")
    );
    folder.write("Desk.psk", "");
    assert_eq!(
        *read(&folder.run(&["show", "--json", "Desk.psk"]).out).at("refusal/line"),
        Value::Null
    );
}
