//! `qewaris list`: all files at a glance, as a table, as JSON and as a page.

use crate::common::json::{read, text, Value};
use crate::common::{names_in, Folder, Run, DESK, SHOP};
use std::path::Path;
use std::process::Command;

fn forty(arguments: &[&str]) -> Run {
    let examples = Path::new(env!("CARGO_MANIFEST_DIR")).join("../../examples");
    let mut command = Command::new(env!("CARGO_BIN_EXE_qewaris"));
    Run::of(command.current_dir(examples).args(arguments).output().unwrap())
}

#[test]
fn forty_files_of_which_eleven_are_odd() {
    let told = include_str!("forty.txt");
    let failed = "qewaris: 2 of 40 files did not pass: forty/till07.config, forty/till18.config\n";
    forty(&["list", "forty"]).gives(1, told, failed);
    let good = told.lines().filter(|line| line.starts_with("good ")).count();
    assert_eq!(good, 29, "eleven are odd");
}

#[test]
fn the_worst_stand_first_and_each_says_what_to_do() {
    let folder = Folder::new("worst");
    folder.write("a/a good.psk", DESK);
    folder.write("a/bad.psk", "");
    folder.write(
        "a/mac.config",
        "[service_a]\nType = wifi\nName = Mac\nPassphrase = low tide 88\nMAC = 02:00:5e:10:00:01\n",
    );
    folder.write("a/quotes.psk", "[Security]\nPassphrase='low tide 88'\n");
    folder.write("a/silent.config", "[service_a]\nType = wifi\nName = Silent\n");
    let run = folder.run(&["list", "a", "gone.psk"]);
    assert_eq!(run.code, Some(2));
    let counts = "6 files: 4 good, 1 refused, 1 unreadable, 0 skipped\n\
                  6 rows: 1 OPEN by silence, 1 refused, 1 unreadable, 1 with a warning, 1 not to be moved, 1 good\n";
    assert!(run.out.starts_with(counts), "{}", run.out);
    let behind = run.out.lines().skip_while(|line| !line.starts_with("STATE")).skip(1);
    let rows: Vec<&str> = behind.take_while(|line| !line.is_empty()).collect();
    let starts = [
        "OPEN by silence  a/silent.config",
        "refused          a/bad.psk",
        "unreadable       gone.psk",
        "warning          a/quotes.psk",
        "does not move    a/mac.config",
        "good             a/a good.psk",
    ];
    assert_eq!(rows.len(), 6, "{}", run.out);
    for (row, start) in rows.iter().zip(starts) {
        assert!(row.starts_with(start), "{row} and not {start}");
    }
}

#[test]
fn warnings_of_a_list_are_told_in_full_and_counted_where_asked() {
    let folder = Folder::new("list-warnings");
    folder.write("a/a good.psk", DESK);
    folder.write("a/quotes.psk", "[Security]\nPassphrase='low tide 88'\n");
    let run = folder.run(&["list", "a"]);
    let warning =
        "\na/quotes.psk:2: warning: Passphrase stands in quotation marks, which count as a part of it; a value needs none [quoted-value]\n";
    assert!(run.out.contains(warning), "{}", run.out);
    assert_eq!(folder.run(&["list", "a/a good.psk"]).code, Some(0));
    assert_eq!(folder.run(&["list", "a/quotes.psk"]).code, Some(0));
    assert_eq!(folder.run(&["list", "--strict", "a/quotes.psk"]).code, Some(1));
    assert!(folder.run(&["list", "--no-warnings", "a/quotes.psk"]).out.contains("\ngood "));
}

#[test]
fn every_line_in_the_way_of_a_move_is_told_below_the_rows_and_on_the_page() {
    let folder = Folder::new("in-the-way");
    let file = "[service_a]\nType = wifi\nName = \"Desk\"\nPassphrase = low tide 88\nMAC = 02:00:5e:10:00:01\nTimeservers = <b>.example\n";
    folder.write("a.config", file);
    let told = [
        "a.config:3: warning: Name stands in quotation marks, which count as a part of it; a value needs none [quoted-value]",
        "a.config:5: does not move: [service_a] has MAC, which picks an interface and has no place in iwd; a service without it moves [16]",
        "a.config:6: does not move: [service_a] has Timeservers, which has no place in iwd; a service without it moves [16]",
    ];
    let run = folder.run(&["list", "a.config"]);
    assert!(run.out.ends_with(&format!("\n\n{}\n", told.join("\n"))), "{}", run.out);
    let run = folder.run(&["list", "--no-warnings", "a.config"]);
    assert!(run.out.ends_with(&format!("\n\n{}\n", told[1..].join("\n"))), "{}", run.out);
    folder.run(&["list", "a.config", "--html", "page.html"]);
    let page = String::from_utf8(folder.read("page.html")).unwrap();
    for line in told {
        let (place, text) = line.split_once(' ').unwrap();
        let item = format!("<li><strong>{place}</strong> {text}</li>\n");
        assert!(page.contains(&item), "{item}{page}");
    }
}

/// A ConnMan file of the network `Quay`, with this passphrase and address.
fn quay(passphrase: &str, address: usize) -> String {
    format!("[service_a]\nType = wifi\nName = Quay\nPassphrase = {passphrase}\nIPv4 = 10.0.0.{address}/24/10.0.0.1\n")
}

#[test]
fn what_only_several_files_tell_is_told() {
    let folder = Folder::new("across");
    for (name, passphrase, address) in [
        ("a", "herring gull", 2),
        ("b", "herring gull", 3),
        ("c", "kittiwakes", 3),
        ("d", "cormorant", 4),
    ] {
        folder.write(format!("tills/{name}.config"), quay(passphrase, address));
    }
    folder.write("tills/iwd/Quay.open", "");
    std::fs::create_dir(folder.path().join("empty")).unwrap();
    let run = folder.run(&["list", "tills", "empty"]);
    assert_eq!(run.code, Some(2));
    for told in [
        "\nwarning: empty: There is no iwd or ConnMan file in it; is a stick not mounted? [empty-folder]\n",
        "\nwarning: The network \"Quay\" has 3 different passphrases: 2 have one, 1 has another, 1 has another [two-keys]\n",
        "\nwarning: The network \"Quay\" has a key in 4 and is OPEN in 1: tills/iwd/Quay.open; keep the one that is meant [both-suffixes]\n",
        "\nwarning: 10.0.0.3 is the address of 2 tills in the network \"Quay\": tills/b.config, tills/c.config [one-address]\n",
    ] {
        assert!(run.out.contains(told), "{told}{}", run.out);
    }
    assert_eq!(folder.run(&["list", "tills"]).code, Some(0));
    assert_eq!(folder.run(&["list", "--strict", "tills"]).code, Some(1));
    let run = folder.run(&["list", "tills/a.config", "tills/b.config"]);
    assert!(!run.out.contains("warning"), "{}", run.out);
}

/// A ConnMan file of the network `Harbour`, with this line.
fn harbour(line: &str) -> String {
    format!("[service_a]\nType = wifi\nName = Harbour\nPassphrase = low tide 88\n{line}\n")
}

#[test]
fn a_fixed_ipv6_address_stands_beside_the_other_in_every_list() {
    let folder = Folder::new("list-ipv6");
    folder.write("a.config", harbour("IPv6 = 2001:DB8:0:0:0:0:0:14/64/2001:db8::1"));
    folder.write("b.config", harbour("IPv4 = 10.60.0.15/24/10.60.0.1\nIPv6 = 2001:db8::15/64"));
    folder.write("c.config", harbour("IPv6 = off"));
    let files = ["a.config", "b.config", "c.config"];
    let list = |options: &[&str]| folder.run(&[&["list"], options, &files].concat());
    let run = list(&[]);
    assert_eq!(run.code, Some(0));
    for row in [
        "\ngood           a.config  Harbour  passphrase  -       dhcp, 2001:db8::14/64           yes    -\n",
        "\ndoes not move  b.config  Harbour  passphrase  -       10.60.0.15/24, 2001:db8::15/64  no     line 6: ",
        "\ngood           c.config  Harbour  passphrase  -       dhcp                            yes    -\n",
    ] {
        assert!(run.out.contains(row), "{row}{}", run.out);
    }
    let told = "b.config:6: does not move: [service_a] has an IPv6 address without a gateway, which has no place in iwd; \
                an address with a gateway moves [16]\n";
    assert!(run.out.ends_with(told), "{}", run.out);
    list(&["--html", "page.html"]);
    let page = String::from_utf8(folder.read("page.html")).unwrap();
    assert!(
        page.contains("<td data-label=\"Address\">10.60.0.15/24, 2001:db8::15/64</td>"),
        "{page}"
    );
    let objects: Vec<Value> = list(&["--json"]).out.lines().map(read).collect();
    let of = |name: &str| objects.iter().find(|object| *object.at("file") == text(name)).unwrap();
    let (fixed, alone, off) = (of("a.config").at("ipv6"), of("b.config").at("ipv6"), of("c.config").at("ipv6"));
    assert_eq!((fixed.at("method"), fixed.at("address")), (&text("static"), &text("2001:db8::14")));
    assert_eq!(
        (fixed.at("prefix_length"), fixed.at("gateway")),
        (&Value::Number(64), &text("2001:db8::1"))
    );
    assert_eq!((alone.at("address"), alone.at("gateway")), (&text("2001:db8::15"), &Value::Null));
    assert_eq!((off.at("method"), off.at("prefix_length")), (&text("off"), &Value::Null));
}

#[test]
fn two_tills_with_one_ipv6_address_are_told_however_it_is_written() {
    let folder = Folder::new("one-ipv6");
    folder.write(
        "a.config",
        harbour("IPv4 = 10.60.0.14/24/10.60.0.1\nIPv6 = ::ffff:10.60.0.14/96/::1"),
    );
    folder.write(
        "b.config",
        harbour("IPv4 = 10.60.0.15/24/10.60.0.1\nIPv6 = 0:0:0:0:0:FFFF:A3C:E/64/::1"),
    );
    let run = folder.run(&["list", "."]);
    let told = "\nwarning: ::ffff:a3c:e is the address of 2 tills in the network \"Harbour\": ./a.config, ./b.config [one-address]\n";
    assert!(run.out.contains(told), "{}", run.out);
    assert_eq!(run.out.matches("[one-address]").count(), 1, "{}", run.out);
}

#[test]
fn an_old_file_and_its_move_are_one_till() {
    let folder = Folder::new("one-till");
    folder.write("shop.config", SHOP);
    assert_eq!(folder.run(&["move", "shop.config"]).code, Some(0));
    let run = folder.run(&["list", "."]);
    assert!(run.out.contains("2 rows: 2 good\n") && !run.out.contains("warning"), "{}", run.out);
}

#[test]
fn json_is_an_object_a_line() {
    let run = forty(&["list", "--json", "forty"]);
    assert_eq!(run.code, Some(1));
    let objects: Vec<Value> = run.out.lines().map(read).collect();
    let of = |name: &str| objects.iter().filter(|object| *object.at("type") == text(name)).count();
    assert_eq!((of("row"), of("finding"), of("counts")), (40, 4, 1));
    assert!(objects.iter().all(|object| *object.at("format") == Value::Number(4)));
    let first = &objects[0];
    assert_eq!(*first.at("file"), text("forty/till03.config"));
    assert_eq!(*first.at("state"), text("open-by-silence"));
    assert_eq!(*first.at("credential"), text("none"));
    assert_eq!(*first.at("ipv4/address"), text("10.20.0.13"));
    assert_eq!((first.at("ipv6/method"), first.at("ipv6/address")), (&text("auto"), &Value::Null));
    assert_eq!((first.at("moves"), first.at("iwd_name")), (&Value::Bool(true), &text("Quay.open")));
    assert_eq!(*first.at("warnings/0/word"), text("open-by-silence"));
    let refused = objects.iter().find(|object| *object.at("state") == text("refused")).unwrap();
    assert_eq!(*refused.at("refusals/0/number"), Value::Number(12));
    assert_eq!(*refused.at("network"), Value::Null);
    let counts = objects.last().unwrap();
    assert_eq!((counts.at("good"), counts.at("refused")), (&Value::Number(38), &Value::Number(2)));
}

#[test]
fn the_page_stands_by_itself_and_is_for_its_owner() {
    let folder = Folder::new("page");
    let odd = "[service_a]\nType = wifi\nName = <script>alert(1)</script>\nPassphrase = low tide 88\n";
    folder.write("<b>&\"'/a.config", odd);
    folder
        .run(&["list", "<b>&\"'", "--html", "tills.html"])
        .gives(0, "tills.html: written\n", "");
    assert_eq!(folder.mode("tills.html"), 0o600);
    let page = String::from_utf8(folder.read("tills.html")).unwrap();
    assert!(page.starts_with("<!DOCTYPE html>") && page.ends_with("</html>\n"));
    assert!(page.contains("&lt;script&gt;alert(1)&lt;/script&gt;"), "{page}");
    assert!(page.contains("&lt;b&gt;&amp;&quot;&#39;/a.config"), "{page}");
    for harm in [
        "<script", "<b>", "src=", "href=", "url(", "http:", "https:", "@import", "onload", "low tide",
    ] {
        assert!(!page.contains(harm), "{harm} in {page}");
    }
    let told = "qewaris: tills.html is there already; --force overwrites it\n";
    folder.run(&["list", ".", "--html", "tills.html"]).gives(1, "", told);
    assert_eq!(folder.read("tills.html"), page.as_bytes());
    folder.write("tills.html", "mine");
    folder
        .run(&["list", ".", "--html", "tills.html", "--force"])
        .gives(0, "tills.html: written\n", "");
    assert_ne!(folder.read("tills.html"), b"mine");
    let told = "qewaris: gone cannot be written: there is no such file or folder\n";
    folder.run(&["list", ".", "--html", "gone/tills.html"]).gives(2, "", told);
    assert_eq!(names_in(folder.path()), ["<b>&\"'", "tills.html"]);
}

#[test]
fn the_title_of_the_page_names_the_first_of_many_and_a_page_without_rows_has_no_table() {
    let folder = Folder::new("titles");
    for name in ["a", "b", "c", "d", "e"] {
        folder.write(format!("{name}.open"), "");
    }
    folder.run(&["list", "a.open", "b.open", "c.open", "d.open", "e.open", "--html", "page.html"]);
    let page = String::from_utf8(folder.read("page.html")).unwrap();
    assert!(
        page.contains("<h1>Network files of a.open, b.open, c.open and 2 more</h1>\n"),
        "{page}"
    );
    std::fs::create_dir(folder.path().join("stick")).unwrap();
    let run = folder.run(&["list", "stick", "--html", "empty.html"]);
    assert_eq!(run.code, Some(2));
    let page = String::from_utf8(folder.read("empty.html")).unwrap();
    assert!(
        page.contains("<h1>Network files of stick</h1>\n") && !page.contains("<table>"),
        "{page}"
    );
    assert!(
        page.contains("<li>stick: There is no iwd or ConnMan file in it; is a stick not mounted?</li>"),
        "{page}"
    );
}
