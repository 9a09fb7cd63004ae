//! What is told beside a refusal: the right name, the key that was meant, and the command that mends a file.

use crate::common::{Folder, DESK, SHOP};
use std::fs;
use std::process::Command;

/// A file name, a file, and the line behind the finding.
const CASES: &[(&str, &[u8], &str)] = &[
    ("Caf\u{e9}.psk", b"", "The right name is =436166c3a9.psk"),
    ("=436166C3A9.psk", b"", "The right name is =436166c3a9.psk"),
    ("=4465736b.open", b"", "The right name is Desk.open"),
    ("Desk 4.PSK", b"", "The right name is Desk 4.psk"),
    ("Caf\u{e9}.Open", b"", "The right name is =436166c3a9.open"),
    ("till-4 left.config", b"", "The right name is till4left.config"),
    ("till-4.conf", b"", "The right name is till4.config"),
    ("Caf\u{e9}.psk.txt", b"", "The right name is =436166c3a9.psk"),
    ("Desk 4.psk ", b"", "The right name is Desk 4.psk"),
    (
        "a.config",
        b"[service_a]\nType = wifi\nName = Desk\nPasphrase = low tide 88\n",
        "Did you mean Passphrase?",
    ),
    ("a.config", b"[service_a]\ntype = wifi\n", "Did you mean Type?"),
    ("a.psk", b"[Security]\nPreshared-Key = 00\n", "Did you mean PreSharedKey?"),
    ("a.psk", b"[Securty]\n", "Did you mean [Security]?"),
    ("a.config", b"[Global]\n", "Did you mean [global]?"),
    ("a.open", b"[Network]\nMulticastDNS=true\n", "iwd has a group [Network], and it is not taken here"),
    (
        "a.config",
        b"[service_a]\r\nType = wifi\r\n",
        "The file has Windows line ends, and this mends it: sed -i 's/\\r$//' a.config",
    ),
    (
        "a b.psk",
        b"[Security]\nPassphrase=low tide 88\r\n",
        "The file has Windows line ends, and this mends it: sed -i 's/\\r$//' 'a b.psk'",
    ),
    (
        "a.psk",
        b"\xef\xbb\xbf[Security]\nPassphrase=low tide 88\n",
        "The file begins with a byte order mark, and this mends it: sed -i '1s/^\\xEF\\xBB\\xBF//' a.psk",
    ),
    (
        "a.psk",
        b"\xef\xbb\xbf[Security]\r\nPassphrase=low tide 88\r\n",
        "The file begins with a byte order mark and has Windows line ends, and this mends it: sed -i '1s/^\\xEF\\xBB\\xBF//; s/\\r$//' a.psk",
    ),
    (
        "a.psk",
        b"\xff\xfe[\0S\0",
        "The file is UTF-16, and this mends it: text=$(iconv -f UTF-16 -t UTF-8 a.psk) && printf '%s\\n' \"$text\" | tr -d '\\r' > a.psk",
    ),
    (
        "a b.psk",
        b"[\0S\0",
        "The file is UTF-16, and this mends it: text=$(iconv -f UTF-16LE -t UTF-8 'a b.psk') && printf '%s\\n' \"$text\" | tr -d '\\r' > 'a b.psk'",
    ),
];

#[test]
fn a_refusal_comes_with_what_to_do() {
    let folder = Folder::new("advice");
    for (name, file, told) in CASES {
        folder.write(name, file);
        for command in ["check", "show"] {
            let run = folder.run(&[command, name]);
            assert_eq!(run.code, Some(1), "{name}: {}", run.out);
            assert_eq!(run.out.lines().last(), Some(format!("    {told}").as_str()), "{name}: {}", run.out);
        }
        fs::remove_file(folder.path().join(name)).unwrap();
    }
}

#[test]
fn a_name_that_could_be_any_is_told_without_a_right_one() {
    let folder = Folder::new("no-advice");
    for name in ["notes.txt", "notes", ".psk", "Desk.psk.bak", "office.8021x"] {
        folder.write(name, "");
        let run = folder.run(&["check", name]);
        assert_eq!((run.code, run.out.lines().count()), (Some(1), 1), "{}", run.out);
    }
}

#[test]
fn the_commands_mend_the_files() {
    let folder = Folder::new("mend");
    let windows = SHOP.replace('\n', "\r\n");
    let wide = |text: &str, bytes: fn(u16) -> [u8; 2]| -> Vec<u8> { text.encode_utf16().flat_map(bytes).collect() };
    let files: [(&str, Vec<u8>); 7] = [
        ("shop.config", windows.clone().into_bytes()),
        ("both.config", format!("\u{feff}{windows}").into_bytes()),
        ("Desk mark.psk", format!("\u{feff}{DESK}").into_bytes()),
        ("Desk wide.psk", wide(&format!("\u{feff}{DESK}"), u16::to_le_bytes)),
        ("wide.config", wide(&format!("\u{feff}{windows}"), u16::to_be_bytes)),
        ("little.config", wide(&windows, u16::to_le_bytes)),
        ("big.config", wide(SHOP, u16::to_be_bytes)),
    ];
    for (name, file) in files {
        folder.write(name, file);
        let told = folder.run(&["check", name]).out;
        let (_, mending) = told.trim_end().rsplit_once("this mends it: ").unwrap();
        let done = Command::new("sh").args(["-c", mending]).current_dir(folder.path()).status();
        assert!(done.unwrap().success(), "{mending}");
        folder.run(&["check", name]).gives(0, "", "");
    }
    assert_eq!(folder.names().len(), 7, "no copy is left: {:?}", folder.names());
}

#[test]
fn a_key_of_the_papers_is_told_as_one() {
    let folder = Folder::new("papers");
    let cases = [
        (
            "a.open",
            "[IPv6]\nDNS=2001:db8::53\n",
            "DNS is iwd's and not taken in [IPv6]; the keys of [IPv6] are Enabled, Address and Gateway",
        ),
        (
            "a.psk",
            "[Security]\nEAP-Method=TLS\n",
            "EAP-Method is iwd's and not taken in [Security]; the keys of [Security] are Passphrase and PreSharedKey",
        ),
        (
            "a.config",
            "[service_a]\nPhase2 = MSCHAPV2\n",
            "Phase2 is ConnMan's and not taken in [service_a]; the keys of [service_a] are Type, ",
        ),
        (
            "a.open",
            "[Settings]\nAddress=10.0.0.1\n",
            "Address is no key of [Settings]; it belongs to [IPv4] or [IPv6]",
        ),
    ];
    for (name, file, told) in cases {
        folder.write(name, file);
        let run = folder.run(&["check", name]);
        assert!(run.out.starts_with(&format!("{name}:2: error: {told}")), "{}", run.out);
    }
}

#[test]
fn a_file_system_that_keeps_no_permissions_is_told() {
    let folder = Folder::new("stick");
    folder.write("shop.config", SHOP);
    // A stick is stood in for by an `open` that gives every new file to all.
    let shim = "#define _GNU_SOURCE\n#include <dlfcn.h>\n#include <stdarg.h>\n#include <fcntl.h>\n\
        int open64(const char *path, int flags, ...) { va_list rest; va_start(rest, flags); int mode = va_arg(rest, int); va_end(rest);\n\
        int (*real)(const char *, int, ...) = dlsym(RTLD_NEXT, \"open64\"); return real(path, flags, flags & O_CREAT ? mode | 0666 : mode); }\n";
    folder.write("shim.c", shim);
    let built = Command::new("cc")
        .args(["-shared", "-fPIC", "-o", "shim.so", "shim.c", "-ldl"])
        .current_dir(folder.path())
        .status();
    if !built.is_ok_and(|status| status.success()) {
        println!("skipped: there is no C compiler");
        return;
    }
    fs::create_dir(folder.path().join("stick")).unwrap();
    let run = |arguments: &[&str]| {
        let mut command = folder.command();
        command.args(arguments).env("LD_PRELOAD", folder.path().join("shim.so"));
        crate::common::Run::of(command.output().unwrap())
    };
    let warning = "stick: warning: Others can read what is written here, since the file system keeps no permissions; \
                   take the files off it soon [readable-by-others]\n";
    let strict = run(&["move", "shop.config", "--to", "stick", "--strict"]);
    strict.gives(
        1,
        warning,
        "qewaris: nothing was written: with --strict a warning stands in the way\n",
    );
    assert_eq!(crate::common::names_in(&folder.path().join("stick")), [""; 0]);
    let told = format!("{warning}stick/Desk 4.psk: written from service 1, [service_till]\n1 written\n");
    run(&["move", "shop.config", "--to", "stick"]).gives(0, &told, "");
}
