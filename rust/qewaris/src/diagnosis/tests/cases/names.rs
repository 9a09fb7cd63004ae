//! File names that earn each sentence of refusal 2.

use super::Check;
use crate::messages::Message;

pub const CHECKS: &[Check] = &[
    (
        Message::NameSuffix,
        "notes.txt",
        b"",
        "The file name ends in .txt; iwd's end in .open or .psk and ConnMan's in .config",
    ),
    (
        Message::NameWithoutSuffix,
        "notes",
        b"",
        "The file name has no suffix; iwd's end in .open or .psk and ConnMan's in .config",
    ),
    (
        Message::NameSuffixCase,
        "Desk.PSK",
        b"",
        "The file name ends in .PSK; it must end in .psk, in lower case",
    ),
    (
        Message::NameOfLogin,
        "Desk.8021x",
        b"",
        "The file name ends in .8021x, which is not taken; iwd's must end in .open or .psk",
    ),
    (
        Message::NameEmpty,
        ".psk",
        b"",
        "There is no network name before .psk; it needs 1 to 32 bytes",
    ),
    (
        Message::NameEmpty,
        "=.open",
        b"",
        "There is no network name before .open; it needs 1 to 32 bytes",
    ),
    (
        Message::NameLength,
        "a23456789b123456789c123456789d123.psk",
        b"",
        "The network name has 33 bytes; it needs 1 to 32",
    ),
    (
        Message::NameByte,
        "Desk.4.psk",
        b"",
        "The network name has a dot in it; only letters, digits, space, _ and - stand plainly, other names are = and hex",
    ),
    (
        Message::NameHexCase,
        "=C3A9.psk",
        b"",
        "The hex in the file name has upper-case letters; only 0 to 9 and a to f are allowed",
    ),
    (
        Message::NameHexDigit,
        "=c3 a9.psk",
        b"",
        "The file name has a space in the hex after =; only 0 to 9 and a to f are allowed",
    ),
    (
        Message::NameHexCount,
        "=c3a.psk",
        b"",
        "The file name has 3 hex digits after =; each byte of the network name needs two",
    ),
    (
        Message::NameHexPlain,
        "=4465736b.psk",
        b"",
        "The hex in the file name spells \"Desk\"; such a name must stand plainly, as \"Desk.psk\"",
    ),
    (
        Message::ConnmanNameEmpty,
        ".config",
        b"",
        "There is no name before .config; it needs one or more letters or digits",
    ),
    (
        Message::ConnmanNameByte,
        "shop-4.config",
        b"",
        "The file name has a hyphen before .config; only letters and digits are allowed",
    ),
];
