//! File names: good ones of both kinds, and ones that break their rule.

use super::strings::letter;
use crate::random::Random;

const PLAIN: &[u8] = b"abcXYZ0189 _-";

/// A stem of so many bytes that stands as it is.
pub fn plain_stem(random: &mut Random, length: usize) -> Vec<u8> {
    (0..length).map(|_| random.pick(PLAIN)).collect()
}

fn hex_stem(bytes: &[u8]) -> Vec<u8> {
    let digits: String = bytes.iter().map(|byte| format!("{byte:02x}")).collect();
    format!("={digits}").into_bytes()
}

/// A network name of so many bytes, with at least one byte that cannot stand plainly.
pub fn odd_ssid(random: &mut Random, length: usize) -> Vec<u8> {
    let mut ssid = if random.once_in(2) {
        random.bytes(length)
    } else {
        plain_stem(random, length)
    };
    let place = random.below(length);
    ssid[place] = random.pick(b"./=@[`{\x00\n\r\x7F\x80\xC3\xFF!:,\t");
    ssid
}

fn stem_length(random: &mut Random) -> usize {
    random.pick(&[1, 2, 4, 6, 11, 31, 32])
}

/// A good iwd name with `.psk` or `.open`.
pub fn good_iwd(random: &mut Random, key: bool) -> Vec<u8> {
    let length = stem_length(random);
    let stem = if random.percent(60) {
        plain_stem(random, length)
    } else {
        hex_stem(&odd_ssid(random, length))
    };
    let suffix: &[u8] = if key { b".psk" } else { b".open" };
    [&stem, suffix].concat()
}

/// A good ConnMan name.
pub fn good_connman(random: &mut Random) -> Vec<u8> {
    let length = if random.once_in(1000) {
        20_000
    } else {
        random.pick(&[1, 2, 4, 8, 33, 64, 300])
    };
    let stem: Vec<u8> = (0..length).map(|_| letter(random)).collect();
    [&stem, &b".config"[..]].concat()
}

/// A name that is most likely bad.
pub fn bad(random: &mut Random) -> Vec<u8> {
    match random.below(4) {
        0 => bad_iwd(random),
        1 => bad_connman(random),
        2 => bad_suffix(random),
        _ => nearly_good(random),
    }
}

fn bad_iwd(random: &mut Random) -> Vec<u8> {
    let length = stem_length(random);
    let stem = match random.below(10) {
        0 => plain_stem(random, 33),
        1 => hex_stem(&odd_ssid(random, 33)),
        2 => hex_stem(&plain_stem(random, length)),
        3 => hex_stem(&odd_ssid(random, length)).to_ascii_uppercase(),
        4 => hex_stem(&odd_ssid(random, length))[..2 * length].to_vec(),
        5 => random
            .pick(&[&b""[..], b"=", b"=0", b"=g0", b"= 0", b"==00", b"00=", b"=+1"])
            .to_vec(),
        6 => odd_ssid(random, length),
        7 => plain_stem(random, 64),
        8 => [hex_stem(&odd_ssid(random, length)), b" ".to_vec()].concat(),
        _ => [b"=".to_vec(), plain_stem(random, length)].concat(),
    };
    [&stem[..], random.pick(&[&b".psk"[..], b".open"])].concat()
}

fn bad_connman(random: &mut Random) -> Vec<u8> {
    let mut stem = good_connman(random);
    stem.truncate(stem.len() - 7);
    let place = random.below(stem.len() + 1);
    match random.below(3) {
        0 => stem.clear(),
        1 => stem.insert(place, random.pick(b" _-./=@[`{:\x00\n\x80\xFF")),
        _ => stem.extend("\u{e9}".as_bytes()),
    }
    [&stem, &b".config"[..]].concat()
}

fn bad_suffix(random: &mut Random) -> Vec<u8> {
    let suffixes = [
        ".8021x", ".PSK", ".Open", ".psk ", ".open\n", ".conf", ".configs", "config", "psk", ".psk.bak", "", ".", ".CONFIG", " .psk",
    ];
    [b"Desk", random.pick(&suffixes).as_bytes()].concat()
}

/// A good name with one byte put in, taken out or changed, or with a path.
fn nearly_good(random: &mut Random) -> Vec<u8> {
    let key = random.once_in(2);
    let mut name = if random.once_in(3) {
        good_connman(random)
    } else {
        good_iwd(random, key)
    };
    let place = random.below(name.len());
    match random.below(6) {
        0 => name[place] = random.byte(),
        1 => name.insert(place, random.byte()),
        2 => drop(name.remove(place)),
        3 => name.truncate(place),
        4 => drop(name.splice(..0, *b"./")),
        _ => name.extend(random.pick(&[&b".psk"[..], b".open", b".config", b"\n", b"\0", b" "])),
    }
    name
}
