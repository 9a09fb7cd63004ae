//! Changes to the bytes of a file, whatever they mean: flips, runs put in, taken out or doubled, line endings, and files at the limit of
//! their size.

use super::strings::BROKEN_UTF8;
use crate::random::Random;
use crate::reference::LONGEST_FILE;

/// Bytes that mean something to some reader.
const TELLING: &[u8] = b"\x00\t\n\r #[]=\\;,./:-_@0aF\x0C\x7F\x80\xBF\xC2\xE2\xF0\xFF";

/// Changes some bytes.
pub fn mutate(random: &mut Random, file: &mut Vec<u8>) {
    let place = random.below(file.len() + 1);
    let end = file.len().min(place + random.pick(&[1, 1, 1, 2, 3, 8, 40]));
    match random.below(9) {
        0 if place < file.len() => file[place] ^= 1 << random.below(8),
        1 if place < file.len() => file[place] = random.pick(TELLING),
        2 => file.insert(place, random.pick(TELLING)),
        3 => drop(file.drain(place..end)),
        4 => {
            let run = file[place..end].to_vec();
            file.splice(place..place, run);
        }
        5 => file.truncate(place),
        6 => drop(file.splice(place..place, random.pick(&BROKEN_UTF8).iter().copied())),
        7 if random.once_in(4) => *file = file.split(|&byte| byte == b'\n').collect::<Vec<_>>().join(&b"\r\n"[..]),
        7 => drop(file.splice(place..place, vec![b'\n'; random.pick(&[1, 2, 255, 256, 257, 300])])),
        _ => file.insert(place, random.byte()),
    }
}

/// Fills a file up to the limit of its size or to one byte more, with lines that are passed over.
pub fn grow_to_limit(random: &mut Random, file: &mut Vec<u8>) {
    let target = LONGEST_FILE + random.pick(&[0, 0, 0, 1, 1, 2]) - random.pick(&[0, 0, 0, 1]);
    let missing = target.saturating_sub(file.len());
    let pattern = random.pick_word(b"\n| |\t|# padding\n|#x");
    let mut padding: Vec<u8> = pattern.iter().copied().cycle().take(missing).collect();
    if pattern.starts_with(b"#") {
        padding.splice(missing.saturating_sub(1).., *b"\n");
    }
    let starts: Vec<usize> = (0..=file.len()).filter(|&place| place == 0 || file[place - 1] == b'\n').collect();
    let place = random.pick(&starts);
    file.splice(place..place, padding);
}

/// Any bytes.
pub fn noise(random: &mut Random) -> Vec<u8> {
    let length = random.pick(&[0, 1, 2, 3, 10, 60, 200]);
    random.bytes(length)
}

/// The words of the grammar, broken ones among them.
const WORDS: &[u8] = b"[|]|=|\n|\n|\n| |\t|#|\\s|\\t|\\r|\\n|\\\\|\\|,|.|/|[@|[Settings]\n|[Security]\n|[IPv4]\n|[IPv6]\n|[global]\n|\
    [service_a]\n|[service_b]\n|Hidden=|Passphrase=|PreSharedKey=|Address=|Gateway=|Netmask=|DNS=|DomainName=|Enabled=|Type=|\
    Type=wifi\n|Name=|Description=|Domain=|SSID=|Security=|IPv4=|IPv6=|IPv6.Privacy=|MAC=|true\n|false\n|wifi\n|ethernet\n|psk\n|none\n|\
    wep\n|off\n|dhcp\n|auto\n|10.0.0.1|255.255.255.0|24|::|:|::1|2001:db8::2|/64|/128|12345678\n|ab\n|\r\n|\0";

/// Words of the grammar in any order.
pub fn soup(random: &mut Random) -> Vec<u8> {
    let count = random.between(1, 30);
    (0..count).flat_map(|_| random.pick_word(WORDS)).copied().collect()
}
