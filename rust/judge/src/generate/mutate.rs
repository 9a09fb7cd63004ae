//! Faults put into drafts: lines repeated, left out, moved and changed, keys and headers misspelt, values outside their kind, strings
//! with bad escapes, IPv6 addresses with a fault.

use super::bad_values::{bad, just_outside};
use super::connman_files::{identifier, setting};
use super::draft::{Draft, Piece};
use super::keys::{all_keys, is_string, Key, Kind};
use super::strings::escape_badly;
use super::values::good;
use crate::random::Random;
use crate::reference::Dialect;

/// Puts one fault into a draft.
pub fn mutate(random: &mut Random, draft: &mut Draft) {
    match random.weighted(&[34, 11, 5, 4, 6, 9, 10, 8, 8, 6, 7, 16]) {
        0 => spoil_value(random, draft),
        1 => repeat_line(random, draft),
        2 => remove_line(random, draft),
        3 => swap_lines(random, draft),
        4 => move_line(random, draft),
        5 => spoil_key(random, draft),
        6 => spoil_header(random, draft),
        7 => insert_junk(random, draft),
        8 => add_services(random, draft),
        9 => add_setting(random, draft),
        10 => spoil_escape(random, draft),
        _ => spoil_ipv6(random, draft),
    }
}

fn place_of(random: &mut Random, places: Vec<usize>) -> Option<usize> {
    (!places.is_empty()).then(|| random.pick(&places))
}

/// A key of that name, whatever its group.
fn known_key(random: &mut Random, name: &[u8]) -> Option<Key> {
    let keys: Vec<Key> = all_keys().into_iter().filter(|key| key.name.as_bytes() == name).collect();
    (!keys.is_empty()).then(|| random.pick(&keys))
}

fn spoil_value(random: &mut Random, draft: &mut Draft) {
    let Some(place) = place_of(random, draft.settings()) else { return };
    spoil(random, draft.dialect, &mut draft.pieces[place]);
}

/// Gives a setting a value that is most likely not legal.
fn spoil(random: &mut Random, dialect: Dialect, piece: &mut Piece) {
    if let Piece::Setting { key, value } = piece {
        if let Some(key) = known_key(random, key) {
            *value = bad(random, dialect, key.kind);
        }
    }
}

/// Spoils a setting once in three times, so that a line has several faults.
fn spoil_perhaps(random: &mut Random, dialect: Dialect, piece: &mut Piece) {
    if random.once_in(3) {
        spoil(random, dialect, piece);
    }
}

/// Puts a backslash that begins no escape into a string.
fn spoil_escape(random: &mut Random, draft: &mut Draft) {
    let is_text = |piece: &Piece| matches!(piece, Piece::Setting { key, .. } if is_string(key));
    let strings = draft
        .settings()
        .into_iter()
        .filter(|&place| is_text(&draft.pieces[place]))
        .collect();
    let Some(place) = place_of(random, strings) else { return };
    if let Piece::Setting { value, .. } = &mut draft.pieces[place] {
        escape_badly(random, value);
    }
}

/// Gives a setting that has IPv6 addresses a value just outside its kind.
fn spoil_ipv6(random: &mut Random, draft: &mut Draft) {
    let places = draft.settings().into_iter().filter(|&place| ipv6_kind_at(draft, place).is_some());
    let Some(place) = place_of(random, places.collect()) else { return };
    if let (Some(kind), Piece::Setting { value, .. }) = (ipv6_kind_at(draft, place), &mut draft.pieces[place]) {
        *value = just_outside(random, draft.dialect, kind);
    }
}

/// The kind of a setting that has IPv6 addresses.
fn ipv6_kind_at(draft: &Draft, place: usize) -> Option<Kind> {
    let Piece::Setting { key, .. } = &draft.pieces[place] else {
        return None;
    };
    let header = draft.headers().into_iter().rfind(|header| *header < place)?;
    match (&draft.pieces[header], &key[..]) {
        (Piece::Header(group), b"Address") if group == b"IPv6" => Some(Kind::Ipv6Prefix),
        (Piece::Header(group), b"Gateway") if group == b"IPv6" => Some(Kind::Ipv6Address),
        (_, b"IPv6") => Some(Kind::Ipv6),
        _ => None,
    }
}

/// A setting or header a second time, near or far.
fn repeat_line(random: &mut Random, draft: &mut Draft) {
    let places = if random.percent(60) { draft.settings() } else { draft.headers() };
    let Some(place) = place_of(random, places) else { return };
    let mut piece = draft.pieces[place].clone();
    spoil_perhaps(random, draft.dialect, &mut piece);
    let target = if random.once_in(2) {
        place + 1
    } else {
        random.between(place + 1, draft.pieces.len())
    };
    draft.pieces.insert(target, piece);
}

fn remove_line(random: &mut Random, draft: &mut Draft) {
    if !draft.pieces.is_empty() {
        let place = random.below(draft.pieces.len());
        draft.pieces.remove(place);
    }
}

fn swap_lines(random: &mut Random, draft: &mut Draft) {
    if !draft.pieces.is_empty() {
        let (one, other) = (random.below(draft.pieces.len()), random.below(draft.pieces.len()));
        draft.pieces.swap(one, other);
    }
}

/// A line somewhere else, so also a setting in another group or before any.
fn move_line(random: &mut Random, draft: &mut Draft) {
    let Some(place) = place_of(random, draft.settings()) else { return };
    let mut piece = draft.pieces.remove(place);
    spoil_perhaps(random, draft.dialect, &mut piece);
    let target = if random.once_in(3) {
        0
    } else {
        random.below(draft.pieces.len() + 1)
    };
    draft.pieces.insert(target, piece);
}

/// A key that is not listed, is listed elsewhere, or is no key.
fn spoil_key(random: &mut Random, draft: &mut Draft) {
    let Some(place) = place_of(random, draft.settings()) else { return };
    let other = random.pick(&all_keys());
    spoil_perhaps(random, draft.dialect, &mut draft.pieces[place]);
    let Piece::Setting { key, value } = &mut draft.pieces[place] else {
        return;
    };
    match random.below(8) {
        0 => *key = key.to_ascii_lowercase(),
        1 => key.push(random.pick(b"._-x0 /:@\\\xC3\x0B")),
        2 => key.insert(0, random.pick(b"._-x0;/:@=\xEF")),
        3 => drop(key.pop()),
        4 => key.clear(),
        5 => {
            (*key, *value) = (other.name.as_bytes().to_vec(), good(random, draft.dialect, other.kind));
        }
        6 => {
            *key = random
                .pick_word(b"EAP|Identity|PasswordIdentifier|TransitionDisable|ipv4|IPv6.|IPv6.privacy")
                .to_vec()
        }
        _ => key.extend(random.pick_word(b" x|\r|\t\0|[]|\xC2\xA0")),
    }
}

/// Names of groups that one dialect knows, or none.
const GROUPS: &[u8] = b"Settings|Security|IPv4|IPv6|global|service_|service_x|Network|General|SETTINGS|Global";

/// A header that is no header, or of a group that is not known or there already.
fn spoil_header(random: &mut Random, draft: &mut Draft) {
    let line = match random.below(7) {
        0 => Piece::Raw(bad_header_line(random)),
        1 => Piece::Raw(random.pick_word(b"[@pem@ca]| [@|[@]|[@pem@a] x|\t[@x@y]|[@IPv4]|[@\xFF").to_vec()),
        2 => Piece::Raw(bad_service_header(random)),
        5 => Piece::Header(long_name(random)),
        3 => Piece::Header(random.pick_word(GROUPS).to_vec()),
        4 => Piece::Header(random.pick_word(b" IPv4|IPv4 |~|a=b|#|service_a.b|global |Set tings|@").to_vec()),
        _ => Piece::Header([random.pick_word(GROUPS), random.pick_word(b"\t|\x7F|\xC3\xA9|[|\r|\0")].concat()),
    };
    match place_of(random, draft.headers()) {
        Some(place) if random.once_in(2) => draft.pieces[place] = line,
        _ => {
            let place = random.below(draft.pieces.len() + 1);
            draft.pieces.insert(place, line);
        }
    }
}

fn bad_header_line(random: &mut Random) -> Vec<u8> {
    let lines = b"[|[]|[ |[]]|[[IPv4]]|[IPv4|[IPv4] x|[IPv4]#|[global]\r|[IPv6] =1|[Settings]\x0B|[Security];";
    random.pick_word(lines).to_vec()
}

/// A group's name of any printable bytes, or with one byte that no header has, at any place.
fn long_name(random: &mut Random) -> Vec<u8> {
    let length = random.between(1, 70);
    let mut name: Vec<u8> = (0..length).map(|_| random.between(b' '.into(), b'Z'.into()) as u8).collect();
    if random.once_in(2) {
        let place = random.below(length);
        name[place] = random.pick(b"[]\x1F\x7F\x80\t~");
    }
    name
}

/// A `service_` header with an identifier of 0, 32 or 33 bytes, or with a byte that it may not have.
fn bad_service_header(random: &mut Random) -> Vec<u8> {
    let length = random.pick(&[0, 1, 31, 32, 33, 64]);
    let mut identifier: Vec<u8> = (0..length).map(|_| random.pick(b"az09_AZ")).collect();
    if random.once_in(2) && length > 0 {
        let place = random.below(length);
        identifier[place] = random.pick(b"-.-. @/:[`{~");
    }
    let prefix = random.pick_word(b"service_|service_|service_|service_|service_|service_|service|Service_| service_|services_");
    [b"[", prefix, &identifier, b"]"].concat()
}

/// Lines that are nothing, and some that only look so.
const JUNK: &[u8] = b"=x|=|abc|key value|\r|;comment|\xEF\xBB\xBF[Settings]|Caf\xC3\xA9=1|a b=c|]|a\x0C=1|\0|Hidden:true|\xC2\xA0|\x0C|\
    A.B=1|.=1|-=1|_=1|Hidden|\\|Hidden\\=true|\"Hidden\"=true| #|! x=1";

fn insert_junk(random: &mut Random, draft: &mut Draft) {
    let line = Piece::Raw(random.pick_word(JUNK).to_vec());
    let place = if random.once_in(3) {
        0
    } else {
        random.below(draft.pieces.len() + 1)
    };
    draft.pieces.insert(place, line);
}

/// Services up to the eighth, the ninth or the tenth, the last perhaps one that is there already.
fn add_services(random: &mut Random, draft: &mut Draft) {
    if draft.dialect == Dialect::Iwd {
        return insert_junk(random, draft);
    }
    let count = draft.headers().len();
    for number in count..random.pick(&[8, 9, 9, 9, 10]) {
        draft.pieces.push(Piece::header(&identifier(random, number + 10)));
        draft.pieces.push(Piece::setting("Type", b"wifi".to_vec()));
        draft.pieces.push(setting(random, "Name"));
    }
    if random.once_in(4) {
        repeat_line(random, draft);
    }
}

/// A setting of any key somewhere, with a legal value.
fn add_setting(random: &mut Random, draft: &mut Draft) {
    let key = random.pick(&all_keys());
    let mut piece = Piece::setting(key.name, good(random, draft.dialect, key.kind));
    spoil_perhaps(random, draft.dialect, &mut piece);
    let place = random.below(draft.pieces.len() + 1);
    draft.pieces.insert(place, piece);
}
