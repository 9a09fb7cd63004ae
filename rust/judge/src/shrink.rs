//! Making a failing case smaller as long as it still fails: fewer groups, fewer lines, fewer bytes, simpler bytes, simpler numbers.

use crate::case::{Case, FileCase};
use crate::encoding::{record_bytes, record_of_bytes};

/// How often a case may be tried again while it is made smaller.
const TRIES: usize = 30_000;

/// The plainest names.
const PLAIN_NAMES: [&[u8]; 3] = [b"a.open", b"a.psk", b"a.config"];

/// The parts of a record's bytes: credential with its places, hidden, IPv4 with its places, servers, domain, IPv6 with its places.
const RECORD_PARTS: [std::ops::Range<usize>; 6] = [33..130, 130..131, 131..142, 142..159, 159..413, 413..448];

/// A smaller case that fails as well; `fails` says whether a case does.
pub fn shrink(case: &Case, fails: &dyn Fn(&Case) -> bool) -> Case {
    let mut shrinker = Shrinker {
        best: case.clone(),
        fails,
        tries: TRIES,
    };
    loop {
        let before = shrinker.best.clone();
        shrinker.pass();
        if shrinker.best == before || shrinker.tries == 0 {
            return shrinker.best;
        }
    }
}

struct Shrinker<'a> {
    best: Case,
    fails: &'a dyn Fn(&Case) -> bool,
    tries: usize,
}

impl Shrinker<'_> {
    /// Keeps the candidate if it fails too.
    fn attempt(&mut self, candidate: Case) -> bool {
        if self.tries == 0 || candidate == self.best {
            return false;
        }
        self.tries -= 1;
        let kept = (self.fails)(&candidate);
        if kept {
            self.best = candidate;
        }
        kept
    }

    fn pass(&mut self) {
        match self.best.clone() {
            Case::File(case) => self.pass_file(case),
            Case::Record(_) => self.pass_record(),
        }
        self.shrink_buffers();
    }

    fn pass_file(&mut self, case: FileCase) {
        thin_out(groups(&case.file), &mut |fewer| self.attempt_file(fewer.concat()));
        thin_out(lines(&self.file().file), &mut |fewer| {
            self.attempt_file(fewer.concat()) || self.attempt_plain_name(&fewer.concat())
        });
        thin_out(self.file().file, &mut |fewer| self.attempt_file(fewer.to_vec()));
        thin_out(self.file().name, &mut |fewer| self.attempt_name(fewer.to_vec()));
        simplify(self.file().file, &mut |simpler| self.attempt_file(simpler.to_vec()));
        simplify(self.file().name, &mut |simpler| self.attempt_name(simpler.to_vec()));
        let smaller = [0, 1, 2].into_iter().filter(|service| *service < case.service);
        let _ = smaller
            .into_iter()
            .any(|service| self.attempt(Case::File(FileCase { service, ..self.file() })));
    }

    /// The file case that is best so far.
    fn file(&self) -> FileCase {
        match &self.best {
            Case::File(case) => case.clone(),
            Case::Record(_) => unreachable!("a file case stays one"),
        }
    }

    fn attempt_file(&mut self, file: Vec<u8>) -> bool {
        let candidate = FileCase { file, ..self.file() };
        self.attempt(Case::File(candidate))
    }

    /// The file under each of the plainest names: some lines can go only with the name that asks for them.
    fn attempt_plain_name(&mut self, file: &[u8]) -> bool {
        PLAIN_NAMES.iter().any(|name| {
            let case = self.file();
            case.name.len() >= name.len()
                && self.attempt(Case::File(FileCase {
                    name: name.to_vec(),
                    file: file.to_vec(),
                    ..case
                }))
        })
    }

    fn attempt_name(&mut self, name: Vec<u8>) -> bool {
        let candidate = FileCase { name, ..self.file() };
        self.attempt(Case::File(candidate))
    }

    fn attempt_record(&mut self, bytes: &[u8]) -> bool {
        let mut candidate = self.best.clone();
        if let Case::Record(case) = &mut candidate {
            case.record = record_of_bytes(bytes);
        }
        self.attempt(candidate)
    }

    fn record(&self) -> Vec<u8> {
        match &self.best {
            Case::Record(case) => record_bytes(&case.record),
            Case::File(_) => unreachable!("a record case stays one"),
        }
    }

    fn attempt_zeros(&mut self, part: std::ops::Range<usize>) -> bool {
        let mut bytes = self.record();
        bytes[part].fill(0);
        self.attempt_record(&bytes)
    }

    /// Leaves the credential out, with room in the name's buffer for `.open`, which is longer than `.psk`.
    fn attempt_open(&mut self) {
        let mut bytes = self.record();
        let [credential, ..] = RECORD_PARTS;
        if bytes[credential.start] != 0 {
            bytes[credential].fill(0);
            self.attempt_with(|case| {
                if let Case::Record(case) = case {
                    case.record = record_of_bytes(&bytes);
                    case.buffers.name += 1;
                }
            });
        }
    }

    /// Shortens the record's name, which makes room in the buffers, zeroes its parts, then its bytes, and makes what is left simple.
    fn pass_record(&mut self) {
        let mut bytes = self.record();
        bytes[2..33].fill(0);
        bytes[..2].copy_from_slice(&[1, b'a']);
        self.attempt_record(&bytes);
        for part in RECORD_PARTS {
            self.attempt_zeros(part);
        }
        self.attempt_open();
        for place in 0..bytes.len() {
            self.attempt_zeros(place..place + 1);
        }
        for (place, byte) in self.record().into_iter().enumerate() {
            for simpler in [1, 2, 8, b'a'].into_iter().filter(|simpler| *simpler < byte) {
                let mut bytes = self.record();
                bytes[place] = simpler;
                if self.attempt_record(&bytes) {
                    break;
                }
            }
        }
    }

    fn shrink_buffers(&mut self) {
        let buffers = *self.best.buffers();
        let shorter = |length: usize| [0, length / 2, length.saturating_sub(1)];
        let _ = shorter(buffers.name)
            .iter()
            .any(|name| self.attempt_with(|case| case.buffers_mut().name = *name));
        let _ = shorter(buffers.file)
            .iter()
            .any(|file| self.attempt_with(|case| case.buffers_mut().file = *file));
        self.attempt_with(|case| case.buffers_mut().dirt = 0);
    }

    fn attempt_with(&mut self, change: impl Fn(&mut Case)) -> bool {
        let mut candidate = self.best.clone();
        change(&mut candidate);
        self.attempt(candidate)
    }
}

/// The lines of a file, each with its byte 10.
fn lines(file: &[u8]) -> Vec<Vec<u8>> {
    file.split_inclusive(|&byte| byte == b'\n').map(<[u8]>::to_vec).collect()
}

/// The headers of a file, each with the lines below it, and what stands before them.
fn groups(file: &[u8]) -> Vec<Vec<u8>> {
    lines(file).chunk_by(|_, next| !next.starts_with(b"[")).map(<[_]>::concat).collect()
}

/// Leaves out runs of pieces, long runs first, wherever `keeps` agrees.
fn thin_out<T: Clone>(mut pieces: Vec<T>, keeps: &mut dyn FnMut(&[T]) -> bool) {
    let mut run = pieces.len().next_power_of_two();
    while run > 0 {
        let mut start = 0;
        while start < pieces.len() {
            let end = pieces.len().min(start + run);
            let fewer = [&pieces[..start], &pieces[end..]].concat();
            if keeps(&fewer) {
                pieces = fewer;
            } else {
                start = end;
            }
        }
        run /= 2;
    }
}

/// Puts simpler bytes in the place of others wherever `keeps` agrees.
fn simplify(mut bytes: Vec<u8>, keeps: &mut dyn FnMut(&[u8]) -> bool) {
    for place in 0..bytes.len() {
        let old = bytes[place];
        for simpler in [b'a', b'0', b'1', b' '] {
            if plainness(simpler) >= plainness(old) {
                continue;
            }
            bytes[place] = simpler;
            if keeps(&bytes) {
                break;
            }
            bytes[place] = old;
        }
    }
}

/// How far a byte is from the plainest, so that simplifying ends.
fn plainness(byte: u8) -> usize {
    match byte {
        b'a' => 0,
        b'0' => 1,
        b'1' => 2,
        b' ' => 3,
        33..=126 => 4,
        _ => 5,
    }
}
