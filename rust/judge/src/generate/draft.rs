//! A file before it is bytes: headers, settings and other lines, which can be moved about and are then laid down with legal whitespace.

use crate::random::Random;
use crate::reference::Dialect;

/// A line of a draft.
#[derive(Clone, Debug)]
pub enum Piece {
    Header(Vec<u8>),
    Setting {
        key: Vec<u8>,
        value: Vec<u8>,
    },
    /// A line as it stands.
    Raw(Vec<u8>),
}

/// A file under its name.
#[derive(Clone, Debug)]
pub struct Draft {
    pub dialect: Dialect,
    pub name: Vec<u8>,
    pub pieces: Vec<Piece>,
}

impl Piece {
    pub fn header(name: &str) -> Piece {
        Piece::Header(name.as_bytes().to_vec())
    }

    pub fn setting(key: &str, value: Vec<u8>) -> Piece {
        Piece::Setting {
            key: key.as_bytes().to_vec(),
            value,
        }
    }
}

impl Draft {
    /// Where the settings stand.
    pub fn settings(&self) -> Vec<usize> {
        self.places(|piece| matches!(piece, Piece::Setting { .. }))
    }

    /// Where the headers stand.
    pub fn headers(&self) -> Vec<usize> {
        self.places(|piece| matches!(piece, Piece::Header(_)))
    }

    fn places(&self, wanted: fn(&Piece) -> bool) -> Vec<usize> {
        self.pieces
            .iter()
            .enumerate()
            .filter(|(_, piece)| wanted(piece))
            .map(|(place, _)| place)
            .collect()
    }

    /// Puts blank lines and comments among the lines.
    pub fn sprinkle(&mut self, random: &mut Random) {
        for _ in 0..random.pick(&[0, 0, 1, 1, 2, 5]) {
            let place = random.below(self.pieces.len() + 1);
            let line = passed_over(random);
            self.pieces.insert(place, Piece::Raw(line));
        }
    }

    /// The bytes of the file; `neat` files have no whitespace that could be left out.
    pub fn lay_down(&self, random: &mut Random) -> Vec<u8> {
        let neat = random.once_in(3);
        let mut file = Vec::new();
        for piece in &self.pieces {
            match piece {
                Piece::Raw(line) => file.extend(line),
                Piece::Header(name) => {
                    file.extend(blanks(random, neat));
                    file.extend([b"[", &name[..], b"]"].concat());
                    file.extend(blanks(random, neat));
                }
                Piece::Setting { key, value } => {
                    for part in [key, &b"="[..], value] {
                        file.extend(blanks(random, neat));
                        file.extend(part);
                    }
                    if self.dialect == Dialect::Connman {
                        file.extend(blanks(random, neat));
                    }
                }
            }
            file.push(b'\n');
        }
        if random.once_in(5) {
            file.pop();
        }
        file
    }
}

/// Whitespace that a reader drops; often none.
fn blanks(random: &mut Random, neat: bool) -> Vec<u8> {
    if neat {
        return Vec::new();
    }
    random.pick_word(b"|| | |\t|  | \t |\t\t\t\t").to_vec()
}

/// A blank line or a comment, which may hold any bytes.
fn passed_over(random: &mut Random) -> Vec<u8> {
    match random.below(6) {
        0 => Vec::new(),
        1 => b" \t".to_vec(),
        2 => b"# a comment".to_vec(),
        3 => b"\t #[IPv4]=\\".to_vec(),
        4 => b"#\r".to_vec(),
        _ => {
            let length = random.between(0, 50);
            let mut noise = random.bytes(length);
            noise.retain(|&byte| byte != b'\n');
            [b"#", &noise[..]].concat()
        }
    }
}
