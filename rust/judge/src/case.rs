//! A case: what is put to the library and to the reference.

use qewaris::raw;

/// A file under a name, with a service number, or a record; each with two buffers to write into.
#[derive(Clone, PartialEq, Eq)]
pub enum Case {
    File(FileCase),
    Record(Box<RecordCase>),
}

/// Put to every entry point that takes a file, in both dialects.
#[derive(Clone, Debug, PartialEq, Eq)]
pub struct FileCase {
    pub name: Vec<u8>,
    pub file: Vec<u8>,
    pub service: usize,
    pub buffers: Buffers,
}

/// Put to the writer.
#[derive(Clone, PartialEq, Eq)]
pub struct RecordCase {
    pub record: raw::Record,
    pub buffers: Buffers,
}

/// The lengths of the two lent buffers and what stands in them before. With odd `dirt` every empty stretch, of input or output,
/// is lent as a null pointer.
#[derive(Clone, Copy, Debug, PartialEq, Eq)]
pub struct Buffers {
    pub name: usize,
    pub file: usize,
    pub dirt: u8,
}

impl Buffers {
    /// What the name's buffer holds before.
    pub fn old_name(&self) -> Vec<u8> {
        dirty(self.name, self.dirt)
    }

    /// What the file's buffer holds before.
    pub fn old_file(&self) -> Vec<u8> {
        dirty(self.file, self.dirt ^ 0x5A)
    }

    /// Whether empty stretches are lent as null pointers.
    pub fn null(&self) -> bool {
        self.dirt % 2 == 1
    }
}

impl Case {
    pub fn buffers(&self) -> &Buffers {
        match self {
            Case::File(case) => &case.buffers,
            Case::Record(case) => &case.buffers,
        }
    }

    pub fn buffers_mut(&mut self) -> &mut Buffers {
        match self {
            Case::File(case) => &mut case.buffers,
            Case::Record(case) => &mut case.buffers,
        }
    }
}

/// `length` bytes without a pattern that a library could meet by chance.
fn dirty(length: usize, dirt: u8) -> Vec<u8> {
    let mut state = u32::from(dirt) | 0x0100;
    let step = |_| {
        state = state.wrapping_mul(1_664_525).wrapping_add(1_013_904_223);
        (state >> 24) as u8
    };
    (0..length).map(step).collect()
}
