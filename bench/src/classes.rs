//! The classes of sources that are measured, and how a source of a class is
//! made to have exactly so many bytes.

mod comments;
mod dense;
mod lets;
mod nested;
mod strings;
mod typical;

/// A class: a head, and whole declarations that follow each other until the
/// source is full, told apart by their number.
pub struct Class {
    pub name: &'static str,
    head: &'static str,
    piece: fn(usize) -> String,
    names: fn() -> String,
}

/// All classes.
pub const CLASSES: [Class; 7] = [
    typical::TYPICAL,
    dense::TOKEN_DENSE,
    comments::COMMENTS,
    strings::STRINGS,
    nested::NESTED,
    lets::LETS,
    lets::NAMES,
];

/// The sizes that each class is measured at, in bytes.
pub const SIZES: [usize; 3] = [1 << 10, 1 << 16, 1 << 20];

impl Class {
    /// The class of this name.
    pub fn named(name: &str) -> Option<&'static Class> {
        CLASSES.iter().find(|class| class.name == name)
    }

    /// A source of exactly this size: the head, as many pieces in a row as have
    /// room, and bytes 10.
    pub fn source(&self, size: usize) -> Vec<u8> {
        let mut source = self.head.as_bytes().to_vec();
        for number in 0.. {
            let piece = (self.piece)(number);
            if source.len() + piece.len() > size {
                break;
            }
            source.extend_from_slice(piece.as_bytes());
        }
        source.resize(size, b'\n');
        source
    }

    /// The extra type names that the class is read with.
    pub fn names(&self) -> Vec<u8> {
        (self.names)().into_bytes()
    }
}

/// No extra type names.
fn no_names() -> String {
    String::new()
}
