//! The string types a run can be made with.

use std::hash::Hash;

/// What a run needs of its string type.
pub trait Text: Clone + Eq + Hash {
    fn make(bytes: &[u8], record: u32) -> Self;
    fn bytes(&self) -> &[u8];
    fn record(&self) -> Option<u32>;
}

/// S as document 01 says: a byte vector.
impl Text for Vec<u8> {
    fn make(bytes: &[u8], _record: u32) -> Self {
        bytes.to_vec()
    }
    fn bytes(&self) -> &[u8] {
        self
    }
    fn record(&self) -> Option<u32> {
        None
    }
}

/// A byte vector that also carries the record it came from, outside its equality. An effect
/// constant keeps the name it first came with, so this tells the record first bringing it.
#[derive(Clone)]
pub struct Tagged(Vec<u8>, u32);

impl PartialEq for Tagged {
    fn eq(&self, other: &Self) -> bool {
        self.0 == other.0
    }
}
impl Eq for Tagged {}
impl Hash for Tagged {
    fn hash<H: std::hash::Hasher>(&self, state: &mut H) {
        self.0.hash(state);
    }
}
impl Text for Tagged {
    fn make(bytes: &[u8], record: u32) -> Self {
        Tagged(bytes.to_vec(), record)
    }
    fn bytes(&self) -> &[u8] {
        &self.0
    }
    fn record(&self) -> Option<u32> {
        Some(self.1)
    }
}
