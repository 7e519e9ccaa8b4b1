//! Stand-ins for luck_token and rustc_hash.

use std::collections::{HashMap, HashSet};
use std::hash::{BuildHasherDefault, Hasher};

pub type CompactString = String;
pub type FxHashMap<K, V> = HashMap<K, V, BuildHasherDefault<FxHasher>>;
pub type FxHashSet<K> = HashSet<K, BuildHasherDefault<FxHasher>>;

/// As quick as the hasher that luck has: a sum and a product a word.
#[derive(Default)]
pub struct FxHasher(u64);

impl Hasher for FxHasher {
    fn write(&mut self, bytes: &[u8]) {
        for part in bytes.chunks(8) {
            let mut word = [0; 8];
            word[..part.len()].copy_from_slice(part);
            self.write_u64(u64::from_le_bytes(word));
        }
    }

    fn write_u8(&mut self, byte: u8) {
        self.write_u64(u64::from(byte));
    }

    fn write_u32(&mut self, word: u32) {
        self.write_u64(u64::from(word));
    }

    fn write_u64(&mut self, word: u64) {
        self.0 = self.0.wrapping_add(word).wrapping_mul(0xF135_7AEA_2E62_A9C5);
    }

    fn finish(&self) -> u64 {
        self.0.rotate_left(26)
    }
}

/// `tag` travels with the offsets wherever luck copies a span. luck never
/// looks at it. A use's tag is its number plus 1, so that a finding which
/// luck gives as a span says which use it is, even of two at one place.
#[derive(Debug, Clone, Copy, PartialEq, Eq, Hash, Default)]
pub struct Span {
    pub start: u32,
    pub end: u32,
    pub tag: u32,
}

impl Span {
    pub const fn new(start: u32, end: u32) -> Self {
        Self { start, end, tag: 0 }
    }

    pub const fn tagged(self, tag: u32) -> Self {
        Self { tag, ..self }
    }

    pub fn of_word(word: u64) -> Self {
        Self::new((word % (1 << 32)) as u32, (word >> 32) as u32)
    }

    pub fn word(self) -> u64 {
        u64::from(self.start) + (u64::from(self.end) << 32)
    }
}

#[derive(Debug, Default)]
pub struct Token {
    pub text: Option<String>,
    pub span: Span,
}

impl Token {
    pub fn identifier(&self) -> Option<&str> {
        self.text.as_deref()
    }
}

#[derive(Debug)]
pub enum BinOp {
    And,
    Or,
    Add,
}

#[derive(Debug, Clone, Copy)]
pub struct LuaVersion;

impl LuaVersion {
    pub const fn has_env_upvalue(self) -> bool {
        true
    }
}

#[derive(Debug, Clone, Copy)]
pub enum StdlibEnvironment {
    Standalone,
    Roblox,
}

#[derive(Debug)]
pub struct Comment;

pub fn offset_to_index(offset: u32) -> usize {
    offset as usize
}

pub fn short_string_body(text: &str) -> Option<&str> {
    text.strip_prefix('"')?.strip_suffix('"')
}
