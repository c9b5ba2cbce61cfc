//! Sorts text as the readers of a language expect: a safe binding of libuca.
//!
//! ```no_run
//! # fn main() -> Result<(), Box<dyn std::error::Error>> {
//! let table = std::fs::read("allkeys.txt")?;
//! let collator = uca::Collator::open(&table, b"", uca::Settings::default())?;
//! let mut words = vec!["b", "á", "a"];
//! words.sort_by_cached_key(|word| collator.key(word).unwrap());
//! # Ok(())
//! # }
//! ```
//!
//! Any number of threads may use one [`Collator`] at once.

use std::alloc::{handle_alloc_error, Layout};
use std::cmp::Ordering;
use std::ffi::c_void;
use std::fmt;
use std::marker::PhantomData;

mod ffi {
    use super::{c_void, RawFault, RawSettings, RawText};

    #[repr(C)]
    pub struct RawCollator {
        pub table: *mut c_void,
        pub is_open: bool,
    }

    extern "C" {
        pub fn uca_version() -> u32;
        pub fn uca_unicode_version() -> u32;
        pub fn uca_open(c: *mut RawCollator, table: *const u8, table_size: usize, rules: *const u8, rules_size: usize, fault: *mut RawFault) -> u32;
        pub fn uca_close(c: *mut RawCollator);
        pub fn uca_clone(c: *const RawCollator, other: *mut RawCollator) -> u32;
        pub fn uca_check(text: *const u8, size: usize, fault: *mut RawFault) -> u32;
        pub fn uca_compare(c: *const RawCollator, s: *const RawSettings, a: *const u8, a_size: usize, b: *const u8, b_size: usize, order: *mut i32, fault: *mut RawFault) -> u32;
        pub fn uca_sort_key(c: *const RawCollator, s: *const RawSettings, text: *const u8, size: usize, out: *mut u8, capacity: usize, needed: *mut usize, fault: *mut RawFault) -> u32;
        pub fn uca_packed_key(c: *const RawCollator, s: *const RawSettings, text: *const u8, size: usize, out: *mut u8, capacity: usize, needed: *mut usize, fault: *mut RawFault) -> u32;
        pub fn uca_write_key(c: *const RawCollator, s: *const RawSettings, text: *const u8, size: usize, out: *mut u8, capacity: usize, needed: *mut usize, fault: *mut RawFault) -> u32;
        pub fn uca_prefix_bounds(c: *const RawCollator, s: *const RawSettings, text: *const u8, size: usize, lower: *mut u8, lower_capacity: usize, upper: *mut u8, upper_capacity: usize, lower_needed: *mut usize, upper_needed: *mut usize, fault: *mut RawFault) -> u32;
        pub fn uca_packed_prefix_bounds(c: *const RawCollator, s: *const RawSettings, text: *const u8, size: usize, lower: *mut u8, lower_capacity: usize, upper: *mut u8, upper_capacity: usize, lower_needed: *mut usize, upper_needed: *mut usize, fault: *mut RawFault) -> u32;
        pub fn uca_is_complete(c: *const RawCollator, text: *const u8, size: usize, complete: *mut u32, fault: *mut RawFault) -> u32;
        pub fn uca_text_of(bytes: *const u8, size: usize, text: *mut RawText, fault: *mut RawFault) -> u32;
        pub fn uca_compare_texts(c: *const RawCollator, s: *const RawSettings, a: *const RawText, b: *const RawText, order: *mut i32) -> u32;
        pub fn uca_sort_key_of(c: *const RawCollator, s: *const RawSettings, text: *const RawText, out: *mut u8, capacity: usize, needed: *mut usize) -> u32;
        pub fn uca_packed_key_of(c: *const RawCollator, s: *const RawSettings, text: *const RawText, out: *mut u8, capacity: usize, needed: *mut usize) -> u32;
        pub fn uca_locate(bytes: *const u8, size: usize, at: u64, line: *mut u64, column: *mut u64);
        pub fn uca_fingerprint(c: *const RawCollator, s: *const RawSettings, out: *mut [u8; 32]) -> u32;
    }
}

#[repr(C)]
#[derive(Clone, Copy, Default)]
struct RawFault {
    kind: u32,
    text: u32,
    at: u64,
}

#[repr(C)]
#[derive(Clone, Copy)]
struct RawText {
    bytes: *const u8,
    size: usize,
}

#[repr(C)]
#[derive(Clone, Copy)]
struct RawSettings {
    strength: u32,
    variable: u32,
    reserved: [u32; 6],
}

/// How many levels are compared.
#[derive(Clone, Copy, Debug, PartialEq, Eq)]
pub enum Strength {
    Primary = 1,
    Secondary = 2,
    Tertiary = 3,
    Quaternary = 4,
    Identical = 5,
}

/// How spaces, punctuation and symbols are weighted.
#[derive(Clone, Copy, Debug, PartialEq, Eq)]
pub enum Variable {
    NonIgnorable = 0,
    Blanked = 1,
    Shifted = 2,
}

/// The settings of a collator.
#[derive(Clone, Copy, Debug, PartialEq, Eq)]
pub struct Settings {
    pub strength: Strength,
    pub variable: Variable,
}

impl Settings {
    fn raw(self) -> RawSettings {
        RawSettings { strength: self.strength as u32, variable: self.variable as u32, reserved: [0; 6] }
    }
}

impl Default for Settings {
    fn default() -> Settings {
        Settings { strength: Strength::Tertiary, variable: Variable::NonIgnorable }
    }
}

/// Why a call was refused. The numbers are those of `uca.h`.
#[derive(Clone, Copy, Debug, PartialEq, Eq)]
pub struct Error {
    pub status: u32,
    pub kind: u32,
    pub text: u32,
    pub at: u64,
}

impl fmt::Display for Error {
    fn fmt(&self, f: &mut fmt::Formatter<'_>) -> fmt::Result {
        write!(f, "uca: status {}, kind {}, text {}, at {}", self.status, self.kind, self.text, self.at)
    }
}

impl std::error::Error for Error {}

fn answer<T>(status: u32, fault: RawFault, value: T) -> Result<T, Error> {
    match status {
        0 => Ok(value),
        _ => Err(Error { status, kind: fault.kind, text: fault.text, at: fault.at }),
    }
}

/// A sort key. Keys made under the same table and settings compare as their texts do.
#[derive(Clone, Debug, PartialEq, Eq, PartialOrd, Ord, Hash)]
pub struct Key(Vec<u8>);

impl AsRef<[u8]> for Key {
    fn as_ref(&self) -> &[u8] {
        &self.0
    }
}

impl Key {
    pub fn as_bytes(&self) -> &[u8] {
        &self.0
    }

    pub fn into_bytes(self) -> Vec<u8> {
        self.0
    }
}

/// A packed key: shorter than the sort key, and in the same order under the same table and settings.
#[derive(Clone, Debug, PartialEq, Eq, PartialOrd, Ord, Hash)]
pub struct PackedKey(Vec<u8>);

impl AsRef<[u8]> for PackedKey {
    fn as_ref(&self) -> &[u8] {
        &self.0
    }
}

impl PackedKey {
    pub fn as_bytes(&self) -> &[u8] {
        &self.0
    }

    pub fn into_bytes(self) -> Vec<u8> {
        self.0
    }
}

/// A call that makes a key.
type MakesKey = unsafe extern "C" fn(*const ffi::RawCollator, *const RawSettings, *const u8, usize, *mut u8, usize, *mut usize, *mut RawFault) -> u32;

/// A call that makes a key of a checked text.
type MakesKeyOf = unsafe extern "C" fn(*const ffi::RawCollator, *const RawSettings, *const RawText, *mut u8, usize, *mut usize) -> u32;

/// A call that gives the ends of a range.
type FindsBounds = unsafe extern "C" fn(*const ffi::RawCollator, *const RawSettings, *const u8, usize, *mut u8, usize, *mut u8, usize, *mut usize, *mut usize, *mut RawFault) -> u32;

/// A text that was checked once, so that later calls need not check it. To sort texts by comparing them, check each once.
#[derive(Clone, Copy)]
pub struct Text<'t> {
    raw: RawText,
    text: PhantomData<&'t str>,
}

// It is a borrowed string.
unsafe impl Send for Text<'_> {}
unsafe impl Sync for Text<'_> {}

impl<'t> Text<'t> {
    /// Checks a text: it may have at most 60 nonstarters in a row.
    pub fn new(text: &'t str) -> Result<Text<'t>, Error> {
        let (mut raw, mut fault) = (RawText { bytes: text.as_ptr(), size: 0 }, RawFault::default());
        let status = unsafe { ffi::uca_text_of(text.as_ptr(), text.len(), &mut raw, &mut fault) };
        answer(status, fault, Text { raw, text: PhantomData })
    }

    pub fn as_str(&self) -> &'t str {
        // These are the bytes of the string that it was made from.
        unsafe { std::str::from_utf8_unchecked(std::slice::from_raw_parts(self.raw.bytes, self.raw.size)) }
    }
}

impl fmt::Debug for Text<'_> {
    fn fmt(&self, f: &mut fmt::Formatter<'_>) -> fmt::Result {
        f.debug_tuple("Text").field(&self.as_str()).finish()
    }
}

/// The ends of the range that holds the keys of all texts whose primary weights begin with those of a text: sort keys from
/// [`Collator::prefix_bounds`], packed keys from [`Collator::packed_prefix_bounds`]. Exactly these keys are at or after `lower` and, if
/// there is an upper end, before `upper`.
#[derive(Clone, Debug, PartialEq, Eq)]
pub struct PrefixBounds {
    pub lower: Vec<u8>,
    pub upper: Option<Vec<u8>>,
}

/// A table and settings. Any number of threads may use one at once. A clone shares its table.
pub struct Collator {
    raw: ffi::RawCollator,
    settings: Settings,
}

// The library lets a collator move to another thread, and any number of threads read one at once.
unsafe impl Send for Collator {}
unsafe impl Sync for Collator {}

impl fmt::Debug for Collator {
    fn fmt(&self, f: &mut fmt::Formatter<'_>) -> fmt::Result {
        f.debug_struct("Collator").field("settings", &self.settings).finish_non_exhaustive()
    }
}

impl Clone for Collator {
    /// Another collator over the same table. A failed allocation ends the program, as it does for a `Box`; `try_clone` returns an error.
    fn clone(&self) -> Collator {
        self.try_clone().unwrap_or_else(|_| handle_alloc_error(Layout::new::<ffi::RawCollator>()))
    }
}

impl Collator {
    fn closed(settings: Settings) -> Collator {
        Collator { raw: ffi::RawCollator { table: std::ptr::null_mut(), is_open: false }, settings }
    }

    /// A collator of a table in the format of `allkeys.txt`, tailored by rules.
    pub fn open(table: &[u8], rules: &[u8], settings: Settings) -> Result<Collator, Error> {
        let mut collator = Collator::closed(settings);
        let mut fault = RawFault::default();
        // The pointers come from slices, so they are not null.
        let status = unsafe { ffi::uca_open(&mut collator.raw, table.as_ptr(), table.len(), rules.as_ptr(), rules.len(), &mut fault) };
        answer(status, fault, collator)
    }

    /// Another collator over the same table.
    pub fn try_clone(&self) -> Result<Collator, Error> {
        let mut other = Collator::closed(self.settings);
        let status = unsafe { ffi::uca_clone(&self.raw, &mut other.raw) };
        answer(status, RawFault::default(), other)
    }

    /// Its settings.
    pub fn settings(&self) -> Settings {
        self.settings
    }

    /// The order of two texts. Here and below, texts with more than 60 nonstarters in a row are refused.
    pub fn compare(&self, a: &str, b: &str) -> Result<Ordering, Error> {
        let (mut order, mut fault) = (0, RawFault::default());
        let status = unsafe {
            ffi::uca_compare(&self.raw, &self.settings.raw(), a.as_ptr(), a.len(), b.as_ptr(), b.len(), &mut order, &mut fault)
        };
        answer(status, fault, order.cmp(&0))
    }

    /// The sort key of a text.
    pub fn key(&self, text: &str) -> Result<Key, Error> {
        self.key_by(ffi::uca_sort_key, text, 8).map(Key)
    }

    /// The packed key of a text, for an index.
    pub fn packed_key(&self, text: &str) -> Result<PackedKey, Error> {
        self.key_by(ffi::uca_packed_key, text, 4).map(PackedKey)
    }

    fn key_by(&self, makes_key: MakesKey, text: &str, bytes_of_each: usize) -> Result<Vec<u8>, Error> {
        filled(bytes_of_each * text.len() + 32, |out, needed| {
            let mut fault = RawFault::default();
            let status = unsafe {
                makes_key(&self.raw, &self.settings.raw(), text.as_ptr(), text.len(), out.as_mut_ptr(), out.len(), needed, &mut fault)
            };
            answer(status, fault, ())
        })
    }

    /// The order of two checked texts.
    pub fn compare_texts(&self, a: Text<'_>, b: Text<'_>) -> Ordering {
        let mut order = 0;
        let status = unsafe { ffi::uca_compare_texts(&self.raw, &self.settings.raw(), &a.raw, &b.raw, &mut order) };
        assert_eq!(status, 0, "the collator has a table, and its settings have a meaning");
        order.cmp(&0)
    }

    /// The sort key of a checked text.
    pub fn key_of(&self, text: Text<'_>) -> Result<Key, Error> {
        self.key_of_by(ffi::uca_sort_key_of, text, 8).map(Key)
    }

    /// The packed key of a checked text.
    pub fn packed_key_of(&self, text: Text<'_>) -> Result<PackedKey, Error> {
        self.key_of_by(ffi::uca_packed_key_of, text, 4).map(PackedKey)
    }

    fn key_of_by(&self, makes_key: MakesKeyOf, text: Text<'_>, bytes_of_each: usize) -> Result<Vec<u8>, Error> {
        filled(bytes_of_each * text.raw.size + 32, |out, needed| {
            let status = unsafe { makes_key(&self.raw, &self.settings.raw(), &text.raw, out.as_mut_ptr(), out.len(), needed) };
            answer(status, RawFault::default(), ())
        })
    }

    /// Writes as many of the first bytes of a text's sort key as fit, and returns the size of the whole key. It does not allocate, and is
    /// slower than `key`.
    pub fn write_key(&self, text: &str, out: &mut [u8]) -> Result<usize, Error> {
        let (mut needed, mut fault) = (0, RawFault::default());
        let status = unsafe {
            ffi::uca_write_key(&self.raw, &self.settings.raw(), text.as_ptr(), text.len(), out.as_mut_ptr(), out.len(), &mut needed, &mut fault)
        };
        answer(status, fault, needed)
    }

    /// The range of the sort keys of all texts whose primary weights begin with those of a text. A text that begins with it can be
    /// outside, if its next character joins the last ones: `cho` is outside the range of `c` if `ch` is a letter.
    pub fn prefix_bounds(&self, text: &str) -> Result<PrefixBounds, Error> {
        self.bounds_by(ffi::uca_prefix_bounds, text)
    }

    /// The range of the packed keys of the same texts.
    pub fn packed_prefix_bounds(&self, text: &str) -> Result<PrefixBounds, Error> {
        self.bounds_by(ffi::uca_packed_prefix_bounds, text)
    }

    fn bounds_by(&self, finds_bounds: FindsBounds, text: &str) -> Result<PrefixBounds, Error> {
        let (mut lower, mut upper) = (vec![0; 4 * text.len() + 32], vec![0; 4 * text.len() + 32]);
        loop {
            let (mut lower_needed, mut upper_needed, mut fault) = (0, 0, RawFault::default());
            let status = unsafe {
                finds_bounds(&self.raw, &self.settings.raw(), text.as_ptr(), text.len(), lower.as_mut_ptr(), lower.len(), upper.as_mut_ptr(), upper.len(), &mut lower_needed, &mut upper_needed, &mut fault)
            };
            answer(status, fault, ())?;
            let whole = lower_needed <= lower.len() && upper_needed <= upper.len();
            lower.resize(lower_needed, 0);
            upper.resize(upper_needed, 0);
            if whole {
                return Ok(PrefixBounds { lower, upper: Some(upper).filter(|end| !end.is_empty()) });
            }
        }
    }

    /// Whether the keys of every text that begins with this one are in the range of `prefix_bounds`, and their packed keys in that of
    /// `packed_prefix_bounds`. In doubt it is false.
    pub fn is_complete(&self, text: &str) -> Result<bool, Error> {
        let (mut complete, mut fault) = (0, RawFault::default());
        let status = unsafe { ffi::uca_is_complete(&self.raw, text.as_ptr(), text.len(), &mut complete, &mut fault) };
        answer(status, fault, complete == 1)
    }

    /// The digest of everything that keys depend on. Store it with them.
    pub fn fingerprint(&self) -> Result<[u8; 32], Error> {
        let mut out = [0; 32];
        let status = unsafe { ffi::uca_fingerprint(&self.raw, &self.settings.raw(), &mut out) };
        answer(status, RawFault::default(), out)
    }
}

impl Drop for Collator {
    fn drop(&mut self) {
        unsafe { ffi::uca_close(&mut self.raw) }
    }
}

/// The bytes that a call fills: `size` of them at first, and more if these are too few.
fn filled(size: usize, fill: impl Fn(&mut [u8], &mut usize) -> Result<(), Error>) -> Result<Vec<u8>, Error> {
    let mut out = vec![0; size];
    loop {
        let mut needed = 0;
        fill(&mut out, &mut needed)?;
        let whole = needed <= out.len();
        out.resize(needed, 0);
        if whole {
            return Ok(out);
        }
    }
}

/// The line and the column (in characters) of a byte of a table or of rules, both counted from 1: where the byte `at` of an [`Error`]
/// about rules is.
pub fn locate(bytes: &[u8], at: u64) -> (u64, u64) {
    let (mut line, mut column) = (0, 0);
    unsafe { ffi::uca_locate(bytes.as_ptr(), bytes.len(), at, &mut line, &mut column) };
    (line, column)
}

/// Checks that bytes are a text that can be collated; the error says where they are not.
pub fn check(text: &[u8]) -> Result<(), Error> {
    let mut fault = RawFault::default();
    let status = unsafe { ffi::uca_check(text.as_ptr(), text.len(), &mut fault) };
    answer(status, fault, ())
}

/// The version of the library, in the form of `uca.h`.
pub fn version() -> u32 {
    unsafe { ffi::uca_version() }
}

/// The version of Unicode that decides how texts are decomposed, in the same form.
pub fn unicode_version() -> u32 {
    unsafe { ffi::uca_unicode_version() }
}
