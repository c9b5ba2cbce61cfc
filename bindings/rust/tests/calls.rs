//! One collator in many threads, its clones, keys as bytes, and texts that were checked once.
use std::cmp::Ordering;
use std::thread;
use uca::{locate, Collator, Key, Settings, Strength, Text, Variable};

const TABLE: &[u8] = b"0061 ; [.1000.0020.0002]\n0041 ; [.1000.0020.0008]\n0062 ; [.1001.0020.0002]\n";
const WORDS: [&str; 5] = ["b", "A", "ba", "a", ""];

fn opened() -> Collator {
    Collator::open(TABLE, b"", Settings::default()).unwrap()
}

fn sorted(collator: &Collator) -> Vec<&'static str> {
    let mut words = WORDS.to_vec();
    words.sort_by_cached_key(|word| collator.key(word).unwrap());
    words
}

#[test]
fn many_threads_use_one_collator() {
    let collator = opened();
    thread::scope(|scope| {
        for _ in 0..8 {
            scope.spawn(|| {
                for _ in 0..1000 {
                    assert_eq!(sorted(&collator), ["", "a", "A", "b", "ba"]);
                    assert_eq!(collator.compare("a", "A"), Ok(Ordering::Less));
                }
            });
        }
    });
}

#[test]
fn a_clone_has_the_table_and_the_settings() {
    let settings = Settings { strength: Strength::Primary, variable: Variable::Shifted };
    let clone = Collator::open(TABLE, b"", settings).unwrap().clone();
    assert_eq!(clone.settings(), settings);
    assert_eq!(thread::spawn(move || clone.compare("a", "A")).join().unwrap(), Ok(Ordering::Equal));
}

#[test]
fn a_collator_shows_its_settings() {
    assert_eq!(format!("{:?}", opened()), "Collator { settings: Settings { strength: Tertiary, variable: NonIgnorable }, .. }");
}

#[test]
fn keys_are_bytes() {
    fn len(bytes: impl AsRef<[u8]>) -> usize {
        bytes.as_ref().len()
    }
    let collator = opened();
    let key: Key = collator.key("ab").unwrap();
    assert_eq!(len(&key), key.as_bytes().len());
    assert_eq!(len(collator.packed_key("ab").unwrap()), 7);
}

#[test]
fn a_fault_says_where_it_is() {
    let fault = opened().key(&"\u{301}".repeat(61)).unwrap_err();
    assert_eq!((fault.status, fault.text, fault.at), (2, 1, 120));
    assert_eq!(fault.to_string(), "uca: status 2, kind 0, text 1, at 120");
}

#[test]
fn texts_are_checked_once() {
    fn shared(_: impl Send + Sync + Copy) {}
    let collator = opened();
    let mut texts = WORDS.map(|word| Text::new(word).unwrap());
    shared(texts[0]);
    texts.sort_by(|a, b| collator.compare_texts(*a, *b));
    assert_eq!(texts.map(|text| text.as_str()), ["", "a", "A", "b", "ba"]);
    for text in texts {
        assert_eq!(collator.key_of(text), collator.key(text.as_str()));
        assert_eq!(collator.packed_key_of(text), collator.packed_key(text.as_str()));
    }
    assert_eq!(format!("{:?}", texts[4]), "Text(\"ba\")");
    let marks = "\u{301}".repeat(61);
    let fault = Text::new(&marks).unwrap_err();
    assert_eq!((fault.status, fault.text, fault.at), (2, 1, 120));
}

#[test]
fn a_letter_of_two_characters_leaves_its_first_incomplete() {
    let collator = Collator::open(TABLE, "&a<bb".as_bytes(), Settings::default()).unwrap();
    assert_eq!((collator.is_complete("a"), collator.is_complete("ab")), (Ok(true), Ok(false)));
}

#[test]
fn packed_keys_are_in_the_range_of_their_beginnings() {
    let collator = opened();
    let (keys, packed) = (collator.prefix_bounds("b").unwrap(), collator.packed_prefix_bounds("b").unwrap());
    assert_ne!(keys, packed);
    for word in WORDS {
        let key = collator.packed_key(word).unwrap();
        let is_inside = key.as_bytes() >= &packed.lower[..] && key.as_bytes() < &packed.upper.as_ref().unwrap()[..];
        assert_eq!(is_inside, word.starts_with('b'), "{word}");
    }
}

#[test]
fn a_byte_of_rules_has_a_line_and_a_column() {
    let rules = "&a<á\n<b<".as_bytes();
    let fault = Collator::open(TABLE, rules, Settings::default()).unwrap_err();
    assert_eq!((fault.status, locate(rules, fault.at)), (7, (2, 4)));
}
