//! Sorts the lines of a file by key, as `uca order` does: check TABLE LINES ORDERED FINGERPRINT
use std::cmp::Ordering;
use uca::{Collator, Key, PackedKey, PrefixBounds, Settings, Strength, Variable};

fn main() {
    let words: Vec<String> = std::env::args().skip(1).collect();
    let table = std::fs::read(&words[0]).unwrap();
    let lines = std::fs::read_to_string(&words[1]).unwrap();
    let ordered = std::fs::read_to_string(&words[2]).unwrap();
    let collator = Collator::open(&table, b"", Settings::default()).unwrap();

    let mut sorted: Vec<(Key, &str)> = lines.split_terminator('\n').map(|line| (collator.key(line).unwrap(), line)).collect();
    sorted.sort_by(|a, b| a.0.cmp(&b.0));
    assert!(sorted.iter().map(|pair| pair.1).eq(ordered.split_terminator('\n')));
    let packed: Vec<PackedKey> = sorted.iter().map(|pair| collator.packed_key(pair.1).unwrap()).collect();
    for (pair, keys) in sorted.windows(2).zip(packed.windows(2)) {
        assert_eq!(keys[0].cmp(&keys[1]), pair[0].0.cmp(&pair[1].0));
    }
    for pair in sorted.windows(2) {
        assert_eq!(collator.compare(pair[0].1, pair[1].1), Ok(pair[0].0.cmp(&pair[1].0)));
    }
    let (lomo, mut front) = (collator.key("Lómo").unwrap(), [9; 6]);
    assert_eq!(collator.write_key("Lómo", &mut front), Ok(lomo.as_bytes().len()));
    assert_eq!(front, lomo.as_bytes()[..6]);
    let is_between = |key: &[u8], ends: &PrefixBounds| key >= &ends.lower[..] && key < &ends.upper.as_ref().unwrap()[..];
    let (bounds, packed_bounds) = (collator.prefix_bounds("lo").unwrap(), collator.packed_prefix_bounds("lo").unwrap());
    for (word, inside) in [("lo", true), ("Lómo", true), ("l", false), ("lp", false)] {
        assert_eq!(is_between(collator.key(word).unwrap().as_bytes(), &bounds), inside);
        assert_eq!(is_between(collator.packed_key(word).unwrap().as_bytes(), &packed_bounds), inside);
    }
    for ends in [collator.prefix_bounds(&"\u{FDFA}".repeat(100)), collator.packed_prefix_bounds(&"\u{FDFA}".repeat(100))] {
        assert_eq!(ends.map(|ends| ends.lower.len() > 1232), Ok(true));
    }
    let digits: String = collator.fingerprint().unwrap().iter().map(|byte| format!("{byte:02x}")).collect();
    assert_eq!(digits, words[3]);

    let clone = collator.try_clone().unwrap();
    drop(collator);
    let handle = std::thread::spawn(move || clone.compare("b", "a"));
    assert_eq!(handle.join().unwrap(), Ok(Ordering::Greater));

    let refused = Collator::open(b"zzz", b"", Settings::default()).err().unwrap();
    assert_eq!((refused.status, refused.at), (6, 1));
    let settings = Settings { strength: Strength::Identical, variable: Variable::Shifted };
    let empty = Collator::open(b"", b"", settings).unwrap();
    assert_eq!(empty.compare("", ""), Ok(Ordering::Equal));
    for ends in [empty.prefix_bounds(""), empty.packed_prefix_bounds("")] {
        assert_eq!(ends.map(|ends| (ends.lower, ends.upper)), Ok((vec![], None)));
    }
    let joined = Collator::open(b"0063 ; [.1000.0020.0002]\n0063 0068 ; [.1001.0020.0002]\n", b"", settings).unwrap();
    assert_eq!(joined.prefix_bounds("c").map(|ends| (ends.lower, ends.upper)), Ok((vec![0x10, 0], Some(vec![0x10, 1]))));
    assert_eq!(joined.packed_prefix_bounds("c").map(|ends| (ends.lower, ends.upper)), Ok((vec![0x11, 0], Some(vec![0x11, 1]))));
    assert_eq!(empty.packed_key("").map(PackedKey::into_bytes), Ok(vec![0, 0, 0, 0]));
    assert_eq!(empty.packed_key(&"\u{301}".repeat(61)).err().map(|error| (error.status, error.at)), Some((2, 120)));
    assert_eq!(empty.key(&"\u{301}".repeat(61)).err().map(|error| (error.status, error.at)), Some((2, 120)));
    assert_eq!(uca::check(b"a\xFF").err().map(|error| (error.status, error.text, error.at)), Some((1, 1, 1)));
    assert_eq!((uca::version(), uca::unicode_version()), (0x010000, 0x120000));
    println!("well");
}
