// What crates/xc_measure does, over std's BTreeMap.
use std::cmp::Ordering;
use std::collections::{BTreeMap, VecDeque};

#[derive(Clone, Copy, PartialEq, Eq)]
struct Key {
    len: u8,
    bytes: [u8; 32],
}

impl Key {
    fn bytes(&self) -> &[u8] {
        &self.bytes[..self.len as usize]
    }
}

impl PartialOrd for Key {
    fn partial_cmp(&self, other: &Key) -> Option<Ordering> {
        Some(self.cmp(other))
    }
}

impl Ord for Key {
    fn cmp(&self, other: &Key) -> Ordering {
        self.bytes().cmp(other.bytes())
    }
}

#[derive(Clone, Copy)]
struct Value {
    _len: u8,
    _bytes: [u8; 64],
}

// Key, commit, transaction, place.
type Place = (Key, u64, u32, u64);
type Versions = BTreeMap<Place, Option<Value>>;

fn name(n: u64) -> Key {
    let mut bytes = [0; 32];
    bytes[0] = b'k';
    let mut rest = n;
    for i in 0..10 {
        bytes[10 - i] = b'0' + (rest % 10) as u8;
        rest /= 10;
    }
    Key { len: 11, bytes }
}

fn chance(i: u64) -> u64 {
    (i % 0x1_0000_0000 * 0x9e37_79b1) % 0x1_0000_0000
}

fn number(keys: &str, commit: u64) -> u64 {
    match keys {
        "thousand" => commit % 1_000,
        "each" => commit,
        _ => 0,
    }
}

// When each version is replaced by the next of its key.
fn replaced(versions: &Versions) -> VecDeque<(u64, Place)> {
    let mut list = Vec::new();
    for (place, next) in versions.keys().zip(versions.keys().skip(1)) {
        if place.0 == next.0 {
            list.push((next.1, *place));
        }
    }
    list.sort_by_key(|item| item.0);
    list.into()
}

fn prune(versions: &mut Versions, n: u64) {
    let mut due = replaced(versions);
    for i in 0..60_000 {
        let cutoff = i * n / 60_000;
        while due.front().map_or(false, |item| item.0 <= cutoff) {
            let (_, place) = due.pop_front().unwrap();
            versions.remove(&place);
        }
    }
}

fn scan(versions: &Versions) -> u64 {
    let mut found = 0;
    for _ in 0..10 {
        let mut rows: Vec<(Key, Value)> = Vec::new();
        for (place, value) in versions {
            if rows.last().map_or(false, |row| row.0 == place.0) {
                rows.pop();
            }
            if let Some(value) = value {
                rows.push((place.0, *value));
            }
        }
        found += rows.len() as u64;
    }
    found
}

fn read(versions: &Versions, keys: &str, n: u64) -> u64 {
    let mut found = 0;
    for i in 0..500_000 {
        let commit = chance(i) % n.max(1);
        let key = name(number(keys, commit));
        let last = versions.range(..=(key, commit, u32::MAX, u64::MAX)).next_back();
        if last.map_or(false, |(place, value)| place.0 == key && value.is_some()) {
            found += 1;
        }
    }
    found
}

fn hash(key: &Key) -> u16 {
    let mut hash = 0u16;
    for byte in key.bytes() {
        hash = hash.wrapping_mul(31).wrapping_add(u16::from(*byte));
    }
    hash
}

// By transaction and place, the hash beside the operation.
type Held = BTreeMap<(u32, u64), (u16, Key, Option<Value>)>;

// How many operations of one transaction are taken out by sixteen ranges of hashes.
fn apply(n: u64, value: Value) -> u64 {
    let mut held = Held::new();
    for i in 0..n {
        let key = name(i);
        held.insert((1, i), (hash(&key), key, Some(value)));
    }
    for range in 0..16u16 {
        let (lo, hi) = (range * 4096, range * 4096 + 4095);
        held.retain(|_, op| op.0 < lo || hi < op.0);
    }
    n - held.len() as u64
}

fn main() {
    let words: Vec<String> = std::env::args().skip(1).collect();
    let (order, keys, job) = (words[0].as_str(), words[1].as_str(), words[2].as_str());
    let n: u64 = words[3].parse().unwrap();
    let value = Value { _len: 5, _bytes: [1; 64] };
    if job == "apply" {
        println!("{} found", apply(n, value));
        return;
    }
    let mut versions = Versions::new();
    for i in 0..n {
        let commit = match order {
            "falling" => n - i,
            "random" => chance(i),
            _ => i,
        };
        versions.insert((name(number(keys, commit)), commit, 0, i), Some(value));
    }
    let found = match job {
        "prune" => {
            prune(&mut versions, n);
            0
        }
        "scan" => scan(&versions),
        "read" => read(&versions, keys, n),
        _ => 0,
    };
    println!("{} versions, {found} found", versions.len());
}
