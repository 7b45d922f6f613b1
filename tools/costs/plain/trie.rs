//! The calls of trie.rattle, over a `BTreeMap`. Reads `PREFIXES ORDER` from standard input.
use std::collections::BTreeMap;
use std::io::Read;
use std::ops::Bound::{Excluded, Unbounded};

#[derive(Clone, Copy, PartialEq, Eq, PartialOrd, Ord)]
pub struct Prefix {
    address: u32,
    len: u8,
}
pub type Map = BTreeMap<Prefix, u64>;

#[no_mangle]
#[inline(never)]
pub fn stage_set_new(t: &mut Map, list: &[Prefix]) -> u64 {
    let mut s = 0;
    for p in list {
        if t.insert(*p, 1).is_some() {
            s += 1
        }
    }
    s
}
#[no_mangle]
#[inline(never)]
pub fn stage_get(t: &Map, list: &[Prefix]) -> u64 {
    let mut s = 0u64;
    for p in list {
        if let Some(v) = t.get(p) {
            s = s.wrapping_add(*v)
        }
    }
    s
}
#[no_mangle]
#[inline(never)]
pub fn stage_replace(t: &mut Map, list: &[Prefix]) -> u64 {
    let mut s = 0;
    for p in list {
        if t.insert(*p, 2).is_some() {
            s += 1
        }
    }
    s
}
#[no_mangle]
#[inline(never)]
pub fn stage_next_anywhere(t: &Map, list: &[Prefix]) -> u64 {
    let mut s = 0u64;
    for p in list {
        if let Some((n, _)) = t.range((Excluded(*p), Unbounded)).next() {
            s = s.wrapping_add(n.address as u64)
        }
    }
    s
}
#[no_mangle]
#[inline(never)]
pub fn stage_walk(t: &Map) -> u64 {
    let mut s = 0;
    let mut last: Option<Prefix> = None;
    loop {
        let from = match last {
            Some(p) => Excluded(p),
            None => Unbounded,
        };
        match t.range((from, Unbounded)).next() {
            Some((n, _)) => {
                s += 1;
                last = Some(*n)
            }
            None => return s,
        }
    }
}
#[no_mangle]
#[inline(never)]
pub fn stage_keys(t: &Map) -> usize {
    let v: Vec<Prefix> = t.keys().copied().collect();
    v.len()
}
#[no_mangle]
#[inline(never)]
pub fn stage_remove(t: &mut Map, list: &[Prefix]) -> u64 {
    let mut s = 0u64;
    for p in list {
        if let Some(v) = t.remove(p) {
            s = s.wrapping_add(v)
        }
    }
    s
}
#[no_mangle]
#[inline(never)]
pub fn stage_set_after_removal(t: &mut Map, list: &[Prefix]) -> u64 {
    let mut s = 0;
    for p in list {
        if t.insert(*p, 3).is_some() {
            s += 1
        }
    }
    s
}
#[no_mangle]
#[inline(never)]
pub fn stage_remove_and_set(t: &mut Map, list: &[Prefix]) -> u64 {
    let mut s = 0u64;
    for p in list {
        if let Some(v) = t.remove(p) {
            s = s.wrapping_add(v)
        }
        if t.insert(*p, 4).is_some() {
            s += 1
        }
    }
    s
}
#[no_mangle]
#[inline(never)]
pub fn stage_drop(t: Map) -> usize {
    t.len()
}

fn main() {
    let mut text = String::new();
    std::io::stdin().read_to_string(&mut text).unwrap();
    let w: Vec<&str> = text.split_whitespace().collect();
    let count: u32 = w[0].parse().unwrap();
    let mixed = w[1] == "mixed";
    let list: Vec<Prefix> = (0..count)
        .map(|n| {
            let k = if mixed { n.wrapping_mul(40_503) % count } else { n };
            Prefix {
                address: 0x0A00_0000 + 256 * (k % 65_536),
                len: 24,
            }
        })
        .collect();
    let mut t = Map::new();
    println!("new {}", stage_set_new(&mut t, &list));
    println!("get {}", stage_get(&t, &list));
    println!("replaced {}", stage_replace(&mut t, &list));
    println!("next {}", stage_next_anywhere(&t, &list));
    println!("walk {}", stage_walk(&t));
    println!("prefixes {}", stage_keys(&t));
    println!("removed {}", stage_remove(&mut t, &list));
    println!("set after removal {}", stage_set_after_removal(&mut t, &list));
    println!("removed and set {}", stage_remove_and_set(&mut t, &list));
    println!("dropped {}", stage_drop(t));
}
