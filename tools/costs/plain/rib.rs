//! The stages of rib.rattle over `BTreeMap`s: a `Vec` of entries for each prefix, and the nine filters over it. Reads
//! `PREFIXES STAGES ORDER` from standard input. With `--cfg room` a path is copied with room for one AS more, as graftlab does.
use std::cmp::Reverse;
use std::collections::btree_map::Entry as At;
use std::collections::{BTreeMap, BTreeSet};
use std::io::Read;

const SOURCES: u8 = 4;
const RECEIVERS: u8 = 3;
const PATHS: u32 = 7;
const MESSAGE_LIMIT: usize = 4096;
const PART_LIMIT: usize = 255;

#[derive(Clone, Copy, Debug, PartialEq, Eq, PartialOrd, Ord)]
pub struct Prefix {
    address: u32,
    len: u8,
}

impl Prefix {
    fn new(address: u32, len: u8) -> Option<Prefix> {
        if len > 32 {
            return None;
        }
        let mask = if len == 0 { 0 } else { u32::MAX << (32 - len) };
        Some(Prefix {
            address: address & mask,
            len,
        })
    }
}

#[allow(dead_code)]
#[derive(Clone, Copy, Debug, PartialEq, Eq, PartialOrd, Ord)]
pub enum Origin {
    Igp,
    Egp,
    Incomplete,
}

#[allow(dead_code)]
#[derive(Clone, Copy, Debug, PartialEq, Eq, PartialOrd, Ord)]
pub enum From {
    Own,
    Peering(u8),
    Router(u8),
}

#[allow(dead_code)]
#[derive(Debug, PartialEq, Eq)]
#[cfg_attr(not(room), derive(Clone))]
pub enum PathPart {
    Set(Vec<u32>),
    Sequence(Vec<u32>),
}

#[cfg(room)]
impl Clone for PathPart {
    fn clone(&self) -> PathPart {
        match self {
            PathPart::Set(ases) => PathPart::Set(ases.clone()),
            PathPart::Sequence(ases) => {
                let mut copy = Vec::with_capacity(ases.len() + 1);
                copy.extend_from_slice(ases);
                PathPart::Sequence(copy)
            }
        }
    }
}

#[derive(Clone, Copy, Debug, PartialEq, Eq)]
pub struct Aggregator {
    as_number: u32,
    address: u32,
    partial: bool,
}

#[derive(Clone, Debug, PartialEq, Eq)]
pub struct RawAttr {
    kind: u8,
    partial: bool,
    bytes: Vec<u8>,
}

#[derive(Clone, Debug, PartialEq, Eq)]
pub struct Attrs {
    origin: Origin,
    path: Vec<PathPart>,
    next_hop: u32,
    med: Option<u32>,
    atomic: bool,
    aggregator: Option<Aggregator>,
    unknown: Vec<RawAttr>,
}

#[derive(Clone, Debug, PartialEq, Eq)]
pub struct Route {
    attrs: Attrs,
    pref: u32,
}

/// A route to a prefix that a source gave.
#[derive(Debug, PartialEq, Eq)]
pub struct Entry {
    from: From,
    route: Route,
    identifier: u32,
    address: u32,
}

#[derive(Debug, PartialEq, Eq)]
pub struct Best {
    from: From,
    route: Route,
}

/// What a source gives for a prefix.
pub struct InEntry {
    prefix: Prefix,
    route: Option<Route>,
    identifier: u32,
    address: u32,
}

pub struct OutView {
    peering: u8,
    local_address: u32,
}

/// The routes of a router: the entries of each prefix in the order of their sources, the best routes, and what is to be decided again.
pub struct Rib {
    home_as: u32,
    entries: BTreeMap<Prefix, Vec<Entry>>,
    best: BTreeMap<Prefix, Best>,
    dirty: BTreeSet<Prefix>,
}

/// An entry with what the filters look at.
struct Candidate<'a> {
    entry: &'a Entry,
    path_len: usize,
    neighbour: u32,
    med: u32,
}

fn path_len(path: &[PathPart]) -> usize {
    path.iter()
        .map(|part| match part {
            PathPart::Set(_) => 1,
            PathPart::Sequence(ases) => ases.len(),
        })
        .sum()
}

fn neighbour(path: &[PathPart], home_as: u32) -> u32 {
    match path.first() {
        Some(PathPart::Sequence(ases)) => ases.first().copied().unwrap_or(home_as),
        _ => home_as,
    }
}

/// Keeps those for which the key is least.
fn keep_least<K: Ord + Copy>(left: &mut Vec<Candidate<'_>>, key: impl Fn(&Candidate<'_>) -> K) {
    if left.len() > 1 {
        if let Some(least) = left.iter().map(&key).min() {
            left.retain(|it| key(it) == least);
        }
    }
}

/// Keeps those that no other one of the same neighbour AS beats by MED.
fn keep_least_med(left: &mut Vec<Candidate<'_>>) {
    if left.len() > 1 {
        let beaten = |it: &Candidate<'_>| left.iter().any(|other| other.neighbour == it.neighbour && other.med < it.med);
        if left.iter().any(beaten) {
            let meds: Vec<(u32, u32)> = left.iter().map(|it| (it.neighbour, it.med)).collect();
            left.retain(|it| !meds.iter().any(|(neighbour, med)| *neighbour == it.neighbour && *med < it.med));
        }
    }
}

fn is_external(from: From) -> bool {
    matches!(from, From::Peering(_))
}

/// The interior cost to where an entry comes from.
fn cost_to(from: From) -> u32 {
    match from {
        From::Router(_) => 1,
        _ => 0,
    }
}

/// The entry that the nine rules choose.
fn choose(home_as: u32, entries: &[Entry]) -> Option<&Entry> {
    let mut left: Vec<Candidate<'_>> = entries
        .iter()
        .map(|entry| Candidate {
            entry,
            path_len: path_len(&entry.route.attrs.path),
            neighbour: neighbour(&entry.route.attrs.path, home_as),
            med: entry.route.attrs.med.unwrap_or(0),
        })
        .collect();
    keep_least(&mut left, |it| it.entry.from != From::Own);
    keep_least(&mut left, |it| Reverse(it.entry.route.pref));
    keep_least(&mut left, |it| it.path_len);
    keep_least(&mut left, |it| it.entry.route.attrs.origin);
    keep_least_med(&mut left);
    keep_least(&mut left, |it| !is_external(it.entry.from));
    keep_least(&mut left, |it| cost_to(it.entry.from));
    keep_least(&mut left, |it| it.entry.identifier);
    keep_least(&mut left, |it| it.entry.address);
    left.first().map(|it| it.entry)
}

/// Puts an AS in front of a path.
fn prepend(path: &mut Vec<PathPart>, as_number: u32) {
    match path.first_mut() {
        Some(PathPart::Sequence(ases)) if ases.len() < PART_LIMIT => ases.insert(0, as_number),
        _ => path.insert(0, PathPart::Sequence(vec![as_number])),
    }
}

fn attr_len(value: usize) -> usize {
    value + if value > 255 { 4 } else { 3 }
}

fn ases_of(part: &PathPart) -> &[u32] {
    match part {
        PathPart::Set(ases) | PathPart::Sequence(ases) => ases,
    }
}

fn parts_len(path: &[PathPart], wide: bool) -> usize {
    let each = if wide { 4 } else { 2 };
    path.iter().map(|part| 2 + each * ases_of(part).len()).sum()
}

fn is_long(as_number: u32) -> bool {
    as_number > 65_535
}

fn aggregator_len(aggregator: &Option<Aggregator>, wide: bool) -> usize {
    match aggregator {
        None => 0,
        Some(_) if wide => 11,
        Some(it) if is_long(it.as_number) => 20,
        Some(_) => 9,
    }
}

fn attrs_len(attrs: &Attrs, wide: bool) -> usize {
    let as4_path = if !wide && attrs.path.iter().any(|part| ases_of(part).iter().any(|it| is_long(*it))) {
        attr_len(parts_len(&attrs.path, true))
    } else {
        0
    };
    11 + if attrs.med.is_some() { 7 } else { 0 }
        + if attrs.atomic { 3 } else { 0 }
        + aggregator_len(&attrs.aggregator, wide)
        + attr_len(parts_len(&attrs.path, wide))
        + as4_path
        + attrs.unknown.iter().map(|it| attr_len(it.bytes.len())).sum::<usize>()
}

/// How many octets the UPDATE has that tells a prefix these.
fn update_len(prefix: Prefix, attrs: &Attrs, wide: bool) -> usize {
    23 + attrs_len(attrs, wide) + 1 + usize::from(prefix.len).div_ceil(8)
}

impl Rib {
    pub fn new(home_as: u32) -> Rib {
        Rib {
            home_as,
            entries: BTreeMap::new(),
            best: BTreeMap::new(),
            dirty: BTreeSet::new(),
        }
    }

    /// A source gives an entry, or takes it away. The prefix is dirty where that is another than before.
    pub fn set_in(&mut self, from: From, given: InEntry) {
        let InEntry {
            prefix,
            route,
            identifier,
            address,
        } = given;
        if from == From::Own {
            return;
        }
        match route {
            Some(route) => self.put(
                prefix,
                Entry {
                    from,
                    route,
                    identifier,
                    address,
                },
            ),
            None => self.take(prefix, from),
        }
    }

    fn put(&mut self, prefix: Prefix, entry: Entry) {
        let list = self.entries.entry(prefix).or_default();
        match list.binary_search_by_key(&entry.from, |it| it.from) {
            Ok(place) if list[place] == entry => return,
            Ok(place) => list[place] = entry,
            Err(place) => list.insert(place, entry),
        }
        self.dirty.insert(prefix);
    }

    fn take(&mut self, prefix: Prefix, from: From) {
        let At::Occupied(mut at) = self.entries.entry(prefix) else {
            return;
        };
        let list = at.get_mut();
        if let Ok(place) = list.binary_search_by_key(&from, |it| it.from) {
            list.remove(place);
            if list.is_empty() {
                at.remove();
            }
            self.dirty.insert(prefix);
        }
    }

    pub fn next_dirty(&self) -> Option<Prefix> {
        self.dirty.first().copied()
    }

    /// Gives a prefix the chosen one of its entries for its best, and answers whether that is another than before.
    pub fn decide(&mut self, prefix: Prefix) -> bool {
        self.dirty.remove(&prefix);
        let chosen = self.entries.get(&prefix).and_then(|list| choose(self.home_as, list));
        let Some(chosen) = chosen else {
            return self.best.remove(&prefix).is_some();
        };
        match self.best.entry(prefix) {
            At::Occupied(at) if at.get().from == chosen.from && at.get().route == chosen.route => false,
            At::Occupied(mut at) => {
                at.insert(Best {
                    from: chosen.from,
                    route: chosen.route.clone(),
                });
                true
            }
            At::Vacant(at) => {
                at.insert(Best {
                    from: chosen.from,
                    route: chosen.route.clone(),
                });
                true
            }
        }
    }

    pub fn best(&self, prefix: Prefix) -> Option<&Best> {
        self.best.get(&prefix)
    }

    /// What is told of a prefix on a session.
    pub fn tell_out(&self, prefix: Prefix, view: &OutView) -> Option<Attrs> {
        let best = self.best.get(&prefix)?;
        if best.from == From::Peering(view.peering) {
            return None;
        }
        let mut attrs = best.route.attrs.clone();
        attrs.med = None;
        prepend(&mut attrs.path, self.home_as);
        attrs.next_hop = view.local_address;
        for raw in &mut attrs.unknown {
            raw.partial = true;
        }
        let octets = update_len(prefix, &attrs, false).max(update_len(prefix, &attrs, true));
        (octets <= MESSAGE_LIMIT).then_some(attrs)
    }
}

fn prefix_of(number: u32) -> Prefix {
    Prefix::new(0x0A00_0000 + 256 * number, 24).unwrap()
}

fn route(number: u32, source: u8) -> Route {
    let path = (number + u32::from(source)) % PATHS;
    let mut ases = Vec::new();
    ases.push(65_001 + path);
    ases.push(64_600 + path);
    ases.push(64_700);
    Route {
        attrs: Attrs {
            origin: Origin::Igp,
            path: vec![PathPart::Sequence(ases)],
            next_hop: 0xC000_0201 + 4 * u32::from(source),
            med: None,
            atomic: false,
            aggregator: None,
            unknown: Vec::new(),
        },
        pref: 100,
    }
}

fn set_one(rib: &mut Rib, number: u32, source: u8) {
    let address = 0xC000_0201 + 4 * u32::from(source);
    let entry = InEntry {
        prefix: prefix_of(number),
        route: Some(route(number, source)),
        identifier: address,
        address,
    };
    rib.set_in(From::Peering(source), entry);
}

#[inline(never)]
fn stage_set_by_prefix(rib: &mut Rib, count: u32) {
    for number in 0..count {
        for source in 0..SOURCES {
            set_one(rib, number, source);
        }
    }
}

#[inline(never)]
fn stage_set_by_source(rib: &mut Rib, count: u32) {
    for source in 0..SOURCES {
        for number in 0..count {
            set_one(rib, number, source);
        }
    }
}

#[inline(never)]
fn stage_decide(rib: &mut Rib) -> u32 {
    let mut changed = 0;
    while let Some(prefix) = rib.next_dirty() {
        if rib.decide(prefix) {
            changed += 1;
        }
    }
    changed
}

fn view(receiver: u8) -> OutView {
    OutView {
        peering: SOURCES + receiver,
        local_address: 0xC000_0212 + 4 * u32::from(receiver),
    }
}

#[inline(never)]
fn stage_tell(rib: &Rib, count: u32) -> u32 {
    let mut told = 0;
    for receiver in 0..RECEIVERS {
        let view = view(receiver);
        for number in 0..count {
            if rib.tell_out(prefix_of(number), &view).is_some() {
                told += 1;
            }
        }
    }
    told
}

fn mixed(sum: u64, number: u32) -> u64 {
    sum.wrapping_mul(1_000_003).wrapping_add(u64::from(number))
}

fn sum_of_path(sum: u64, path: &[PathPart]) -> u64 {
    let mut sum = sum;
    for part in path {
        if let PathPart::Sequence(ases) = part {
            for as_number in ases {
                sum = mixed(sum, *as_number);
            }
        }
    }
    sum
}

fn sum_of_best(rib: &Rib, count: u32) -> u64 {
    let mut sum = 0;
    for number in 0..count {
        if let Some(best) = rib.best(prefix_of(number)) {
            if let From::Peering(source) = best.from {
                sum = mixed(sum, u32::from(source));
            }
            sum = mixed(sum, best.route.attrs.next_hop);
            sum = mixed(sum, best.route.pref);
            sum = sum_of_path(sum, &best.route.attrs.path);
        }
    }
    sum
}

fn sum_of_told(rib: &Rib, count: u32) -> u64 {
    let mut sum = 0;
    for receiver in 0..RECEIVERS {
        let view = view(receiver);
        for number in 0..count {
            if let Some(attrs) = rib.tell_out(prefix_of(number), &view) {
                sum = mixed(sum, attrs.next_hop);
                sum = sum_of_path(sum, &attrs.path);
            }
        }
    }
    sum
}

fn main() {
    let mut text = String::new();
    std::io::stdin().read_to_string(&mut text).unwrap();
    let words: Vec<&str> = text.split_whitespace().collect();
    let count: u32 = words[0].parse().unwrap();
    let stages: u32 = words[1].parse().unwrap();
    let mut rib = Rib::new(65_000);
    if words[2] == "prefixes" {
        stage_set_by_prefix(&mut rib, count);
    } else {
        stage_set_by_source(&mut rib, count);
    }
    if stages >= 2 {
        println!("changed {}", stage_decide(&mut rib));
    }
    if stages == 3 {
        println!("told {}", stage_tell(&rib, count));
    }
    if stages == 4 {
        println!("sum of the best {}", sum_of_best(&rib, count));
    }
    if stages == 5 {
        println!("sum of the told {}", sum_of_told(&rib, count));
    }
}
