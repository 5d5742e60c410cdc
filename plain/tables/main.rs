//! The same work in plain Rust, with nothing proved: what `bench` is compared with.
use std::collections::{BTreeMap, BTreeSet, HashMap};
use std::time::Instant;
use std::{env, fs, mem};

const TEXT: &str = "a name of some forty letters, plain ones";
const JUMP: u64 = 7919;
// So many additions are committed together.
const TOGETHER: u64 = 1000;
const LABEL: u64 = 0;
const NAME: u64 = 1;
const NUMBER: u64 = 2;
const KIND: u64 = 3;

#[allow(dead_code)]
#[derive(Clone, PartialEq, Eq, PartialOrd, Ord)]
enum Value {
    Null,
    Bool(bool),
    Int(i64),
    Text(String),
    List(Vec<Value>),
    Map(BTreeMap<String, Value>),
}

/// Values by the numbers of their keys, which rise.
struct Properties(Vec<(u64, Value)>);

impl Properties {
    fn get(&self, key: u64) -> Option<&Value> {
        let at = self.0.binary_search_by_key(&key, |entry| entry.0).ok()?;
        Some(&self.0[at].1)
    }

    // What stood under the key.
    fn set(&mut self, key: u64, value: Value) -> Option<Value> {
        match self.0.binary_search_by_key(&key, |entry| entry.0) {
            Ok(at) => Some(mem::replace(&mut self.0[at].1, value)),
            Err(at) => {
                self.0.insert(at, (key, value));
                None
            }
        }
    }

    fn take(&mut self, key: u64) {
        if let Ok(at) = self.0.binary_search_by_key(&key, |entry| entry.0) {
            self.0.remove(at);
        }
    }
}

fn magnitude(value: Option<&Value>) -> u64 {
    match value {
        Some(Value::Int(n)) => n.unsigned_abs(),
        _ => 0,
    }
}

struct Node {
    labels: Vec<u64>,
    properties: Properties,
}

impl Node {
    fn new(id: u64) -> Node {
        let mut properties = Vec::with_capacity(2);
        properties.push((NAME, Value::Text(TEXT.to_string())));
        properties.push((NUMBER, Value::Int((id % 1000) as i64)));
        Node { labels: vec![LABEL], properties: Properties(properties) }
    }

    // What a node with the label has as its number.
    fn number(&self) -> u64 {
        if self.has(LABEL) { magnitude(self.properties.get(NUMBER)) } else { 0 }
    }

    fn has(&self, label: u64) -> bool {
        self.labels.binary_search(&label).is_ok()
    }
}

#[allow(dead_code)]
struct Rel {
    kind: u64,
    source: u64,
    target: u64,
    properties: Properties,
}

/// Relationships by their ids, and the ids at each node, rising.
#[derive(Default)]
struct Rels {
    by_id: BTreeMap<u64, Rel>,
    outgoing: BTreeMap<u64, Vec<u64>>,
    incoming: BTreeMap<u64, Vec<u64>>,
}

impl Rels {
    fn add(&mut self, id: u64, rel: Rel) {
        put(self.outgoing.entry(rel.source).or_default(), id);
        put(self.incoming.entry(rel.target).or_default(), id);
        self.by_id.insert(id, rel);
    }

    fn remove(&mut self, id: u64) {
        if let Some(rel) = self.by_id.remove(&id) {
            take(&mut self.outgoing, rel.source, id);
            take(&mut self.incoming, rel.target, id);
        }
    }

    fn degree(&self, node: u64) -> u64 {
        (at(&self.outgoing, node).len() + at(&self.incoming, node).len()) as u64
    }
}

fn at(lists: &BTreeMap<u64, Vec<u64>>, node: u64) -> &[u64] {
    lists.get(&node).map_or(&[], |ids| ids)
}

fn put(ids: &mut Vec<u64>, id: u64) {
    if let Err(place) = ids.binary_search(&id) {
        ids.insert(place, id);
    }
}

fn take(lists: &mut BTreeMap<u64, Vec<u64>>, node: u64, id: u64) {
    let Some(ids) = lists.get_mut(&node) else { return };
    if let Ok(place) = ids.binary_search(&id) {
        ids.remove(place);
    }
    if ids.is_empty() {
        lists.remove(&node);
    }
}

fn sum(nodes: &BTreeMap<u64, Node>, count: u64, step: u64) -> u64 {
    let mut total: u64 = 0;
    for turn in 0..count {
        if let Some(node) = nodes.get(&(turn.wrapping_mul(step) % count)) {
            total = total.wrapping_add(node.number());
        }
    }
    total
}

/// What takes a change back.
enum Entry {
    NodeAdded,
    RelAdded,
    PropertySet(u64, u64, Option<Value>),
    NodeRemoved(u64),
    RelRemoved(u64),
}

/// The nodes of a label by what they had under a key when it was made.
struct Index {
    label: u64,
    key: u64,
    ids: BTreeMap<Value, BTreeSet<u64>>,
}

/// A graph with names as numbers and a journal. What is removed goes with the commit.
#[derive(Default)]
struct Store {
    names: HashMap<String, u64>,
    nodes: BTreeMap<u64, Node>,
    rels: Rels,
    labels: BTreeMap<u64, BTreeSet<u64>>,
    index: Option<Index>,
    gone_nodes: BTreeSet<u64>,
    gone_rels: BTreeSet<u64>,
    journal: Vec<Entry>,
    next_node: u64,
    next_rel: u64,
}

impl Store {
    fn name(&mut self, text: &str) -> u64 {
        if let Some(number) = self.names.get(text) {
            return *number;
        }
        let number = self.names.len() as u64;
        self.names.insert(text.to_string(), number);
        number
    }

    fn properties(&mut self, pairs: Vec<(&str, Value)>) -> Properties {
        let mut properties = Properties(Vec::with_capacity(pairs.len()));
        for (key, value) in pairs {
            let key = self.name(key);
            properties.set(key, value);
        }
        properties
    }

    fn create_node(&mut self, labels: &[&str], properties: Vec<(&str, Value)>) {
        let id = self.next_node;
        let mut numbers = Vec::with_capacity(labels.len());
        for label in labels {
            let label = self.name(label);
            put(&mut numbers, label);
            self.labels.entry(label).or_default().insert(id);
        }
        let properties = self.properties(properties);
        self.nodes.insert(id, Node { labels: numbers, properties });
        self.next_node += 1;
        self.journal.push(Entry::NodeAdded);
    }

    fn create_rel(&mut self, kind: &str, source: u64, target: u64, properties: Vec<(&str, Value)>) {
        let kind = self.name(kind);
        let properties = self.properties(properties);
        self.rels.add(self.next_rel, Rel { kind, source, target, properties });
        self.next_rel += 1;
        self.journal.push(Entry::RelAdded);
    }

    fn node(&self, id: u64) -> Option<&Node> {
        if self.gone_nodes.contains(&id) { None } else { self.nodes.get(&id) }
    }

    fn rel(&self, id: u64) -> Option<&Rel> {
        if self.gone_rels.contains(&id) { None } else { self.rels.by_id.get(&id) }
    }

    fn property(&self, id: u64, key: &str) -> Option<&Value> {
        self.node(id)?.properties.get(*self.names.get(key)?)
    }

    fn rel_property(&self, id: u64, key: &str) -> Option<&Value> {
        self.rel(id)?.properties.get(*self.names.get(key)?)
    }

    fn set(&mut self, id: u64, key: &str, value: Value) {
        let key = self.name(key);
        if let Some(node) = self.nodes.get_mut(&id) {
            let before = node.properties.set(key, value);
            self.journal.push(Entry::PropertySet(id, key, before));
        }
    }

    fn remove_node(&mut self, id: u64) {
        self.gone_nodes.insert(id);
        self.journal.push(Entry::NodeRemoved(id));
    }

    fn remove_rel(&mut self, id: u64) {
        self.gone_rels.insert(id);
        self.journal.push(Entry::RelRemoved(id));
    }

    fn undo(&mut self, mark: usize) {
        while self.journal.len() > mark {
            match self.journal.pop().unwrap() {
                Entry::NodeAdded => {
                    self.next_node -= 1;
                    self.drop_node(self.next_node);
                }
                Entry::RelAdded => {
                    self.next_rel -= 1;
                    self.rels.remove(self.next_rel);
                }
                Entry::PropertySet(id, key, before) => self.set_back(id, key, before),
                Entry::NodeRemoved(id) => drop(self.gone_nodes.remove(&id)),
                Entry::RelRemoved(id) => drop(self.gone_rels.remove(&id)),
            }
        }
    }

    fn set_back(&mut self, id: u64, key: u64, before: Option<Value>) {
        let Some(node) = self.nodes.get_mut(&id) else { return };
        match before {
            Some(value) => drop(node.properties.set(key, value)),
            None => node.properties.take(key),
        }
    }

    fn drop_node(&mut self, id: u64) {
        let Some(node) = self.nodes.remove(&id) else { return };
        for label in &node.labels {
            self.labels.get_mut(label).map(|ids| ids.remove(&id));
        }
    }

    fn commit(&mut self) {
        self.journal.clear();
        for id in mem::take(&mut self.gone_rels) {
            self.rels.remove(id);
        }
        for id in mem::take(&mut self.gone_nodes) {
            self.drop_node(id);
        }
    }

    fn outgoing(&self, node: u64) -> impl Iterator<Item = u64> + '_ {
        at(&self.rels.outgoing, node).iter().copied().filter(move |id| !self.gone_rels.contains(id))
    }

    fn incoming(&self, node: u64) -> impl Iterator<Item = u64> + '_ {
        at(&self.rels.incoming, node).iter().copied().filter(move |id| !self.gone_rels.contains(id))
    }

    fn walk(&self, count: u64) -> u64 {
        let mut total: u64 = 0;
        for id in 0..count {
            total = self.outgoing(id).fold(total, u64::wrapping_add);
            total = self.incoming(id).fold(total, u64::wrapping_add);
        }
        total
    }

    fn labelled(&self, label: &str) -> impl Iterator<Item = u64> + '_ {
        let label = self.names.get(label).copied();
        let ids = label.and_then(|label| self.labels.get(&label)).into_iter().flatten().copied();
        ids.filter(move |id| self.node(*id).is_some_and(|node| node.has(label.unwrap())))
    }

    fn make_index(&mut self, label: &str, key: &str) {
        let (label, key) = (self.name(label), self.name(key));
        let mut ids: BTreeMap<Value, BTreeSet<u64>> = BTreeMap::new();
        for id in self.labels.get(&label).into_iter().flatten() {
            if let Some(value) = self.nodes.get(id).and_then(|node| node.properties.get(key)) {
                ids.entry(value.clone()).or_default().insert(*id);
            }
        }
        self.index = Some(Index { label, key, ids });
    }

    fn valued(&self, label: &str, key: &str, value: &Value) -> impl Iterator<Item = u64> + '_ {
        let names = self.names.get(label).copied().zip(self.names.get(key).copied());
        let index = self.index.as_ref().filter(|index| Some((index.label, index.key)) == names);
        let ids = index.and_then(|index| index.ids.get(value)).into_iter().flatten().copied();
        ids.filter(move |id| self.node(*id).is_some())
    }
}

fn took(start: Instant, work: &str) {
    println!("took {} {work}", start.elapsed().as_micros());
}

fn found(total: u64, work: &str) {
    println!("found {total} {work}");
}

fn memory(work: &str) {
    print!("memory {work} {}", fs::read_to_string("/proc/self/statm").unwrap());
}

fn measure_tables(count: u64) {
    let mut nodes = BTreeMap::new();
    memory("nothing");
    let start = Instant::now();
    for id in 0..count {
        nodes.insert(id, Node::new(id));
    }
    took(start, "add");
    memory("add");
    for (step, work) in [(1, "find in order"), (JUMP, "find in jumps")] {
        let start = Instant::now();
        let total = sum(&nodes, count, step);
        took(start, work);
        found(total, work);
    }
    let mut rels = Rels::default();
    let start = Instant::now();
    for id in 0..count {
        rels.add(id, Rel { kind: KIND, source: id, target: (id + 1) % count, properties: Properties(Vec::new()) });
    }
    took(start, "join");
    memory("join");
    found((0..count).map(|id| rels.degree(id)).sum(), "join");
}

fn measure_store(count: u64) {
    let mut store = Store::default();
    measure_additions(&mut store, count);
    measure_reads(&store, count);
    measure_index(&mut store, count);
    measure_undo(&mut store, count);
    measure_removals(&mut store, count);
}

fn measure_additions(store: &mut Store, count: u64) {
    memory("nothing");
    let start = Instant::now();
    for id in 0..count {
        let name = Value::Text(TEXT.to_string());
        store.create_node(&["Person"], vec![("name", name), ("number", Value::Int(id as i64))]);
        if id % TOGETHER == 0 {
            store.commit();
        }
    }
    store.commit();
    took(start, "create nodes");
    memory("nodes");
    let start = Instant::now();
    for id in 0..count {
        let target = id.wrapping_mul(JUMP) % count;
        if store.node(id).is_some() && store.node(target).is_some() {
            store.create_rel("KNOWS", id, target, vec![("since", Value::Int(7))]);
        }
        if id % TOGETHER == 0 {
            store.commit();
        }
    }
    store.commit();
    took(start, "create relationships");
    memory("relationships");
}

fn measure_reads(store: &Store, count: u64) {
    let jumps = || (0..count).map(|turn| turn.wrapping_mul(JUMP) % count);
    let start = Instant::now();
    let total = jumps().map(|id| magnitude(store.property(id, "number"))).sum();
    took(start, "read nodes");
    found(total, "read nodes");
    let start = Instant::now();
    let total = jumps().map(|id| magnitude(store.rel_property(id, "since"))).sum();
    took(start, "read relationships");
    found(total, "read relationships");
    let start = Instant::now();
    let total = store.walk(count);
    took(start, "walk");
    found(total, "walk");
    let start = Instant::now();
    let total = store.labelled("Person").sum();
    took(start, "find by label");
    found(total, "find by label");
}

fn measure_index(store: &mut Store, count: u64) {
    let start = Instant::now();
    store.make_index("Person", "number");
    took(start, "make an index");
    memory("index");
    let start = Instant::now();
    let numbers = (0..count).map(|turn| Value::Int((turn.wrapping_mul(JUMP) % count) as i64));
    let total = numbers.map(|number| store.valued("Person", "number", &number).sum::<u64>()).sum();
    took(start, "find by value");
    store.index = None;
    found(total, "find by value");
}

fn remove_rels(store: &mut Store, count: u64) {
    for id in 0..count {
        if store.rel(id).is_some() {
            store.remove_rel(id);
        }
    }
}

fn measure_undo(store: &mut Store, count: u64) {
    let mark = store.journal.len();
    let start = Instant::now();
    for id in 0..count {
        if store.node(id).is_some() {
            store.set(id, "number", Value::Int((id % 100) as i64));
        }
    }
    took(start, "change nodes");
    let start = Instant::now();
    remove_rels(store, count);
    took(start, "remove relationships");
    found(store.walk(count), "remove relationships");
    let start = Instant::now();
    store.undo(mark);
    took(start, "undo both");
    found(store.walk(count), "undo both");
}

fn measure_removals(store: &mut Store, count: u64) {
    remove_rels(store, count);
    let start = Instant::now();
    store.commit();
    took(start, "commit relationships");
    let start = Instant::now();
    for id in 0..count {
        if store.node(id).is_some() && store.outgoing(id).next().is_none() && store.incoming(id).next().is_none() {
            store.remove_node(id);
        }
    }
    took(start, "remove nodes");
    let start = Instant::now();
    store.commit();
    took(start, "commit nodes");
    found((store.nodes.len() + store.rels.by_id.len()) as u64, "commit nodes");
}

fn main() {
    let mut words = env::args().skip(1);
    let part = words.next();
    let count = words.next().unwrap().parse().unwrap();
    match part.as_deref() {
        Some("tables") => measure_tables(count),
        Some("store") => measure_store(count),
        _ => panic!("one of tables and store, and COUNT, are expected"),
    }
}
