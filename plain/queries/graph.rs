//! A property graph of hash maps, with lists of the relationships at each node.
use crate::value::Value;
use std::collections::{BTreeSet, HashMap};

pub struct Node {
    labels: Vec<u32>,
    properties: Vec<(u32, Value)>,
    pub out: Vec<u64>,
    into: Vec<u64>,
}

impl Node {
    pub fn property(&self, key: u32) -> Option<&Value> {
        self.properties.iter().find(|entry| entry.0 == key).map(|entry| &entry.1)
    }
}

#[allow(dead_code)]
pub struct Rel {
    kind: u32,
    from: u64,
    pub to: u64,
    properties: Vec<(u32, Value)>,
}

#[derive(Default)]
pub struct Graph {
    names: HashMap<String, u32>,
    nodes: HashMap<u64, Node>,
    rels: HashMap<u64, Rel>,
    by_label: HashMap<u32, BTreeSet<u64>>,
    next_node: u64,
    next_rel: u64,
}

impl Graph {
    /// The number of a name, which is a new one if the name is.
    pub fn name(&mut self, text: &str) -> u32 {
        let next = self.names.len() as u32;
        match self.names.get(text) {
            Some(&number) => number,
            None => {
                self.names.insert(text.to_string(), next);
                next
            }
        }
    }

    pub fn known(&self, text: &str) -> u32 {
        self.names.get(text).copied().unwrap_or(u32::MAX)
    }

    pub fn node(&self, id: u64) -> &Node {
        &self.nodes[&id]
    }

    pub fn rel(&self, id: u64) -> &Rel {
        &self.rels[&id]
    }

    pub fn labelled(&self, label: u32) -> impl Iterator<Item = u64> + '_ {
        self.by_label.get(&label).into_iter().flatten().copied()
    }

    pub fn status(&self) -> (usize, u64, u64) {
        (self.nodes.len() + self.rels.len(), self.next_node, self.next_rel)
    }

    pub fn add_node(&mut self, labels: Vec<u32>, properties: Vec<(u32, Value)>) -> u64 {
        let id = self.next_node;
        self.next_node += 1;
        for &label in &labels {
            self.by_label.entry(label).or_default().insert(id);
        }
        self.nodes.insert(id, Node { labels, properties, out: Vec::new(), into: Vec::new() });
        id
    }

    pub fn add_rel(&mut self, kind: u32, from: u64, to: u64, properties: Vec<(u32, Value)>) {
        let id = self.next_rel;
        self.next_rel += 1;
        self.nodes.get_mut(&from).unwrap().out.push(id);
        self.nodes.get_mut(&to).unwrap().into.push(id);
        self.rels.insert(id, Rel { kind, from, to, properties });
    }

    pub fn set(&mut self, id: u64, key: u32, value: Value) {
        let properties = &mut self.nodes.get_mut(&id).unwrap().properties;
        match properties.iter_mut().find(|entry| entry.0 == key) {
            Some(entry) => entry.1 = value,
            None => properties.push((key, value)),
        }
    }

    fn remove_rel(&mut self, id: u64) -> u64 {
        let Some(rel) = self.rels.remove(&id) else { return 0 };
        if let Some(from) = self.nodes.get_mut(&rel.from) {
            from.out.retain(|&other| other != id);
        }
        if let Some(to) = self.nodes.get_mut(&rel.to) {
            to.into.retain(|&other| other != id);
        }
        1
    }

    /// Removes a node with its relationships, and counts them.
    pub fn remove_node(&mut self, id: u64) -> u64 {
        let Some(node) = self.nodes.remove(&id) else { return 0 };
        for label in &node.labels {
            self.by_label.get_mut(label).unwrap().remove(&id);
        }
        let rels = node.out.iter().chain(&node.into);
        1 + rels.map(|&rel| self.remove_rel(rel)).sum::<u64>()
    }
}
