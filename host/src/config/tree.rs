//! TOML as a tree in which each key knows where it stands.
//!
//! The tree is read first and judged afterwards, so that each message is our own,
//! and names the line.

use serde::de::{Deserialize, Deserializer, MapAccess, SeqAccess, Visitor};
use std::fmt;
use toml::Spanned;

/// A key with its value.
#[derive(Clone, Debug, PartialEq)]
pub(super) struct Pair {
    pub(super) key: String,
    /// The key's place in the text, in octets from 0.
    pub(super) place: usize,
    pub(super) value: Node,
}

/// A value.
#[derive(Clone, Debug, PartialEq)]
pub(super) enum Node {
    Text(String),
    Whole(i64),
    Fraction(f64),
    Truth(bool),
    List(Vec<Node>),
    Table(Vec<Pair>),
}

impl Node {
    /// The value, as a message names it.
    pub(super) fn found(&self) -> String {
        match self {
            Node::Text(text) => format!("{text:?}"),
            Node::Whole(number) => number.to_string(),
            Node::Fraction(number) => number.to_string(),
            Node::Truth(truth) => truth.to_string(),
            Node::List(list) => format!("a list of {}", list.len()),
            Node::Table(_) => "a table".to_string(),
        }
    }
}

impl<'de> Deserialize<'de> for Node {
    fn deserialize<D: Deserializer<'de>>(deserializer: D) -> Result<Node, D::Error> {
        deserializer.deserialize_any(NodeVisitor)
    }
}

struct NodeVisitor;

impl<'de> Visitor<'de> for NodeVisitor {
    type Value = Node;

    fn expecting(&self, formatter: &mut fmt::Formatter<'_>) -> fmt::Result {
        formatter.write_str("text, a number, true or false, a list or a table")
    }

    fn visit_str<E>(self, text: &str) -> Result<Node, E> {
        Ok(Node::Text(text.to_string()))
    }

    fn visit_i64<E>(self, number: i64) -> Result<Node, E> {
        Ok(Node::Whole(number))
    }

    fn visit_f64<E>(self, number: f64) -> Result<Node, E> {
        Ok(Node::Fraction(number))
    }

    fn visit_bool<E>(self, truth: bool) -> Result<Node, E> {
        Ok(Node::Truth(truth))
    }

    fn visit_seq<A: SeqAccess<'de>>(self, mut access: A) -> Result<Node, A::Error> {
        let mut list = Vec::new();
        while let Some(node) = access.next_element()? {
            list.push(node);
        }
        Ok(Node::List(list))
    }

    fn visit_map<A: MapAccess<'de>>(self, mut access: A) -> Result<Node, A::Error> {
        let mut table = Vec::new();
        while let Some(key) = access.next_key::<Spanned<String>>()? {
            table.push(Pair {
                place: key.start(),
                key: key.into_inner(),
                value: access.next_value()?,
            });
        }
        Ok(Node::Table(table))
    }
}
