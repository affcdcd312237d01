//! Reading the keys of a table, with faults that name file and line.

use super::fault::ConfigFault;
use super::tree::{Node, Pair};
use std::ops::RangeInclusive;
use std::path::Path;

/// The file that is read.
#[derive(Clone, Copy, Debug)]
pub(super) struct Source<'a> {
    pub(super) file: &'a Path,
    pub(super) text: &'a str,
}

impl Source<'_> {
    /// The line, from 1, of a place in octets.
    fn line(&self, place: usize) -> usize {
        let before = self.text.as_bytes().iter().take(place);
        before.filter(|octet| **octet == b'\n').count() + 1
    }

    /// The line of the header above a place, or that of the place.
    fn header_line(&self, place: usize) -> usize {
        let line = self.line(place);
        let lines: Vec<&str> = self.text.lines().take(line).collect();
        lines
            .iter()
            .rposition(|line| line.trim_start().starts_with('['))
            .map_or(line, |above| above + 1)
    }
}

/// A value, and where it stands.
#[derive(Clone, Debug)]
pub(super) struct Value<'a> {
    source: Source<'a>,
    pub(super) line: usize,
    pub(super) key: String,
    pub(super) node: Node,
}

/// A table whose keys are taken one by one.
#[derive(Clone, Debug)]
pub(super) struct Table<'a> {
    source: Source<'a>,
    line: usize,
    path: String,
    pairs: Vec<Pair>,
}

impl<'a> Value<'a> {
    /// The fault that this value isn't what was expected.
    pub(super) fn fault(&self, expected: impl Into<String>) -> ConfigFault {
        self.fault_found(expected, self.node.found())
    }

    /// The fault that something else was found here than what was expected.
    pub(super) fn fault_found(
        &self,
        expected: impl Into<String>,
        found: impl Into<String>,
    ) -> ConfigFault {
        ConfigFault {
            file: self.source.file.to_path_buf(),
            line: self.line,
            key: self.key.clone(),
            expected: expected.into(),
            found: found.into(),
        }
    }

    /// Text.
    pub(super) fn text(&self, expected: &str) -> Result<&str, ConfigFault> {
        match &self.node {
            Node::Text(text) => Ok(text),
            _ => Err(self.fault(expected)),
        }
    }

    /// True or false.
    pub(super) fn truth(&self) -> Result<bool, ConfigFault> {
        match self.node {
            Node::Truth(truth) => Ok(truth),
            _ => Err(self.fault("true or false")),
        }
    }

    /// A whole number in a range.
    pub(super) fn whole(&self, range: RangeInclusive<i64>) -> Result<i64, ConfigFault> {
        match self.node {
            Node::Whole(number) if range.contains(&number) => Ok(number),
            _ => Err(self.fault(format!(
                "a whole number from {} to {}",
                range.start(),
                range.end()
            ))),
        }
    }

    /// The values of a list.
    pub(super) fn list(&self, expected: &str) -> Result<Vec<Value<'a>>, ConfigFault> {
        let Node::List(list) = &self.node else {
            return Err(self.fault(expected));
        };
        let value = |(place, node): (usize, &Node)| {
            let key = format!("{}[{place}]", self.key);
            Value {
                source: self.source,
                line: first_line(self.source, node).unwrap_or(self.line),
                key,
                node: node.clone(),
            }
        };
        Ok(list.iter().enumerate().map(value).collect())
    }

    /// A table.
    pub(super) fn table(&self, expected: &str) -> Result<Table<'a>, ConfigFault> {
        let Node::Table(pairs) = &self.node else {
            return Err(self.fault(expected));
        };
        let table = Table {
            source: self.source,
            line: self.line,
            path: self.key.clone(),
            pairs: pairs.clone(),
        };
        table.refuse_doubles()?;
        Ok(table)
    }
}

/// The line of a table's header, by its first key.
fn first_line(source: Source<'_>, node: &Node) -> Option<usize> {
    match node {
        Node::Table(pairs) => pairs
            .iter()
            .map(|pair| pair.place)
            .min()
            .map(|place| source.header_line(place)),
        _ => None,
    }
}

impl<'a> Table<'a> {
    /// The whole file.
    pub(super) fn whole(source: Source<'a>, node: Node) -> Result<Table<'a>, ConfigFault> {
        let value = Value {
            source,
            line: 1,
            key: String::new(),
            node,
        };
        value.table("a table")
    }

    /// Takes a key's value, if it is there.
    pub(super) fn optional(&mut self, key: &str) -> Option<Value<'a>> {
        let place = self.pairs.iter().position(|pair| pair.key == key)?;
        let pair = self.pairs.remove(place);
        Some(self.value(pair))
    }

    /// Takes a key's value.
    pub(super) fn required(&mut self, key: &str, expected: &str) -> Result<Value<'a>, ConfigFault> {
        self.optional(key).ok_or_else(|| ConfigFault {
            file: self.source.file.to_path_buf(),
            line: self.line,
            key: self.key(key),
            expected: expected.to_string(),
            found: "nothing".to_string(),
        })
    }

    /// No key may be left.
    pub(super) fn finish(mut self, known: &str) -> Result<(), ConfigFault> {
        if self.pairs.is_empty() {
            return Ok(());
        }
        let pair = self.pairs.remove(0);
        let found = "an unknown key";
        Err(self
            .value(pair)
            .fault_found(format!("one of {known}"), found))
    }

    fn value(&self, pair: Pair) -> Value<'a> {
        Value {
            source: self.source,
            line: self.source.line(pair.place),
            key: self.key(&pair.key),
            node: pair.value,
        }
    }

    fn key(&self, key: &str) -> String {
        if self.path.is_empty() {
            key.to_string()
        } else {
            format!("{}.{key}", self.path)
        }
    }

    /// The reader of TOML takes a key that stands twice; here it is a fault.
    fn refuse_doubles(&self) -> Result<(), ConfigFault> {
        for (place, pair) in self.pairs.iter().enumerate() {
            let double = self
                .pairs
                .iter()
                .take(place)
                .any(|other| other.key == pair.key);
            if double {
                let value = self.value(pair.clone());
                return Err(value.fault_found("each key once", "the key again"));
            }
        }
        Ok(())
    }
}
