//! What the store knows of each key, and how it stands in records.
use clfs::{Lsn, Record};
use std::collections::HashMap;

/// Each key with the LSN of its newest record and its value, None if it was deleted since the last copy.
#[derive(Default)]
pub struct Entries {
    by_key: HashMap<String, (Lsn, Option<String>)>,
    bytes: usize,
}

impl Entries {
    /// How many bytes a copy has.
    pub fn bytes(&self) -> usize {
        self.bytes
    }

    pub fn get(&self, key: &str) -> Option<&str> {
        self.by_key.get(key)?.1.as_deref()
    }

    /// Gives the key a value or none, unless a later record did.
    pub fn set(&mut self, lsn: Lsn, key: &str, value: Option<&str>) {
        let (newest, old) = self.by_key.entry(key.to_owned()).or_default();
        if *newest <= lsn {
            let size = |value: &str| key.len() + value.len() + 2;
            self.bytes = self.bytes + value.map_or(0, size) - old.as_deref().map_or(0, size);
            (*newest, *old) = (lsn, value.map(str::to_owned));
        }
    }

    /// Does what the record of a change says.
    pub fn redo(&mut self, record: &Record) {
        let text = String::from_utf8_lossy(&record.data);
        match text.splitn(3, ' ').collect::<Vec<_>>()[..] {
            ["put", key, value] => self.set(record.lsn, key, Some(value)),
            ["delete", key] => self.set(record.lsn, key, None),
            _ => {}
        }
    }

    /// Takes in a part of a copy.
    pub fn restore(&mut self, part: &Record) {
        for (key, value) in String::from_utf8_lossy(&part.data).lines().filter_map(|line| line.split_once(' ')) {
            self.set(Lsn::NULL, key, Some(value));
        }
    }

    /// A copy, in parts of at most so many bytes. Forgets the keys that were deleted, so no change may be under way.
    pub fn copy(&mut self, longest: usize) -> Vec<String> {
        self.by_key.retain(|_, (_, value)| value.is_some());
        let mut parts = vec![String::new()];
        for (key, (_, value)) in &self.by_key {
            let line = format!("{key} {}\n", value.as_deref().unwrap_or_default());
            match parts.last_mut() {
                Some(part) if part.len() + line.len() <= longest => part.push_str(&line),
                _ => parts.push(line),
            }
        }
        parts
    }
}
