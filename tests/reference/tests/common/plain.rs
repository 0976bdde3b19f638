//! The plain table (RULES, Plain table), which tells empty from absent.

use std::collections::BTreeMap;

/// A bucket's keys with their values, in the words of the script. Pairs of
/// digits stand in the order of the bytes.
#[derive(Clone, Default, PartialEq, Eq, PartialOrd, Ord)]
pub struct Plain(BTreeMap<String, String>);

impl Plain {
    /// The answer to a call, given without its server: the result and the data.
    pub fn answer(&mut self, call: &[&str]) -> String {
        match *call {
            ["get", key] => format!("value {}", self.value(key)),
            ["keys", _] => format!("keys {}", self.keys()),
            ["set", key, value] => self.set(key, value).to_string(),
            ["setif", key, expected, _] if self.value(key) != expected => "mismatch".to_string(),
            ["setif", key, _, value] => self.set(key, value).to_string(),
            ["del", key] => self.set(key, "-").to_string(),
            _ => panic!("no call: {call:?}"),
        }
    }

    fn value(&self, key: &str) -> &str {
        self.0.get(key).map_or("-", String::as_str)
    }

    fn keys(&self) -> String {
        match self.0.is_empty() {
            true => "-".to_string(),
            false => self.0.keys().cloned().collect::<Vec<_>>().join(" "),
        }
    }

    fn set(&mut self, key: &str, value: &str) -> &'static str {
        if value == "-" {
            self.0.remove(key);
        } else if self.0.contains_key(key) || self.0.len() < 4 {
            self.0.insert(key.to_string(), value.to_string());
        } else {
            return "full";
        }
        "done"
    }
}
