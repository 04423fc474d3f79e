//! The keys of a system file that say where signals are, one a line: `key = "text"`, with wires in a table of their own.
use std::collections::HashMap;

/// The names of a link's signals: a prefix, and those that are given one by one.
#[derive(Default)]
pub struct Link {
    prefix: Option<String>,
    wires: HashMap<String, String>,
}

impl Link {
    pub fn is_given(&self) -> bool {
        self.prefix.is_some() || !self.wires.is_empty()
    }

    pub fn name_of(&self, signal: &str) -> String {
        let prefix = self.prefix.as_deref().unwrap_or("");
        self.wires.get(signal).cloned().unwrap_or_else(|| format!("{prefix}{signal}"))
    }
}

#[derive(Default)]
pub struct System {
    pub clock: String,
    pub reset: Option<String>,
    pub is_low: bool,
    pub ports: Vec<Link>,
    pub masters: Vec<Link>,
}

impl System {
    /// Reads the text of a system file.
    pub fn read(text: &str) -> System {
        let mut system = System::default();
        let mut table = String::new();
        for line in text.lines().map(str::trim) {
            if line.starts_with('[') {
                table = line.trim_matches(['[', ']']).to_string();
                match table.as_str() {
                    "port" => system.ports.push(Link::default()),
                    "master" => system.masters.push(Link::default()),
                    _ => {}
                }
            } else if let Some((key, value)) = line.split_once('=') {
                system.take(&table, key.trim(), value.trim().trim_matches('"'));
            }
        }
        system
    }

    /// Takes a key of a table.
    fn take(&mut self, table: &str, key: &str, value: &str) {
        let value = value.to_string();
        let link = if table.starts_with("port") { self.ports.last_mut() } else { self.masters.last_mut() };
        match (table, key, link) {
            ("", "clock", _) => self.clock = value,
            ("", "reset", _) => self.reset = Some(value),
            ("", "reset_active", _) => self.is_low = value == "low",
            ("port" | "master", "signals", Some(link)) => link.prefix = Some(value),
            ("port.wires" | "master.wires", _, Some(link)) => drop(link.wires.insert(key.to_string(), value)),
            _ => {}
        }
    }
}
