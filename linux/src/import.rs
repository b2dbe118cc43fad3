//! What FRR's configuration says, and settings made of it, with the lines that have no counterpart.
mod candidates;
mod configuration;
mod groups;
mod lines;
mod lists;
mod reasons;
mod written;

pub use configuration::Configuration;
use configuration::Place;
use lines::Reader;
use serde::Serialize;
use std::fmt;

/// A line of the configuration that isn't carried over, or not as it stands.
#[derive(Clone, Debug, PartialEq, Eq, Serialize)]
pub struct Left {
    /// Counted from 1.
    pub line: usize,
    pub text: String,
    pub reason: String,
    /// What an operator may want to know besides.
    pub advice: Option<String>,
}

impl Left {
    fn new(place: &Place, reason: &str, advice: Option<&str>) -> Left {
        let (reason, advice) = (reason.to_string(), advice.map(str::to_string));
        Left { line: place.line, text: place.text.clone(), reason, advice }
    }
}

impl fmt::Display for Left {
    fn fmt(&self, to: &mut fmt::Formatter) -> fmt::Result {
        write!(to, "line {}: \"{}\": {}", self.line, self.text, self.reason)?;
        self.advice.iter().try_for_each(|advice| write!(to, ": {advice}"))
    }
}

/// What became of a configuration.
pub struct Imported {
    /// In TOML.
    pub settings: String,
    /// By their lines.
    pub left: Vec<Left>,
}

/// What `show running-config`, or /etc/frr/frr.conf, says of a VRF, or of what is in none.
pub fn read(configuration: &str, vrf: Option<&str>) -> Configuration {
    let mut reader = Reader::new(vrf);
    reader.read(configuration);
    groups::resolved(reader)
}

/// Settings of the same.
pub fn of(configuration: &str, vrf: Option<&str>) -> Imported {
    let (settings, mut left) = written::written(read(configuration, vrf));
    left.sort_by_key(|left| left.line);
    Imported { settings, left }
}

#[cfg(test)]
mod tests;
