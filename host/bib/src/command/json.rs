//! Lines of JSON, for other programs.

use std::fmt::Write;

use crate::shown::is_steering;

/// An object, made part by part.
pub struct Object(String);

impl Object {
    pub fn new() -> Self {
        Self("{".into())
    }

    fn name(&mut self, name: &str) {
        let comma = if self.0.len() > 1 { "," } else { "" };
        let _ = write!(self.0, "{comma}\"{name}\":");
    }

    pub fn number(mut self, name: &str, value: usize) -> Self {
        self.name(name);
        let _ = write!(self.0, "{value}");
        self
    }

    pub fn text(mut self, name: &str, value: &str) -> Self {
        self.name(name);
        self.0.push('"');
        for c in value.chars() {
            match c {
                '"' | '\\' => self.0.extend(['\\', c]),
                _ if is_steering(c) => {
                    let _ = write!(self.0, "\\u{:04x}", c as u32);
                }
                _ => self.0.push(c),
            }
        }
        self.0.push('"');
        self
    }

    /// What is JSON already.
    pub fn json(mut self, name: &str, value: &str) -> Self {
        self.name(name);
        self.0 += value;
        self
    }

    pub fn list(mut self, name: &str, values: impl Iterator<Item = Self>) -> Self {
        self.name(name);
        self.0.push('[');
        for (n, value) in values.enumerate() {
            let comma = if n > 0 { "," } else { "" };
            self.0.extend([comma, &value.end()]);
        }
        self.0.push(']');
        self
    }

    /// A text, or null.
    pub fn maybe(mut self, name: &str, value: Option<&str>) -> Self {
        match value {
            Some(value) => self.text(name, value),
            None => {
                self.name(name);
                self.0 += "null";
                self
            }
        }
    }

    /// The same, for one that is kept.
    pub fn whole(&self) -> String {
        [&self.0, "}"].concat()
    }

    pub fn end(self) -> String {
        self.0 + "}"
    }

    pub fn line(self) -> String {
        self.end() + "\n"
    }
}

#[cfg(test)]
mod tests {
    use super::*;

    #[test]
    fn lists() {
        let one = || Object::new().number("n", 1);
        let object = Object::new()
            .json("j", "null")
            .list("l", [one(), one()].into_iter());
        assert_eq!(object.end(), "{\"j\":null,\"l\":[{\"n\":1},{\"n\":1}]}");
        assert_eq!(Object::new().list("l", [].into_iter()).end(), "{\"l\":[]}");
    }

    #[test]
    fn object() {
        let object = Object::new()
            .number("n", 7)
            .text("t", "a\"\\\x1b\n\u{202e}é");
        let line = object.maybe("m", None).maybe("o", Some("x")).line();
        assert_eq!(
            line,
            "{\"n\":7,\"t\":\"a\\\"\\\\\\u001b\\u000a\\u202eé\",\"m\":null,\"o\":\"x\"}\n"
        );
    }
}
