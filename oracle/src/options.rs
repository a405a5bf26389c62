//! The words of the command line: `--name value` pairs and the rest.

use std::str::FromStr;

pub struct Options {
    named: Vec<(String, String)>,
    rest: Vec<String>,
}

impl Options {
    /// Parts the words; only the names given are allowed, and each has a value.
    pub fn new(words: &[String], allowed: &[&str]) -> Result<Self, String> {
        let (mut named, mut rest) = (Vec::new(), Vec::new());
        let mut words = words.iter();
        while let Some(word) = words.next() {
            let Some(name) = word.strip_prefix("--") else {
                rest.push(word.clone());
                continue;
            };
            if !allowed.contains(&name) {
                return Err(format!("no option --{name} here"));
            }
            let value = words.next().ok_or(format!("--{name} needs a value"))?;
            named.push((name.to_string(), value.clone()));
        }
        Ok(Self { named, rest })
    }

    pub fn text(&self, name: &str) -> Option<&str> {
        let mut pairs = self.named.iter();
        pairs
            .find(|(n, _)| n == name)
            .map(|(_, value)| value.as_str())
    }

    pub fn number<N: FromStr>(&self, name: &str) -> Result<Option<N>, String> {
        let read = |value: &str| {
            let wrong = |_| format!("--{name} cannot be {value}");
            value.parse().map_err(wrong)
        };
        self.text(name).map(read).transpose()
    }

    /// Exactly so many words beside the options.
    pub fn words<const N: usize>(&self) -> Result<[&str; N], String> {
        let words: Vec<&str> = self.rest.iter().map(String::as_str).collect();
        let count = words.len();
        let wrong = |_| format!("{N} words are needed beside the options, not {count}");
        words.try_into().map_err(wrong)
    }
}
