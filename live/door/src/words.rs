//! The words of a command line: `name=value`, and after `--` a command to run.

use crate::Fallible;
use std::collections::HashMap;
use std::str::FromStr;

pub struct Words {
    values: HashMap<String, String>,
    pub command: Vec<String>,
}

impl Words {
    /// A name that is not in `known` is an error, so that no word is passed over in silence.
    pub fn read(words: impl Iterator<Item = String>, known: &[&str]) -> Fallible<Words> {
        let mut words = words.skip(1);
        let mut values = HashMap::new();
        for word in words.by_ref().take_while(|word| word != "--") {
            let (name, value) = word.split_once('=').ok_or(format!("{word} is no name=value"))?;
            if !known.contains(&name) {
                return Err(format!("there is no word {name}"));
            }
            values.insert(name.to_string(), value.to_string());
        }
        Ok(Words { values, command: words.collect() })
    }

    pub fn text(&self, name: &str, other: &str) -> String {
        self.values.get(name).cloned().unwrap_or_else(|| other.to_string())
    }

    pub fn number<T: FromStr>(&self, name: &str, other: T) -> Fallible<T> {
        match self.values.get(name) {
            Some(value) => {
                value.parse().map_err(|_| format!("{name}={value} is no number in range"))
            }
            None => Ok(other),
        }
    }
}

#[cfg(test)]
mod tests {
    use super::*;

    fn words(text: &str) -> Fallible<Words> {
        Words::read(text.split(' ').map(String::from), &["seed", "loss"])
    }

    #[test]
    fn values_and_a_command() {
        let read = words("door seed=7 -- ./replay -").unwrap();
        assert_eq!((read.number("seed", 1), read.number("loss", 3)), (Ok(7), Ok(3)));
        assert_eq!(read.command, ["./replay", "-"]);
    }

    #[test]
    fn unknown_names_and_bad_numbers_are_errors() {
        assert!(words("door lost=7").is_err());
        assert!(words("door seed").is_err());
        assert!(words("door seed=x").unwrap().number("seed", 1).is_err());
    }
}
