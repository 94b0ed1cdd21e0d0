//! The arguments of a sub-command: flags, options with a value, the rest.

use crate::names::did_you_mean;
use crate::stop::Stop;
use std::collections::BTreeMap;

/// The arguments after the sub-command's name.
#[derive(Debug, Default)]
pub struct Arguments {
    flags: Vec<String>,
    options: BTreeMap<String, String>,
    /// Whatever is neither a flag nor an option, in order.
    pub rest: Vec<String>,
}

impl Arguments {
    /// Reads the arguments, given the flags and the options that the
    /// sub-command has, each with its dashes: `--json`, `-o`. An option is given once at
    /// most. After `--` nothing is an option.
    pub fn read(given: &[String], flags: &[&str], options: &[&str]) -> Result<Arguments, Stop> {
        let mut arguments = Arguments::default();
        let mut given = given.iter();
        while let Some(word) = given.next() {
            if word == "--" {
                arguments.rest.extend(given.cloned());
                break;
            }
            let (name, joined) = match word.split_once('=') {
                Some((name, value)) if name.starts_with("--") => (name, Some(value.to_string())),
                _ => (word.as_str(), None),
            };
            if flags.contains(&name) {
                if let Some(value) = joined {
                    let plain = format!("{name} takes no value; write {name} without `={value}`");
                    return Err(Stop::Usage(plain));
                }
                arguments.flags.push(name.to_string());
            } else if options.contains(&name) {
                let value = joined.or_else(|| given.next().cloned());
                let value = value.filter(|value| !value.is_empty());
                let value = value.ok_or_else(|| Stop::Usage(format!("{name} needs a value")))?;
                if let Some(first) = arguments.options.get(name) {
                    let twice =
                        format!("{name} is given twice, `{first}` and `{value}`; give it once");
                    return Err(Stop::Usage(twice));
                }
                arguments.options.insert(name.to_string(), value);
            } else if name.len() > 1 && name.starts_with('-') {
                let known = flags.iter().chain(options).copied();
                let hint = did_you_mean(name, known);
                return Err(Stop::Usage(format!("no option {name} here{hint}")));
            } else {
                arguments.rest.push(word.clone());
            }
        }
        Ok(arguments)
    }

    /// Whether a flag was given.
    pub fn has(&self, flag: &str) -> bool {
        self.flags.iter().any(|given| given == flag)
    }

    /// The value of an option, if it was given.
    pub fn option(&self, name: &str) -> Option<&str> {
        self.options.get(name).map(String::as_str)
    }

    /// The one argument that is due, named for the message.
    pub fn one(&self, name: &str) -> Result<&str, Stop> {
        match &self.rest[..] {
            [only] => Ok(only),
            [] => Err(Stop::Usage(format!("give {name}"))),
            [_, second, ..] => {
                Err(Stop::Usage(format!("give one argument, {name}; `{second}` is one too many")))
            }
        }
    }
}

#[cfg(test)]
mod tests {
    use super::*;

    fn read(given: &[&str]) -> Result<Arguments, Stop> {
        let given: Vec<String> = given.iter().map(|word| word.to_string()).collect();
        Arguments::read(&given, &["--json"], &["-o", "--save"])
    }

    #[test]
    fn flags_options_and_the_rest() {
        let arguments = read(&["a", "--json", "-o", "b", "--save=c"]).unwrap();
        assert!(arguments.has("--json"));
        assert_eq!(arguments.option("-o"), Some("b"));
        assert_eq!(arguments.option("--save"), Some("c"));
        assert_eq!(arguments.one("FILE").unwrap(), "a");
    }

    #[test]
    fn after_two_dashes_all_are_names() {
        let arguments = read(&["--json", "--", "--save", "--", "-o"]).unwrap();
        assert!(arguments.has("--json"));
        assert_eq!(arguments.rest, ["--save", "--", "-o"]);
    }

    #[test]
    fn mistakes() {
        let said = |given: &[&str]| read(given).unwrap_err().to_string();
        assert_eq!(said(&["--jsn"]), "no option --jsn here; did you mean `--json`?");
        assert_eq!(said(&["--json=1"]), "--json takes no value; write --json without `=1`");
        assert_eq!(said(&["--json="]), "--json takes no value; write --json without `=`");
        assert_eq!(said(&["-o"]), "-o needs a value");
        assert_eq!(said(&["--save="]), "--save needs a value");
        let twice = "--save is given twice, `a` and `b`; give it once";
        assert_eq!(said(&["--save", "a", "c", "--save=b"]), twice);
        assert!(read(&["--json", "--json", "-o", "a", "--", "-o", "b"]).is_ok());
        assert!(read(&[]).unwrap().one("FILE").is_err());
        assert!(read(&["a", "b"]).unwrap().one("FILE").is_err());
    }
}
