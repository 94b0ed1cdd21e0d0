//! The command line.

/// How much is compared, and from which seed on.
#[derive(Clone, Copy, Debug, PartialEq, Eq)]
pub struct Options {
    pub calls: usize,
    pub files: usize,
    pub plans: usize,
    pub seed: u64,
}

/// What is run where nothing is said.
const DEFAULT: Options = Options { calls: 20_000, files: 5_000, plans: 5_000, seed: 1 };

impl Options {
    /// Whether every outcome has to come up.
    pub fn is_long(&self) -> bool {
        self.calls >= DEFAULT.calls && self.files >= DEFAULT.files && self.plans >= DEFAULT.plans
    }

    pub fn parse(arguments: impl Iterator<Item = String>) -> Result<Options, String> {
        let mut options = DEFAULT;
        let mut arguments = arguments;
        while let Some(name) = arguments.next() {
            let value = arguments.next().ok_or(format!("{name} needs a number"))?;
            let number: u64 = value.parse().map_err(|_| format!("{name} {value}: no number"))?;
            match name.as_str() {
                "--calls" => options.calls = number as usize,
                "--files" => options.files = number as usize,
                "--plans" => options.plans = number as usize,
                "--seed" => options.seed = number,
                _ => return Err(format!("{name} is unknown")),
            }
        }
        Ok(options)
    }
}

#[cfg(test)]
mod tests {
    use super::{Options, DEFAULT};

    fn parse(line: &str) -> Result<Options, String> {
        Options::parse(line.split_whitespace().map(String::from))
    }

    #[test]
    fn options_are_parsed() {
        assert_eq!(parse(""), Ok(DEFAULT));
        let given = Ok(Options { calls: 3, files: 4, plans: 6, seed: 5 });
        assert_eq!(parse("--calls 3 --files 4 --seed 5 --plans 6"), given);
        assert!(parse("--calls").is_err() && parse("--calls x").is_err());
        assert!(parse("--what 1").is_err());
    }
}
