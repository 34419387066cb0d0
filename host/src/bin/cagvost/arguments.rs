//! The words of a command line.

use std::str::FromStr;

/// Options and what stands beside them.
pub struct Arguments {
    /// The options that have a value, with it, and those that have none.
    options: Vec<(String, Option<String>)>,
    /// Everything else, in order: names of files, `-` for standard input.
    pub names: Vec<String>,
}

impl Arguments {
    /// Sorts the words. An option's value is the next word or, behind `=`, a part of the same one.
    /// After `--` there are no options.
    pub fn read(words: &[&str], values: &[&str], flags: &[&str]) -> Result<Arguments, String> {
        let (mut options, mut names) = (Vec::<(String, Option<String>)>::new(), Vec::new());
        let mut words = words.iter().copied();
        while let Some(word) = words.next() {
            if word == "--" {
                names.extend(words.by_ref().map(str::to_string));
            } else if word == "-" || !word.starts_with('-') {
                names.push(word.to_string());
            } else {
                let (name, joined) = match word.split_once('=') {
                    Some((name, value)) => (name, Some(value)),
                    None => (word, None),
                };
                let value = if values.contains(&name) {
                    let value = joined.or_else(|| words.next());
                    let value = value.filter(|value| !value.is_empty());
                    Some(value.ok_or(format!("{name} needs a value"))?.to_string())
                } else if flags.contains(&name) && joined.is_none() {
                    None
                } else {
                    return Err(format!("there is no option {word}"));
                };
                if options.iter().any(|(given, _)| given == name) {
                    return Err(format!("{name} is given twice"));
                }
                options.push((name.to_string(), value));
            }
        }
        Ok(Arguments { options, names })
    }

    /// Whether an option without a value is given.
    pub fn has(&self, name: &str) -> bool {
        self.options.iter().any(|(given, _)| given == name)
    }

    /// The value of an option, if it is given.
    pub fn value(&self, name: &str) -> Option<&str> {
        let found = self.options.iter().find(|(given, _)| given == name);
        found.and_then(|(_, value)| value.as_deref())
    }

    /// The value of an option as what it should be, if it is given.
    pub fn parsed<T: FromStr>(&self, name: &str, expected: &str) -> Result<Option<T>, String> {
        let parse = |value: &str| {
            let parsed = value.parse();
            parsed.map_err(|_| format!("{name} is '{value}', and should be {expected}"))
        };
        self.value(name).map(parse).transpose()
    }

    /// The only name.
    pub fn only_name(&self, what: &str) -> Result<&str, String> {
        match self.names.as_slice() {
            [name] => Ok(name),
            [] => Err(format!("it needs {what}, or - for standard input")),
            _ => Err(format!("it takes {what} and nothing else")),
        }
    }
}

#[cfg(test)]
mod tests {
    use super::*;

    fn read(line: &str) -> Result<Arguments, String> {
        let words: Vec<&str> = line.split(' ').collect();
        Arguments::read(&words, &["--shots", "-o"], &["--state"])
    }

    #[test]
    fn options_and_names_are_told_apart() {
        let arguments = read("a --shots 12 --state - -o=b").expect("good words");
        assert_eq!(arguments.names, ["a", "-"]);
        assert_eq!(arguments.parsed("--shots", "a number"), Ok(Some(12)));
        assert!(arguments.has("--state"));
        assert_eq!(arguments.value("-o"), Some("b"));
        let arguments = read("-- --state -o").expect("names alone");
        assert_eq!(arguments.names, ["--state", "-o"]);
        assert!(!arguments.has("--state"));
    }

    #[test]
    fn what_is_no_option_is_said() {
        for (line, words) in [
            ("a --shot 12", "there is no option --shot"),
            ("a --state=1", "there is no option --state=1"),
            ("a --shots", "--shots needs a value"),
            ("a --shots=", "--shots needs a value"),
            ("--state --state", "--state is given twice"),
            ("--shots 1 --shots=2", "--shots is given twice"),
        ] {
            assert_eq!(read(line).err().as_deref(), Some(words), "{line}");
        }
        let arguments = read("a b --shots x").expect("good words");
        assert!(arguments.parsed::<u64>("--shots", "a number").is_err());
        assert!(arguments.only_name("a circuit").is_err());
    }
}
