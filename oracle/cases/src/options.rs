//! A program's options: `--name value` and `--name`.

use std::collections::HashMap;

pub struct Options(HashMap<&'static str, String>);

impl Options {
    /// Reads the arguments, or says how they are used and ends the program. `valued` are the options
    /// that take a value, `bare` those that take none.
    pub fn read(usage: &str, valued: &[&'static str], bare: &[&'static str]) -> Options {
        let mut options = HashMap::new();
        let mut arguments = std::env::args().skip(1);
        while let Some(argument) = arguments.next() {
            let named = |name: &&&'static str| argument.strip_prefix("--") == Some(name);
            let value = match (valued.iter().find(named), bare.iter().find(named)) {
                (Some(&name), _) => arguments.next().map(|value| (name, value)),
                (_, Some(&name)) => Some((name, String::new())),
                _ => None,
            };
            let Some((name, value)) = value else {
                eprintln!("usage: {usage}");
                std::process::exit(2);
            };
            options.insert(name, value);
        }
        Options(options)
    }

    pub fn text(&self, name: &str) -> Option<&str> {
        self.0.get(name).map(String::as_str)
    }

    pub fn has(&self, name: &str) -> bool {
        self.0.contains_key(name)
    }

    pub fn number(&self, name: &str, otherwise: u64) -> u64 {
        let Some(text) = self.text(name) else { return otherwise };
        text.replace(['_', ','], "").parse().unwrap_or_else(|_| {
            eprintln!("--{name} {text}: not a number");
            std::process::exit(2)
        })
    }
}
