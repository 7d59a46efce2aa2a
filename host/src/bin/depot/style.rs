//! Colour: on a terminal alone, and not where NO_COLOR is set.
use std::env;
use std::io::{self, IsTerminal};

/// Whether standard output takes colour.
#[derive(Clone, Copy)]
pub struct Style {
    colour: bool,
}

impl Style {
    pub fn of_output() -> Style {
        let refused = env::var_os("NO_COLOR").is_some_and(|value| !value.is_empty());
        Style { colour: !refused && io::stdout().is_terminal() }
    }

    fn with(self, code: &str, text: &str) -> String {
        if self.colour {
            return format!("\x1b[{code}m{text}\x1b[0m");
        }
        text.into()
    }

    pub fn bold(self, text: &str) -> String {
        self.with("1", text)
    }

    pub fn bad(self, text: &str) -> String {
        self.with("1;33", text)
    }

    pub fn quiet(self, text: &str) -> String {
        self.with("2", text)
    }
}
