//! Colour.

use std::io;

use bib::check::Level;

use crate::progress::is_terminal;

/// When there is to be colour.
#[derive(Debug, Clone, Copy, PartialEq, Eq, Default)]
pub enum Color {
    /// On a terminal, unless the variable NO_COLOR asks for none.
    #[default]
    Auto,
    Always,
    Never,
}

impl Color {
    pub const NAMES: [&'static str; 3] = ["auto", "always", "never"];

    pub fn named(name: &str) -> Option<Self> {
        match name {
            "auto" => Some(Self::Auto),
            "always" => Some(Self::Always),
            "never" => Some(Self::Never),
            _ => None,
        }
    }

    fn is_wanted(self) -> bool {
        match self {
            Self::Always => true,
            Self::Never => false,
            Self::Auto => {
                let unwanted = std::env::var_os("NO_COLOR").is_some_and(|value| !value.is_empty());
                is_terminal(&io::stdout()) && !unwanted
            }
        }
    }
}

/// The codes around what is printed, each empty where there is to be no colour.
pub struct Style {
    pub bold: &'static str,
    pub plain: &'static str,
    error: &'static str,
    warning: &'static str,
}

impl Style {
    pub fn of(color: Color) -> Self {
        let is_wanted = color.is_wanted();
        let code = |code| if is_wanted { code } else { "" };
        Self {
            bold: code("\x1b[1m"),
            plain: code("\x1b[0m"),
            error: code("\x1b[1;31m"),
            warning: code("\x1b[1;33m"),
        }
    }

    pub fn level(&self, level: Level) -> &'static str {
        match level {
            Level::Error => self.error,
            Level::Warning => self.warning,
        }
    }
}
