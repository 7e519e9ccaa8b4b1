//! The words of a command line.

use std::ffi::OsString;
use std::path::PathBuf;

#[derive(Debug, Default)]
pub struct Options {
    pub command: Command,
    pub is_json: bool,
    pub has_marks: bool,
    pub is_text: bool,
    pub is_luau: bool,
    pub function: Option<usize>,
    pub files: Vec<PathBuf>,
}

#[derive(Debug, Default, Clone, Copy, PartialEq, Eq)]
pub enum Command {
    #[default]
    Help,
    Check,
    Sheet,
    Graph,
    Labels,
    /// A line, and a column where one is named.
    Run((u32, Option<u32>)),
}

impl Command {
    /// The options that make a difference to the command.
    const fn options(self) -> &'static [&'static str] {
        match self {
            Self::Help => &[],
            Self::Check | Self::Labels => &["--json", "--marks", "--luau"],
            Self::Sheet => &["--text", "--function", "--luau"],
            Self::Graph => &["--function", "--luau"],
            Self::Run(_) => &["--luau"],
        }
    }
}

impl Options {
    pub fn parse(mut words: impl Iterator<Item = OsString>) -> Result<Self, String> {
        let mut options = Self::default();
        let command = words.next().ok_or("expected a command")?;
        let mut names = Vec::new();
        let mut given = Vec::new();
        let mut is_name = false;
        while let Some(word) = words.next() {
            match word.to_str() {
                Some("--") if !is_name => is_name = true,
                Some("--help" | "-h") if !is_name => return Ok(Self::default()),
                Some(option) if !is_name && option.starts_with('-') && option != "-" => {
                    options.option(option, &mut words)?;
                    given.push(option.to_owned());
                }
                _ => names.push(word),
            }
        }
        let command = command.to_string_lossy();
        options.command(&command, names)?;
        let taken = options.command.options();
        match given.iter().find(|option| !taken.contains(&option.as_str())) {
            Some(option) => Err(format!("{command} takes no {option}")),
            None => Ok(options),
        }
    }

    fn option(
        &mut self,
        option: &str,
        words: &mut impl Iterator<Item = OsString>,
    ) -> Result<(), String> {
        match option {
            "--json" => self.is_json = true,
            "--marks" => self.has_marks = true,
            "--text" => self.is_text = true,
            "--luau" => self.is_luau = true,
            "--function" => {
                let number = words.next().unwrap_or_default();
                let number = number.to_str().and_then(|number| number.parse().ok());
                self.function = Some(number.ok_or("expected a number after --function")?);
            }
            _ => return Err(format!("{option} is no option")),
        }
        Ok(())
    }

    fn command(&mut self, command: &str, mut names: Vec<OsString>) -> Result<(), String> {
        self.command = match command {
            "check" => Command::Check,
            "sheet" => Command::Sheet,
            "graph" => Command::Graph,
            "labels" => Command::Labels,
            "run" => {
                let word = names.pop().unwrap_or_default();
                let place = place(&word.to_string_lossy());
                Command::Run(place.ok_or("expected FILE and LINE[:COLUMN]")?)
            }
            "help" | "--help" | "-h" => return Ok(()),
            other => return Err(format!("{other} is no command")),
        };
        let takes_one = !matches!(self.command, Command::Check | Command::Labels);
        if names.is_empty() {
            return Err(format!("expected a file for {command}"));
        }
        if takes_one && names.len() > 1 {
            return Err(format!("expected one file for {command}"));
        }
        self.files = names.into_iter().map(PathBuf::from).collect();
        Ok(())
    }
}

/// `LINE` or `LINE:COLUMN`, both from 1.
fn place(word: &str) -> Option<(u32, Option<u32>)> {
    let number = |digits: &str| digits.parse().ok().filter(|number| *number > 0);
    match word.split_once(':') {
        Some((line, column)) => Some((number(line)?, Some(number(column)?))),
        None => Some((number(word)?, None)),
    }
}
