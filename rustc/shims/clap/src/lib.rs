//! Rust's `clap`, with the allocator and the errors of Rattle's port.

use kit::alloc::{AllocError, Global};
use kit::heap::needing;
use kit::prelude::*;
use std::marker::PhantomData;
use std::sync::OnceLock;

pub use of_rust::ArgAction;

pub mod error {
    #[derive(Clone, Copy, PartialEq, Eq, Debug)]
    pub enum ErrorKind {
        OutOfMemory,
        DisplayHelp,
        DisplayVersion,
        InvalidSubcommand,
        Other,
    }
}

use error::ErrorKind;
use of_rust::error::ErrorKind as Kind;

/// What the program says of its version.
static VERSION: OnceLock<std::string::String> = OnceLock::new();

/// What is wrong with the words, or `None` if memory ran out.
pub struct Error(Option<of_rust::Error>);

impl Error {
    pub fn kind(&self) -> ErrorKind {
        match self.0.as_ref().map(|error| error.kind()) {
            None => ErrorKind::OutOfMemory,
            Some(Kind::DisplayHelp) => ErrorKind::DisplayHelp,
            Some(Kind::DisplayVersion) => ErrorKind::DisplayVersion,
            Some(Kind::InvalidSubcommand) => ErrorKind::InvalidSubcommand,
            Some(_) => ErrorKind::Other,
        }
    }

    pub fn to_string(&self, alloc: Global) -> Result<String, AllocError> {
        let error = self.0.as_ref().ok_or(AllocError)?;
        // before 4.1, clap had longer words for these two options
        let text = needing(|| {
            let text = error.to_string().replace("Print help information", "Print help");
            text.replace("Print version information", "Print version")
        });
        String::from_str(alloc, &text)
    }
}

impl From<AllocError> for Error {
    fn from(_error: AllocError) -> Error {
        Error(None)
    }
}

pub struct Arg<'a>(of_rust::Arg, PhantomData<&'a ()>);

impl<'a> Arg<'a> {
    pub fn new(_alloc: Global, id: &'static str) -> Arg<'a> {
        Arg(needing(|| of_rust::Arg::new(id)), PhantomData)
    }

    fn with(self, change: impl FnOnce(of_rust::Arg) -> of_rust::Arg) -> Arg<'a> {
        Arg(needing(|| change(self.0)), PhantomData)
    }

    pub fn help(self, text: &'static str) -> Arg<'a> {
        self.with(|arg| arg.help(text))
    }

    pub fn long(self, name: &'static str) -> Arg<'a> {
        self.with(|arg| arg.long(name))
    }

    pub fn value_name(self, name: &'static str) -> Arg<'a> {
        self.with(|arg| arg.value_name(name))
    }

    pub fn action(self, action: ArgAction) -> Arg<'a> {
        self.with(|arg| arg.action(action))
    }

    pub fn required(self, is_so: bool) -> Arg<'a> {
        self.with(|arg| arg.required(is_so))
    }

    pub fn required_unless_present_any(
        self,
        ids: &'static [&'static str],
    ) -> Result<Arg<'a>, AllocError> {
        Ok(self.with(|arg| arg.required_unless_present_any(ids.iter().copied())))
    }

    pub fn conflicts_with_all(self, ids: &'static [&'static str]) -> Result<Arg<'a>, AllocError> {
        Ok(self.with(|arg| arg.conflicts_with_all(ids.iter().copied())))
    }
}

pub struct Command<'a>(of_rust::Command, PhantomData<&'a ()>);

impl<'a> Command<'a> {
    pub fn new(_alloc: Global, name: &'static str) -> Command<'a> {
        Command(needing(|| of_rust::Command::new(name)), PhantomData)
    }

    fn with(self, change: impl FnOnce(of_rust::Command) -> of_rust::Command) -> Command<'a> {
        Command(needing(|| change(self.0)), PhantomData)
    }

    pub fn about(self, text: &'static str) -> Command<'a> {
        self.with(|command| command.about(text))
    }

    pub fn after_help(self, text: &'static str) -> Command<'a> {
        self.with(|command| command.after_help(text))
    }

    pub fn override_usage(self, text: &'static str) -> Command<'a> {
        self.with(|command| command.override_usage(text))
    }

    /// No one shall take this program for the proved one.
    pub fn version(self, text: &'static str) -> Command<'a> {
        let said = || VERSION.get_or_init(|| format!("{text} (not proved)")).as_str();
        self.with(|command| command.version(said()))
    }

    pub fn arg(self, arg: Arg<'a>) -> Result<Command<'a>, AllocError> {
        Ok(self.with(|command| command.arg(arg.0)))
    }

    pub fn subcommand(self, inner: Command<'a>) -> Result<Command<'a>, AllocError> {
        Ok(self.with(|command| command.subcommand(inner.0)))
    }

    pub fn try_get_matches_from(self, words: &'a [String]) -> Result<ArgMatches<'a>, Error> {
        let given = words.iter().map(|word| word.as_str().to_owned());
        needing(|| match self.0.try_get_matches_from(given) {
            Ok(matches) => Ok(ArgMatches::of(&matches, words)),
            Err(error) => Err(Error(Some(error))),
        })
    }
}

/// The texts of each argument that was met, and the subcommand.
pub struct ArgMatches<'a> {
    texts: std::vec::Vec<(std::string::String, std::vec::Vec<&'a str>)>,
    inner: Option<(std::string::String, Box<ArgMatches<'a>>)>,
}

impl<'a> ArgMatches<'a> {
    fn of(matches: &of_rust::ArgMatches, words: &'a [String]) -> ArgMatches<'a> {
        let mut texts = std::vec::Vec::new();
        for id in matches.ids() {
            let name = id.as_str();
            let met = match matches.try_get_many::<std::string::String>(name) {
                Ok(values) => values.into_iter().flatten().map(|it| part_of(words, it)).collect(),
                Err(_) => vec_of_flag(matches.get_flag(name)),
            };
            texts.push((name.to_owned(), met));
        }
        let inner = matches.subcommand();
        ArgMatches {
            texts,
            inner: inner.map(|(name, inner)| {
                (name.to_owned(), Box::new(ArgMatches::of(inner, words)))
            }),
        }
    }

    pub fn subcommand(&self) -> Option<(&str, &ArgMatches<'a>)> {
        self.inner.as_ref().map(|(name, inner)| (name.as_str(), &**inner))
    }

    pub fn get_strs(&self, id: &str) -> Option<&[&'a str]> {
        let found = self.texts.iter().find(|(name, _)| name == id);
        found.map(|(_, texts)| texts.as_slice())
    }

    pub fn get_str(&self, id: &str) -> Option<&'a str> {
        self.get_strs(id)?.first().copied()
    }
}

/// The value of an option or an argument, in the word that ends with it.
fn part_of<'a>(words: &'a [String], value: &str) -> &'a str {
    let mut words = words.iter().map(|word| word.as_str());
    let word = words.find(|word| word.ends_with(value)).expect("a value ends a word");
    &word[word.len() - value.len()..]
}

fn vec_of_flag<'a>(is_on: bool) -> std::vec::Vec<&'a str> {
    vec![if is_on { "true" } else { "false" }]
}
