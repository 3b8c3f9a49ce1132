//! The frame of a program: what a call asks for, and what the program says if it fails.

// What follows is the proved text of crates/cli/src/frame.rt without its contracts.
use hashers_proved::streams;
use hashers_proved::shim::{HostRuntime, String, eprintln, std};

use crate::cli::call::{Call, Misgiven};
use crate::cli::outcome::{Outcome, Words, behind_of, failure_of, status_of};
use crate::cli::quoted::in_quotes;
use crate::cli::reason::reason;
use std::alloc::{AllocError, Global};
use std::io::Error;
use streams::failure::Failure;

/// What a program says of itself.
#[derive(Clone, Copy)]
pub struct About<'a> {
    /// How it is called.
    pub help: &'a str,
    /// Which version it is.
    pub version: &'a str,
    /// What it can be asked to list, where there is such an option.
    pub list: &'a str,
}

/// One of these texts.
#[derive(Clone, Copy)]
pub enum Text {
    /// How the program is called.
    Help,
    /// Which version of the program this is.
    Version,
    /// What it can list.
    List,
}

/// What a call asks for.
#[derive(Clone, Copy)]
pub enum Request {
    /// Nothing: something is wrong with an option.
    Misgiven(Misgiven),
    /// To write a text.
    Text(Text),
    /// The program's work.
    Work,
}

/// What a call asks for.
///
/// Proved:
///
/// ```text
/// result ≡ request_of (sayings call.now.said.items)
/// ```
#[inline]
pub fn request_of(call: &Call<'_>) -> Request {
    if let Some((misgiven, _)) = call.wrong() {
        return Request::Misgiven(misgiven);
    }
    if call.gives(b"help") {
        return Request::Text(Text::Help);
    }
    if call.gives(b"version") {
        return Request::Text(Text::Version);
    }
    if call.gives(b"list") {
        return Request::Text(Text::List);
    }
    Request::Work
}

/// The word that gives the first option with which something is wrong, or its letter.
///
/// Proved:
///
/// ```text
/// option_map (λ word. word.now) result
///     ≡ option_map (λ wrong. wrong.1) (first_of (wrongs (sayings call.now.said.items)))
/// ```
#[inline]
pub fn wrong_word<'a>(call: &Call<'a>) -> Option<&'a [u8]> {
    match call.wrong() {
        Some((_, word)) => Some(word),
        None => None,
    }
}

/// That text.
///
/// Proved:
///
/// ```text
/// result.now ≡ text_of about.now.help.now about.now.version.now about.now.list.now text
/// ```
#[inline]
pub fn text_of<'a>(about: &About<'a>, text: Text) -> &'a [u8] {
    match text {
        Text::Help => about.help.as_bytes(),
        Text::Version => about.version.as_bytes(),
        Text::List => about.list.as_bytes(),
    }
}

/// What a program says of a failure.
#[derive(Clone, Copy)]
pub struct Complaint<'a> {
    /// The program's name.
    pub name: &'static str,
    /// What failed.
    pub failure: &'static str,
    /// The word that is wrong, in quotes, if there is one.
    pub word: Option<&'a str>,
    /// What is said behind it.
    pub behind: &'static str,
    /// What the system says, if it says anything.
    pub reason: Option<&'a str>,
    /// Whether the call was wrong.
    pub is_wrong_call: bool,
}

/// Puts a part behind some bytes, if there is one.
///
/// Proved:
///
/// ```text
/// OnOk result (string_bytes text.new
///     ≡ string_bytes text.old ++ part_of mark.now (option_map (λ part. part.now) part.entry))
/// ```
#[inline]
fn push_part(text: &mut String, mark: &str, part: Option<&str>) -> Result<(), AllocError> {
    match part {
        Some(part) => {
            text.push_str(mark)?;
            text.push_str(part)
        }
        None => Ok(()),
    }
}

/// Puts a name between some words.
///
/// Proved:
///
/// ```text
/// OnOk result (string_bytes text.new ≡ string_bytes text.old ++ (front.now ++ (name.now ++ behind.now)))
/// ```
#[inline]
fn push_between(text: &mut String, front: &str, name: &str, behind: &str) -> Result<(), AllocError> {
    text.push_str(front)?;
    text.push_str(name)?;
    text.push_str(behind)
}

/// Puts a line behind a wrong call that says how to learn more.
///
/// Proved:
///
/// ```text
/// OnOk result (string_bytes text.new ≡ string_bytes text.old ++ hint name.now is_wrong_call)
/// ```
#[inline]
fn push_hint(text: &mut String, name: &str, is_wrong_call: bool) -> Result<(), AllocError> {
    if !is_wrong_call {
        return Ok(());
    }
    push_between(text, "\nTry '", name, " --help' for more information.")
}

impl Complaint<'_> {
    /// Its text: a line, or two behind a wrong call.
    ///
    /// Proved:
    ///
    /// ```text
    /// IfOk result (λ text. string_bytes text ≡ complaint_of self.now.name.now self.now.failure.now
    ///     (option_map (λ word. word.now) self.now.word) self.now.behind.now
    ///     (option_map (λ reason. reason.now) self.now.reason)
    ///     self.now.is_wrong_call)
    /// ```
    #[inline]
    pub fn text(&self, alloc: Global) -> Result<String, AllocError> {
        let mut text = String::new(alloc);
        text.push_str(self.name)?;
        push_part(&mut text, ": ", Some(self.failure))?;
        push_part(&mut text, " ", self.word)?;
        text.push_str(self.behind)?;
        push_part(&mut text, ": ", self.reason)?;
        push_hint(&mut text, self.name, self.is_wrong_call)?;
        Ok(text)
    }
}

/// The error of the system behind a failure, if there is one.
#[inline]
fn error_of<Misuse, Own: Words>(outcome: &Outcome<Misuse, Own>) -> Option<&Error> {
    match outcome {
        Outcome::Failed(Failure::Unread(error)) => Some(error),
        Outcome::Failed(Failure::Unwritten(Some(error))) => Some(error),
        Outcome::Failed(Failure::Own(own)) => own.error(),
        _ => None,
    }
}

/// Says on standard error what failed, which word was wrong, and why, unless the run was to tell it, or nobody reads any more. Returns
/// the status that the program ends with.
///
/// Proved:
///
/// ```text
/// result ≡ status_of outcome.now
/// ```
#[inline]
pub fn ended<Misuse: Words, Own: Words>(
    rt: &HostRuntime,
    name: &'static str,
    outcome: &Outcome<Misuse, Own>,
    word: Option<&[u8]>,
) -> u8 {
    let alloc = rt.alloc();
    let status = status_of(outcome);
    let failure = failure_of(outcome);
    if failure.is_empty() || status == 141 {
        return status;
    }
    let quoted = word.and_then(|word| in_quotes(alloc, word).ok());
    let said = error_of(outcome).and_then(|error| reason(alloc, error).ok());
    let (word, behind, reason) = (quoted.as_deref(), behind_of(outcome), said.as_deref());
    let complaint = Complaint {
        name,
        failure,
        word,
        behind,
        reason,
        is_wrong_call: status == 2,
    };
    let _ = match complaint.text(alloc) {
        Ok(text) => eprintln!(rt; "{text}"),
        Err(_) => eprintln!(rt; "{name}: {failure}"),
    };
    status
}
