//! DNS messages, zone text and updates, by the exports of a library that is proved to meet its contracts.
//!
//! Everything here is a call of `include/fuzsbanel.h`, whose comments say what each does; this crate adds slices, `Vec`s,
//! [`Error`] and iterators, and no logic of DNS. It depends on nothing.
//!
//! ```
//! let query = [0, 1, 1, 0, 0, 1, 0, 0, 0, 0, 0, 0, 1, b'a', 0, 0, 1, 0, 1];
//! assert_eq!(fuzsbanel::check(&query), Ok(19));
//! assert_eq!(fuzsbanel::check(&query[..18]), Err(fuzsbanel::Error::Short));
//! assert_eq!(fuzsbanel::cut(&query, 512)?, query);
//! let zone = fuzsbanel::zone("example.", "www 300 A 192.0.2.1")?;
//! assert_eq!(zone, "$ORIGIN example.\nwww.example. 300 IN A 192.0.2.1\n");
//! # Ok::<(), fuzsbanel::Error>(())
//! ```

mod ask;
mod calls;
mod error;
mod held;
mod mnemonic;
mod update;
mod walk;
mod wire_form;

pub use ask::{build_notify, build_query, build_response, response, Reply, Response};
pub use error::Error;
pub use held::{Applied, Transfer, Zone};
pub use mnemonic::{
    class_number, class_text, code_number, code_text, type_number, type_text, version,
};
pub use update::{
    append, compare_and_swap, create, delete_all, delete_by_rdata, delete_rrset, zone_transfer,
};
pub use walk::{
    data_text, header, name, options, queries, query, record, records, walk, EdnsOption, Header,
    Options, Query, Record, Section, Walk,
};
pub use wire_form::{data_wire, name_wire, wire_text};

use calls::filled;
use std::fmt;

/// How many bytes the message takes that the bytes begin with (RFC 1035, 4.1).
///
/// # Errors
///
/// The message's first fault.
pub fn check(message: &[u8]) -> Result<usize, Error> {
    // SAFETY: the pointer and the length are those of one slice, which is borrowed for the call.
    let answer = unsafe { calls::fuzsbanel_check(message.as_ptr(), message.len()) };
    calls::length(answer)
}

/// The message that the bytes begin with, written again in at most `limit` bytes: what doesn't fit is left out, and TC
/// says so (RFC 2181, 9).
///
/// # Errors
///
/// The message's first fault; [`Error::Limit`] and [`Error::Questions`] for a limit without room.
pub fn cut(message: &[u8], limit: u16) -> Result<Vec<u8>, Error> {
    filled(usize::from(limit), |out, cap, needed| {
        // SAFETY: `filled` hands in a buffer of its own, and the rest is of slices that are borrowed for the call.
        unsafe { calls::fuzsbanel_cut(message.as_ptr(), message.len(), limit, out, cap, needed) }
    })
}

/// The text of the message that the bytes begin with.
///
/// # Errors
///
/// The message's first fault.
pub fn text(message: &[u8]) -> Result<String, Error> {
    calls::text(filled(4096, |out, cap, needed| {
        // SAFETY: as in `cut`.
        unsafe { calls::fuzsbanel_text(message.as_ptr(), message.len(), out, cap, needed) }
    })?)
}

/// The zone of a text, as zone text: its origin, and each record on a line of its own, in the order of owners and types
/// (RFC 1035, 5.1). An empty `origin` is none. Types may stand as `TYPE` and their number too, and data of any type in the
/// generic form (RFC 3597, 5). What comes can be read again.
///
/// # Errors
///
/// The text's first fault, and [`Error::NotOnWire`] for a relative name in data.
pub fn zone(origin: &str, text: &str) -> Result<String, Error> {
    calls::text(filled(2 * text.len(), |out, cap, needed| {
        // SAFETY: as in `cut`.
        unsafe {
            calls::fuzsbanel_zone(
                origin.as_ptr(),
                origin.len(),
                text.as_ptr(),
                text.len(),
                out,
                cap,
                needed,
            )
        }
    })?)
}

/// A fault of zone text.
#[derive(Clone, Debug, PartialEq, Eq)]
pub struct Fault {
    /// The refusal.
    pub error: Error,
    /// The name of the included text that the fault stands in; empty of the text itself.
    pub name: String,
    /// The line, from 1.
    pub line: usize,
    /// The column, from 1, in bytes.
    pub column: usize,
    /// What the fault is, in words.
    pub words: String,
}

/// Why a zone isn't opened.
#[derive(Clone, Debug, PartialEq, Eq)]
pub struct ZoneError {
    /// The refusal.
    pub error: Error,
    /// The fault of the zone's text, where that is refused.
    pub fault: Option<Fault>,
}

impl fmt::Display for ZoneError {
    fn fmt(&self, f: &mut fmt::Formatter<'_>) -> fmt::Result {
        let Some(fault) = &self.fault else {
            return self.error.fmt(f);
        };
        let of_text = if fault.name.is_empty() { "" } else { " of " };
        let (line, column) = (fault.line, fault.column);
        write!(
            f,
            "line {line}, column {column}{of_text}{}: {}",
            fault.name, fault.words
        )
    }
}

impl std::error::Error for ZoneError {}

impl From<ZoneError> for Error {
    fn from(e: ZoneError) -> Error {
        e.error
    }
}

/// The first fault of a zone's text, if it has one. An empty `origin` is none; `included` are the texts that may be
/// included, each after its name.
///
/// # Errors
///
/// [`Error::BadText`] for an origin that is no name.
pub fn zone_check(
    origin: &str,
    text: &str,
    included: &[(&str, &str)],
) -> Result<Option<Fault>, Error> {
    let (lengths, bytes) = calls::crossing(included);
    let told = told(|name, words, found| {
        // SAFETY: as in `cut`; the buffers and what is found are borrowed for the call.
        unsafe {
            calls::fuzsbanel_zone_check(
                origin.as_ptr(),
                origin.len(),
                text.as_ptr(),
                text.len(),
                lengths.as_ptr(),
                lengths.len(),
                bytes.as_ptr(),
                bytes.len(),
                name.as_mut_ptr(),
                name.len(),
                words.as_mut_ptr(),
                words.len(),
                found,
            )
        }
    });
    match told {
        Ok(()) => Ok(None),
        Err(ZoneError {
            fault: Some(fault), ..
        }) => Ok(Some(fault)),
        Err(ZoneError { error, .. }) => Err(error),
    }
}

/// What a call tells that says where zone text is refused, made again until its name and words have room.
pub(crate) fn told(
    mut call: impl FnMut(&mut [u8], &mut [u8], &mut calls::FaultFound) -> i64,
) -> Result<(), ZoneError> {
    let (mut name, mut words) = (Vec::new(), Vec::new());
    let mut found = calls::FaultFound::default();
    loop {
        let answer = call(&mut name, &mut words, &mut found);
        let Err(error) = calls::length(answer) else {
            return Ok(());
        };
        if found.line == 0 {
            return Err(ZoneError { error, fault: None });
        }
        if found.name_len <= name.len() && found.words_len <= words.len() {
            name.truncate(found.name_len);
            words.truncate(found.words_len);
            let fault = Fault {
                error,
                name: String::from_utf8_lossy(&name).into_owned(),
                line: found.line,
                column: found.column,
                words: String::from_utf8_lossy(&words).into_owned(),
            };
            return Err(ZoneError {
                error,
                fault: Some(fault),
            });
        }
        name = vec![0; found.name_len];
        words = vec![0; found.words_len];
    }
}

/// What a server makes of an update and the zone of a text: a line with its code, and the zone then (RFC 2136, 3).
///
/// # Errors
///
/// The update's first fault, the text's, and [`Error::Class`] for a zone of another class than IN.
pub fn apply(update: &[u8], origin: &str, text: &str) -> Result<String, Error> {
    calls::text(filled(2 * text.len(), |out, cap, needed| {
        // SAFETY: as in `cut`.
        unsafe {
            calls::fuzsbanel_apply(
                update.as_ptr(),
                update.len(),
                origin.as_ptr(),
                origin.len(),
                text.as_ptr(),
                text.len(),
                out,
                cap,
                needed,
            )
        }
    })?)
}
