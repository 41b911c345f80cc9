//! The mnemonics of types, classes and response codes (RFC 1035, 3.2; RFC 6895, 2.3), and the version.

use crate::calls::{self, filled};
use crate::error::Error;

/// How many bytes the longest mnemonic has at most.
const LONGEST: usize = 16;

type Number = unsafe extern "C" fn(*const u8, usize) -> i64;
type Text = unsafe extern "C" fn(u16, *mut u8, usize, *mut usize) -> i64;

/// The version of the library: major, minor, patch.
#[must_use]
pub fn version() -> (u32, u32, u32) {
    // SAFETY: the call takes nothing.
    let version = unsafe { calls::fuzsbanel_version() };
    (version / 1_000_000, version / 1_000 % 1_000, version % 1_000)
}

/// The number of the record type of a text, in letters of either case: its mnemonic, or `TYPE` and the number (RFC 3597, 5).
///
/// # Errors
///
/// [`Error::UnknownType`].
pub fn type_number(text: &str) -> Result<u16, Error> {
    number(calls::fuzsbanel_type_number, text)
}

/// The mnemonic of the record type of a number, else `TYPE` and the number.
///
/// # Errors
///
/// That memory ran out.
pub fn type_text(record_type: u16) -> Result<String, Error> {
    text(calls::fuzsbanel_type_text, record_type)
}

/// The number of the class of a text, in letters of either case: its mnemonic, `*` for ANY, or `CLASS` and the number.
///
/// # Errors
///
/// [`Error::NoMnemonic`].
pub fn class_number(text: &str) -> Result<u16, Error> {
    number(calls::fuzsbanel_class_number, text)
}

/// The mnemonic of the class of a number, else `CLASS` and the number.
///
/// # Errors
///
/// That memory ran out.
pub fn class_text(class: u16) -> Result<String, Error> {
    text(calls::fuzsbanel_class_text, class)
}

/// The number of the response code of a text: its name, in letters of either case, or the number.
///
/// # Errors
///
/// [`Error::NoMnemonic`].
pub fn code_number(text: &str) -> Result<u16, Error> {
    number(calls::fuzsbanel_code_number, text)
}

/// The name of the response code of a number, else the number. 16 is `BADSIG`.
///
/// # Errors
///
/// That memory ran out.
pub fn code_text(code: u16) -> Result<String, Error> {
    text(calls::fuzsbanel_code_text, code)
}

/// The number that a call answers of a text, which is one of 16 bits.
fn number(call: Number, text: &str) -> Result<u16, Error> {
    // SAFETY: the pointer and the length are those of one text, which is borrowed for the call.
    let answer = unsafe { call(text.as_ptr(), text.len()) };
    Ok(calls::length(answer)? as u16)
}

/// The text that a call writes of a number.
fn text(call: Text, number: u16) -> Result<String, Error> {
    calls::text(filled(LONGEST, |out, cap, needed| {
        // SAFETY: `filled` hands in a buffer of its own.
        unsafe { call(number, out, cap, needed) }
    })?)
}
