//! Names and data in wire form, and their texts (RFC 1035, 3.1, 3.3 and 5.1).

use crate::calls::{self, filled};
use crate::error::Error;

/// How many bytes a name has at most in wire form (RFC 1035, 2.3.4).
const LONGEST_NAME: usize = 255;

/// The name of a text in wire form, taken as absolute; [`name`](crate::name) at place 0 reads it.
///
/// # Errors
///
/// [`Error::NoOrigin`] for a name without bytes, and [`Error::BadText`] for a text that is no name.
pub fn name_wire(name: &str) -> Result<Vec<u8>, Error> {
    filled(LONGEST_NAME, |out, cap, needed| {
        // SAFETY: `filled` hands in a buffer of its own, and the name is borrowed for the call.
        unsafe { calls::fuzsbanel_name_wire(name.as_ptr(), name.len(), out, cap, needed) }
    })
}

/// The data of a type that a text is, in wire form: what stands after the type in zone text. Names end in the root, and are
/// written without compression.
///
/// # Errors
///
/// The text's first fault; [`Error::NotOneSet`] for one that goes on with other records; [`Error::TooLong`].
pub fn data_wire(record_type: u16, text: &str) -> Result<Vec<u8>, Error> {
    filled(512, |out, cap, needed| {
        // SAFETY: as in `name_wire`.
        unsafe {
            calls::fuzsbanel_data_wire(record_type, text.as_ptr(), text.len(), out, cap, needed)
        }
    })
}

/// The text of the data of a type that these bytes are.
///
/// # Errors
///
/// [`Error::BadData`] for bytes that are no data of the type, and [`Error::TooLong`] for more than 65,535.
pub fn wire_text(record_type: u16, octets: &[u8]) -> Result<String, Error> {
    calls::text(filled(512, |out, cap, needed| {
        // SAFETY: as in `name_wire`.
        unsafe {
            calls::fuzsbanel_wire_text(record_type, octets.as_ptr(), octets.len(), out, cap, needed)
        }
    })?)
}
