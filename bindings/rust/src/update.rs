//! Updates as bytes (RFC 2136, 2).
//!
//! The origin is the text of the zone's name, and a set the zone text of its records: all of one owner, in the zone, and of
//! one type. With `use_edns` the message takes answers of up to 1232 bytes.

use crate::calls::{self, filled};
use crate::error::Error;

/// How many bytes most updates fit in.
const ROOM: usize = 512;

/// The bytes that a builder of an update writes, of these texts and what comes after them.
macro_rules! built {
    ($call:ident, $id:expr, [$($text:expr),*], $($word:expr),*) => {
        filled(ROOM, |out, cap, needed| {
            // SAFETY: `filled` hands in a buffer of its own, and the texts are borrowed for the call.
            unsafe { calls::$call($id, $($text.as_ptr(), $text.len(),)* $($word,)* out, cap, needed) }
        })
    };
}

/// Creates a set, if the zone has none of that owner and type (2.4.3).
///
/// # Errors
///
/// The first fault of the texts; [`Error::NoOrigin`] for an empty origin; [`Error::Class`], [`Error::NotOneSet`],
/// [`Error::Outside`] and [`Error::Type`] for what isn't one set of the class IN in the zone, of a type that updates can
/// change; [`Error::NotOnWire`] for a relative name in data, and [`Error::TooLong`] for a message that has no room in
/// 65,535 bytes.
pub fn create(id: u16, origin: &str, set: &str, use_edns: bool) -> Result<Vec<u8>, Error> {
    built!(fuzsbanel_create, id, [origin, set], use_edns)
}

/// Adds records to a set; with `must_exist`, if the zone has one of that owner and type (2.4.1).
///
/// # Errors
///
/// Those of [`create`].
pub fn append(
    id: u16,
    origin: &str,
    set: &str,
    must_exist: bool,
    use_edns: bool,
) -> Result<Vec<u8>, Error> {
    built!(fuzsbanel_append, id, [origin, set], must_exist, use_edns)
}

/// Puts a set in the place of another, if the zone has exactly that (2.4.2).
///
/// # Errors
///
/// Those of [`create`].
pub fn compare_and_swap(
    id: u16,
    origin: &str,
    current: &str,
    next: &str,
    use_edns: bool,
) -> Result<Vec<u8>, Error> {
    built!(
        fuzsbanel_compare_and_swap,
        id,
        [origin, current, next],
        use_edns
    )
}

/// Takes the data of a set out of the zone (2.5.4).
///
/// # Errors
///
/// Those of [`create`].
pub fn delete_by_rdata(id: u16, origin: &str, set: &str, use_edns: bool) -> Result<Vec<u8>, Error> {
    built!(fuzsbanel_delete_by_rdata, id, [origin, set], use_edns)
}

/// Takes the set of an owner and a type out of the zone (2.5.2). A relative owner ends in the origin.
///
/// # Errors
///
/// [`Error::NoOrigin`] for an empty origin, [`Error::BadText`] for what is no name, [`Error::Outside`] for an owner
/// outside the zone, [`Error::Type`] for a type that no update here is of.
pub fn delete_rrset(
    id: u16,
    origin: &str,
    owner: &str,
    record_type: u16,
    use_edns: bool,
) -> Result<Vec<u8>, Error> {
    built!(
        fuzsbanel_delete_rrset,
        id,
        [origin, owner],
        record_type,
        use_edns
    )
}

/// Takes all sets of an owner out of the zone; at the origin SOA and NS stay (2.5.3).
///
/// # Errors
///
/// Those of [`delete_rrset`].
pub fn delete_all(id: u16, origin: &str, owner: &str, use_edns: bool) -> Result<Vec<u8>, Error> {
    built!(fuzsbanel_delete_all, id, [origin, owner], use_edns)
}

/// Asks for all of a zone (RFC 5936, 2.1), or for what changed since an SOA (RFC 1995, 3), which is zone text of one
/// record at the origin.
///
/// # Errors
///
/// Those of [`create`], but [`Error::NotSoa`] for a record that isn't an SOA at the origin.
pub fn zone_transfer(id: u16, origin: &str, last_soa: Option<&str>) -> Result<Vec<u8>, Error> {
    let last = last_soa.unwrap_or("");
    if last_soa.is_some() && last.is_empty() {
        return Err(Error::NotOneSet);
    }
    built!(fuzsbanel_zone_transfer, id, [origin, last],)
}
