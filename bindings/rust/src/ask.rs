//! Queries, NOTIFY, responses to queries, and what a response says (RFC 1035, 4.1; RFC 1996; RFC 2308, 5).

use crate::calls::{self, filled};
use crate::error::Error;

/// What a response says, as C has it.
#[repr(C)]
#[derive(Default)]
pub struct ResponseFound {
    negative_ttl: u32,
    max_payload: u16,
    has_negative_ttl: bool,
}

/// What a response says.
#[derive(Clone, Copy, Debug, PartialEq, Eq)]
pub struct Response {
    /// Whether it answers some question.
    pub answers: bool,
    /// For how many seconds the absence of an answer may be kept, if an SOA says so (RFC 2308, 5).
    pub negative_ttl: Option<u32>,
    /// How many bytes its sender takes, 512 at least (RFC 6891, 6.2.3).
    pub max_payload: u16,
}

/// What the response says that the bytes begin with.
///
/// # Errors
///
/// The message's first fault, and [`Error::Query`] for a query.
pub fn response(message: &[u8]) -> Result<Response, Error> {
    let mut found = ResponseFound::default();
    // SAFETY: the pointer and the length are those of one slice, and `found` is borrowed for the call.
    let answer =
        unsafe { calls::fuzsbanel_response(message.as_ptr(), message.len(), &mut found) };
    Ok(Response {
        answers: calls::length(answer)? != 0,
        negative_ttl: found.has_negative_ttl.then_some(found.negative_ttl),
        max_payload: found.max_payload,
    })
}

/// A query with one question (RFC 1035, 4.1.1 and 4.1.2). The name is taken as absolute. With a payload the query has
/// EDNS, which says that answers of so many bytes are taken, and of 512 at least (RFC 6891, 6.2.3).
///
/// # Errors
///
/// [`Error::NoOrigin`] for a name without bytes, and [`Error::BadText`] for a text that is no name.
pub fn build_query(
    id: u16,
    name: &str,
    record_type: u16,
    class: u16,
    recursion: bool,
    payload: Option<u16>,
) -> Result<Vec<u8>, Error> {
    let payload = payload.map_or(0, |bytes| bytes.max(512));
    filled(512, |out, cap, needed| {
        // SAFETY: `filled` hands in a buffer of its own, and the name is borrowed for the call.
        unsafe {
            calls::fuzsbanel_build_query(
                id,
                name.as_ptr(),
                name.len(),
                record_type,
                class,
                recursion,
                payload,
                out,
                cap,
                needed,
            )
        }
    })
}

/// The NOTIFY by which a server tells a secondary that the SOA of a zone may have changed (RFC 1996, 3). The secondary sends
/// it back as a response with its id.
///
/// # Errors
///
/// [`Error::NoOrigin`] for an origin without bytes, and [`Error::BadText`] for a text that is no name.
pub fn build_notify(id: u16, origin: &str) -> Result<Vec<u8>, Error> {
    filled(512, |out, cap, needed| {
        // SAFETY: `filled` hands in a buffer of its own, and the origin is borrowed for the call.
        unsafe {
            calls::fuzsbanel_build_notify(id, origin.as_ptr(), origin.len(), out, cap, needed)
        }
    })
}

/// What a response says, each field none unless it is set: the code, AA and RA, and the zone texts of its sections, whose
/// relative names end in the root.
#[derive(Clone, Copy, Debug, Default, PartialEq, Eq)]
pub struct Reply<'a> {
    /// The response code.
    pub code: u16,
    /// Whether the server is an authority for the name (AA).
    pub authoritative: bool,
    /// Whether the server asks others (RA).
    pub recursion_available: bool,
    /// The answers.
    pub answers: &'a str,
    /// The authorities.
    pub authorities: &'a str,
    /// The additional records.
    pub additionals: &'a str,
}

/// The response to a query. In each section records of type CNAME stand first, and all in the order of owners and types.
/// `most` is how many bytes a datagram may have, where the query's EDNS has an own say too; of `None` a stream carries it.
///
/// # Errors
///
/// The query's first fault, and [`Error::NotAQuery`] for a response; the first fault of a zone text; [`Error::NotOnWire`] for
/// a code that has no bits, or a record that no section has; [`Error::Questions`].
pub fn build_response(query: &[u8], reply: &Reply, most: Option<u16>) -> Result<Vec<u8>, Error> {
    filled(512, |out, cap, needed| {
        // SAFETY: `filled` hands in a buffer of its own, and the bytes and texts are borrowed for the call.
        unsafe {
            calls::fuzsbanel_build_response(
                query.as_ptr(),
                query.len(),
                reply.code,
                reply.authoritative,
                reply.recursion_available,
                reply.answers.as_ptr(),
                reply.answers.len(),
                reply.authorities.as_ptr(),
                reply.authorities.len(),
                reply.additionals.as_ptr(),
                reply.additionals.len(),
                most.unwrap_or(u16::MAX),
                most.is_none(),
                out,
                cap,
                needed,
            )
        }
    })
}
