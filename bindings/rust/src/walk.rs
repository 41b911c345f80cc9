//! Messages walked where they stand: what is found borrows the caller's bytes.

use crate::calls::{self, filled, NO_ROOM};
use crate::error::Error;

/// How many bytes the text of a name has at most: 250 that are escaped, and the dots of four labels.
const LONGEST_NAME: usize = 1004;

/// The fields of a header, its counts among them (RFC 1035, 4.1.1).
#[repr(C)]
#[derive(Clone, Copy, Debug, Default, PartialEq, Eq)]
#[allow(missing_docs)]
pub struct Header {
    pub id: u16,
    pub queries: u16,
    pub answers: u16,
    pub authorities: u16,
    pub additionals: u16,
    pub opcode: u8,
    pub rcode: u8,
    pub response: bool,
    pub authoritative: bool,
    pub truncated: bool,
    pub recursion_desired: bool,
    pub recursion_available: bool,
    pub authentic_data: bool,
    pub checking_disabled: bool,
}

#[repr(C)]
#[derive(Default)]
pub struct QueryFound {
    name: usize,
    query_type: u16,
    class: u16,
}

#[repr(C)]
#[derive(Clone, Copy, Default)]
pub struct RecordFound {
    name: usize,
    data: usize,
    ttl: u32,
    record_type: u16,
    class: u16,
    data_len: u16,
}

#[repr(C)]
#[derive(Clone, Copy, Default)]
pub struct ItemFound {
    record: RecordFound,
    name: usize,
    name_len: u8,
    section: u8,
}

#[repr(C)]
#[derive(Default)]
pub struct Room {
    items: usize,
    names: usize,
}

#[repr(C)]
#[derive(Default)]
pub struct OptionFound {
    data: usize,
    code: u16,
    data_len: u16,
}

/// A question (RFC 1035, 4.1.2).
#[derive(Clone, Copy, Debug, PartialEq, Eq)]
pub struct Query {
    /// The place of its name in the message, where the question begins.
    pub name: usize,
    /// QTYPE.
    pub query_type: u16,
    /// The class field, with its top bit (RFC 6762, 5.4).
    pub class: u16,
}

/// A record (RFC 1035, 4.1.3).
#[derive(Clone, Copy, Debug, PartialEq, Eq)]
pub struct Record<'a> {
    /// The place of its owner in the message, where the record begins.
    pub name: usize,
    /// The type.
    pub record_type: u16,
    /// The class field, with its top bit (RFC 6762, 10.2).
    pub class: u16,
    /// The TTL, in seconds.
    pub ttl: u32,
    /// The place of its data in the message. A name within the data is read by [`name`] at its own place.
    pub data_place: usize,
    /// The data as it stands, whose names may point elsewhere into the message.
    pub data: &'a [u8],
}

/// An EDNS option (RFC 6891, 6.1.2).
#[derive(Clone, Copy, Debug, PartialEq, Eq)]
pub struct EdnsOption<'a> {
    /// The code.
    pub code: u16,
    /// The data.
    pub data: &'a [u8],
}

/// A section of records (RFC 1035, 4.1).
#[derive(Clone, Copy, Debug, PartialEq, Eq, PartialOrd, Ord, Hash)]
#[allow(missing_docs)]
pub enum Section {
    Answer,
    Authority,
    Additional,
}

/// The header that the bytes begin with.
///
/// # Errors
///
/// [`Error::Short`].
pub fn header(message: &[u8]) -> Result<Header, Error> {
    let mut header = Header::default();
    // SAFETY: the slice and the header are borrowed for the call, and don't overlap.
    calls::length(unsafe {
        calls::fuzsbanel_header(message.as_ptr(), message.len(), &mut header)
    })?;
    Ok(header)
}

/// The text of the name at a place of the message, or of a name that [`Walk`] has, at place 0.
///
/// # Errors
///
/// [`Error::Short`] and [`Error::BadName`].
pub fn name(message: &[u8], place: usize) -> Result<String, Error> {
    calls::text(filled(LONGEST_NAME, |out, cap, needed| {
        // SAFETY: `filled` hands in a buffer of its own.
        unsafe { calls::fuzsbanel_name(message.as_ptr(), message.len(), place, out, cap, needed) }
    })?)
}

/// The text of the data of the record at a place of the message, as [`text`](crate::text) has it.
///
/// # Errors
///
/// The first fault of the record.
pub fn data_text(message: &[u8], place: usize) -> Result<String, Error> {
    calls::text(filled(LONGEST_NAME, |out, cap, needed| {
        // SAFETY: `filled` hands in a buffer of its own.
        unsafe {
            calls::fuzsbanel_data_text(message.as_ptr(), message.len(), place, out, cap, needed)
        }
    })?)
}

/// The question at a place of the message, and the place after it. The first stands at 12.
///
/// # Errors
///
/// [`Error::Short`] and [`Error::BadName`].
pub fn query(message: &[u8], place: usize) -> Result<(Query, usize), Error> {
    let mut found = QueryFound::default();
    // SAFETY: as in `header`.
    let end = calls::length(unsafe {
        calls::fuzsbanel_query(message.as_ptr(), message.len(), place, &mut found)
    })?;
    Ok((
        Query {
            name: found.name,
            query_type: found.query_type,
            class: found.class,
        },
        end,
    ))
}

/// The record at a place of the message, and the place after it. The first stands after the last question.
///
/// # Errors
///
/// The first fault of the record.
pub fn record(message: &[u8], place: usize) -> Result<(Record<'_>, usize), Error> {
    let mut found = RecordFound::default();
    // SAFETY: as in `header`.
    let end = calls::length(unsafe {
        calls::fuzsbanel_record(message.as_ptr(), message.len(), place, &mut found)
    })?;
    Ok((record_of(message, &found), end))
}

fn record_of<'a>(message: &'a [u8], found: &RecordFound) -> Record<'a> {
    Record {
        name: found.name,
        record_type: found.record_type,
        class: found.class,
        ttl: found.ttl,
        data_place: found.data,
        data: &message[found.data..found.data + usize::from(found.data_len)],
    }
}

fn option_at(data: &[u8], place: usize) -> Result<(EdnsOption<'_>, usize), Error> {
    let mut found = OptionFound::default();
    // SAFETY: as in `header`.
    let end = calls::length(unsafe {
        calls::fuzsbanel_option(data.as_ptr(), data.len(), place, &mut found)
    })?;
    let option = EdnsOption {
        code: found.code,
        data: &data[found.data..found.data + usize::from(found.data_len)],
    };
    Ok((option, end))
}

/// A message that was walked whole: its questions and its records, each with its name in wire form.
pub struct Walk<'a> {
    message: &'a [u8],
    queries: Vec<ItemFound>,
    records: Vec<ItemFound>,
    names: Vec<u8>,
    end: usize,
}

/// Walks the message that the bytes begin with, at the cost of its bytes.
///
/// # Errors
///
/// The first fault of the header, the questions and the records. What [`check`](crate::check) refuses besides, as a
/// second OPT record, isn't tested.
pub fn walk(message: &[u8]) -> Result<Walk<'_>, Error> {
    let (mut items, mut names, mut needed) = (Vec::new(), Vec::new(), Room::default());
    loop {
        // SAFETY: the buffers are this function's own, and the message is borrowed for the call.
        let answer = unsafe {
            calls::fuzsbanel_walk(
                message.as_ptr(),
                message.len(),
                items.as_mut_ptr(),
                items.len(),
                names.as_mut_ptr(),
                names.len(),
                &mut needed,
            )
        };
        if answer != NO_ROOM {
            let end = calls::length(answer)?;
            let records = items.split_off(
                items
                    .iter()
                    .position(|item: &ItemFound| item.section != 0)
                    .unwrap_or(items.len()),
            );
            return Ok(Walk {
                message,
                queries: items,
                records,
                names,
                end,
            });
        }
        items = vec![ItemFound::default(); needed.items];
        names = vec![0; needed.names];
    }
}

impl<'a> Walk<'a> {
    /// The place after the message.
    #[must_use]
    pub fn end(&self) -> usize {
        self.end
    }

    /// The questions in their order, each with its name in wire form.
    pub fn queries(&self) -> impl ExactSizeIterator<Item = (Query, &[u8])> {
        self.queries.iter().map(|item| {
            let query = Query {
                name: item.record.name,
                query_type: item.record.record_type,
                class: item.record.class,
            };
            (query, self.name_of(item))
        })
    }

    /// The records of all sections in their order, OPT and TSIG among them, each with its section and its owner in wire
    /// form.
    pub fn records(&self) -> impl ExactSizeIterator<Item = (Section, Record<'a>, &[u8])> {
        self.records.iter().map(|item| {
            let section = match item.section {
                1 => Section::Answer,
                2 => Section::Authority,
                _ => Section::Additional,
            };
            let record = record_of(self.message, &item.record);
            (section, record, self.name_of(item))
        })
    }

    fn name_of(&self, item: &ItemFound) -> &[u8] {
        &self.names[item.name..item.name + usize::from(item.name_len)]
    }
}

/// The questions that the header counts.
///
/// # Errors
///
/// Those of [`walk`].
pub fn queries(message: &[u8]) -> Result<Vec<Query>, Error> {
    Ok(walk(message)?.queries().map(|(query, _)| query).collect())
}

/// The records of all sections that the header counts, one after the other, OPT and TSIG among them.
///
/// # Errors
///
/// Those of [`walk`].
pub fn records(message: &[u8]) -> Result<Vec<Record<'_>>, Error> {
    Ok(walk(message)?
        .records()
        .map(|(_, record, _)| record)
        .collect())
}

/// The options in the data of an OPT record, one after the other (RFC 6891, 6.1.2). After a refusal comes nothing.
#[must_use]
pub fn options(data: &[u8]) -> Options<'_> {
    Options { data, place: 0 }
}

/// What [`options`] gives: each option, or [`Error::Short`] for one that passes the end.
pub struct Options<'a> {
    data: &'a [u8],
    place: usize,
}

impl<'a> Iterator for Options<'a> {
    type Item = Result<EdnsOption<'a>, Error>;

    fn next(&mut self) -> Option<Self::Item> {
        if self.place == self.data.len() {
            return None;
        }
        match option_at(self.data, self.place) {
            Ok((option, end)) => {
                self.place = end;
                Some(Ok(option))
            }
            Err(refusal) => {
                self.place = self.data.len();
                Some(Err(refusal))
            }
        }
    }
}
