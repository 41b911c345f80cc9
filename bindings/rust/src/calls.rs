//! The declarations of `include/fuzsbanel.h`, and what each call's answer means.

use crate::ask::ResponseFound;
use crate::error::Error;
use crate::walk::{Header, ItemFound, OptionFound, QueryFound, RecordFound, Room};

/// What is answered where the buffer has no room.
pub const NO_ROOM: i64 = -100;

/// A handle to a zone: its fields are the library's.
#[repr(C)]
pub struct ZoneHandle {
    pub at: *mut u8,
    pub is_open: bool,
}

/// Where the next message of a zone transfer begins: zero bytes at its start. Its fields are the library's.
#[repr(C)]
#[derive(Clone)]
pub struct TransferPlace {
    pub index: usize,
    pub record_type: u16,
    pub kind: u8,
    pub is_unknown: u8,
    pub is_absolute: u8,
    pub name_len: u8,
    pub name: [u8; 255],
}

/// How long the name and the text are of a text that may be included.
#[repr(C)]
pub struct Included {
    pub name_len: usize,
    pub text_len: usize,
}

/// The lengths of texts that may be included, each after its name, and their bytes.
pub fn crossing(included: &[(&str, &str)]) -> (Vec<Included>, String) {
    let lengths = included.iter().map(|(name, text)| Included {
        name_len: name.len(),
        text_len: text.len(),
    });
    let bytes = included.iter().flat_map(|&(name, text)| [name, text]);
    (lengths.collect(), bytes.collect())
}

/// Where a fault stands, and how long the name of its text and its words are.
#[repr(C)]
#[derive(Default)]
pub struct FaultFound {
    pub line: usize,
    pub column: usize,
    pub name_len: usize,
    pub words_len: usize,
}

// A `&[u8]` crosses as a pointer and then a length. Nothing compares these declarations with those of crates/capi.
extern "C" {
    pub fn fuzsbanel_check(message: *const u8, len: usize) -> i64;
    pub fn fuzsbanel_cut(
        message: *const u8,
        len: usize,
        limit: u16,
        out: *mut u8,
        cap: usize,
        needed: *mut usize,
    ) -> i64;
    pub fn fuzsbanel_text(
        message: *const u8,
        len: usize,
        out: *mut u8,
        cap: usize,
        needed: *mut usize,
    ) -> i64;
    pub fn fuzsbanel_header(message: *const u8, len: usize, header: *mut Header) -> i64;
    pub fn fuzsbanel_response(message: *const u8, len: usize, response: *mut ResponseFound) -> i64;
    pub fn fuzsbanel_build_query(
        id: u16,
        name: *const u8,
        name_len: usize,
        record_type: u16,
        class: u16,
        recursion: bool,
        payload: u16,
        out: *mut u8,
        cap: usize,
        needed: *mut usize,
    ) -> i64;
    pub fn fuzsbanel_build_notify(
        id: u16,
        origin: *const u8,
        origin_len: usize,
        out: *mut u8,
        cap: usize,
        needed: *mut usize,
    ) -> i64;
    pub fn fuzsbanel_build_response(
        query: *const u8,
        query_len: usize,
        code: u16,
        authoritative: bool,
        recursion_available: bool,
        answers: *const u8,
        answers_len: usize,
        authorities: *const u8,
        authorities_len: usize,
        additionals: *const u8,
        additionals_len: usize,
        most: u16,
        by_stream: bool,
        out: *mut u8,
        cap: usize,
        needed: *mut usize,
    ) -> i64;
    pub fn fuzsbanel_version() -> u32;
    pub fn fuzsbanel_type_number(text: *const u8, len: usize) -> i64;
    pub fn fuzsbanel_type_text(number: u16, out: *mut u8, cap: usize, needed: *mut usize) -> i64;
    pub fn fuzsbanel_class_number(text: *const u8, len: usize) -> i64;
    pub fn fuzsbanel_class_text(number: u16, out: *mut u8, cap: usize, needed: *mut usize) -> i64;
    pub fn fuzsbanel_code_number(text: *const u8, len: usize) -> i64;
    pub fn fuzsbanel_code_text(number: u16, out: *mut u8, cap: usize, needed: *mut usize) -> i64;
    pub fn fuzsbanel_query(
        message: *const u8,
        len: usize,
        place: usize,
        query: *mut QueryFound,
    ) -> i64;
    pub fn fuzsbanel_record(
        message: *const u8,
        len: usize,
        place: usize,
        record: *mut RecordFound,
    ) -> i64;
    pub fn fuzsbanel_option(
        message: *const u8,
        len: usize,
        place: usize,
        option: *mut OptionFound,
    ) -> i64;
    pub fn fuzsbanel_name(
        message: *const u8,
        len: usize,
        place: usize,
        out: *mut u8,
        cap: usize,
        needed: *mut usize,
    ) -> i64;
    pub fn fuzsbanel_data_text(
        message: *const u8,
        len: usize,
        place: usize,
        out: *mut u8,
        cap: usize,
        needed: *mut usize,
    ) -> i64;
    pub fn fuzsbanel_name_wire(
        name: *const u8,
        name_len: usize,
        out: *mut u8,
        cap: usize,
        needed: *mut usize,
    ) -> i64;
    pub fn fuzsbanel_data_wire(
        record_type: u16,
        text: *const u8,
        text_len: usize,
        out: *mut u8,
        cap: usize,
        needed: *mut usize,
    ) -> i64;
    pub fn fuzsbanel_wire_text(
        record_type: u16,
        octets: *const u8,
        len: usize,
        out: *mut u8,
        cap: usize,
        needed: *mut usize,
    ) -> i64;
    pub fn fuzsbanel_walk(
        message: *const u8,
        len: usize,
        items: *mut ItemFound,
        items_len: usize,
        names: *mut u8,
        names_len: usize,
        needed: *mut Room,
    ) -> i64;
    pub fn fuzsbanel_zone(
        origin: *const u8,
        origin_len: usize,
        text: *const u8,
        text_len: usize,
        out: *mut u8,
        cap: usize,
        needed: *mut usize,
    ) -> i64;
    pub fn fuzsbanel_zone_check(
        origin: *const u8,
        origin_len: usize,
        text: *const u8,
        text_len: usize,
        included: *const Included,
        included_len: usize,
        bytes: *const u8,
        bytes_len: usize,
        name: *mut u8,
        name_cap: usize,
        words: *mut u8,
        words_cap: usize,
        fault: *mut FaultFound,
    ) -> i64;
    pub fn fuzsbanel_apply(
        update: *const u8,
        update_len: usize,
        origin: *const u8,
        origin_len: usize,
        text: *const u8,
        text_len: usize,
        out: *mut u8,
        cap: usize,
        needed: *mut usize,
    ) -> i64;
    pub fn fuzsbanel_zone_open(
        origin: *const u8,
        origin_len: usize,
        text: *const u8,
        text_len: usize,
        included: *const Included,
        included_len: usize,
        bytes: *const u8,
        bytes_len: usize,
        handle: *mut ZoneHandle,
        name: *mut u8,
        name_cap: usize,
        words: *mut u8,
        words_cap: usize,
        fault: *mut FaultFound,
    ) -> i64;
    pub fn fuzsbanel_zone_update(
        handle: *mut ZoneHandle,
        update: *const u8,
        update_len: usize,
        is_changed: *mut bool,
    ) -> i64;
    pub fn fuzsbanel_zone_text(
        handle: *mut ZoneHandle,
        out: *mut u8,
        cap: usize,
        needed: *mut usize,
    ) -> i64;
    pub fn fuzsbanel_zone_answer(
        handle: *mut ZoneHandle,
        received: *const u8,
        received_len: usize,
        most: u16,
        by_stream: bool,
        out: *mut u8,
        cap: usize,
        needed: *mut usize,
    ) -> i64;
    pub fn fuzsbanel_zone_raise_serial(handle: *mut ZoneHandle) -> i64;
    pub fn fuzsbanel_zone_serve_transfer(
        handle: *mut ZoneHandle,
        query: *const u8,
        query_len: usize,
        place: *mut TransferPlace,
        out: *mut u8,
        cap: usize,
        needed: *mut usize,
    ) -> i64;
    pub fn fuzsbanel_zone_share(handle: *mut ZoneHandle, other: *mut ZoneHandle) -> i64;
    pub fn fuzsbanel_zone_close(handle: *mut ZoneHandle);
    pub fn fuzsbanel_create(
        id: u16,
        origin: *const u8,
        origin_len: usize,
        set: *const u8,
        set_len: usize,
        use_edns: bool,
        out: *mut u8,
        cap: usize,
        needed: *mut usize,
    ) -> i64;
    pub fn fuzsbanel_append(
        id: u16,
        origin: *const u8,
        origin_len: usize,
        set: *const u8,
        set_len: usize,
        must_exist: bool,
        use_edns: bool,
        out: *mut u8,
        cap: usize,
        needed: *mut usize,
    ) -> i64;
    pub fn fuzsbanel_compare_and_swap(
        id: u16,
        origin: *const u8,
        origin_len: usize,
        current: *const u8,
        current_len: usize,
        next: *const u8,
        next_len: usize,
        use_edns: bool,
        out: *mut u8,
        cap: usize,
        needed: *mut usize,
    ) -> i64;
    pub fn fuzsbanel_delete_by_rdata(
        id: u16,
        origin: *const u8,
        origin_len: usize,
        set: *const u8,
        set_len: usize,
        use_edns: bool,
        out: *mut u8,
        cap: usize,
        needed: *mut usize,
    ) -> i64;
    pub fn fuzsbanel_delete_rrset(
        id: u16,
        origin: *const u8,
        origin_len: usize,
        owner: *const u8,
        owner_len: usize,
        record_type: u16,
        use_edns: bool,
        out: *mut u8,
        cap: usize,
        needed: *mut usize,
    ) -> i64;
    pub fn fuzsbanel_delete_all(
        id: u16,
        origin: *const u8,
        origin_len: usize,
        owner: *const u8,
        owner_len: usize,
        use_edns: bool,
        out: *mut u8,
        cap: usize,
        needed: *mut usize,
    ) -> i64;
    pub fn fuzsbanel_zone_transfer(
        id: u16,
        origin: *const u8,
        origin_len: usize,
        last_soa: *const u8,
        last_soa_len: usize,
        out: *mut u8,
        cap: usize,
        needed: *mut usize,
    ) -> i64;
}

/// The length or the place that was answered, or the refusal.
pub fn length(answer: i64) -> Result<usize, Error> {
    if answer < 0 {
        return Err(Error::of(u8::try_from(-answer).unwrap_or(0)));
    }
    Ok(answer as usize)
}

/// The bytes that a call writes: it is made with a buffer of `first` bytes, and once more with what it needs.
pub fn filled(
    first: usize,
    call: impl Fn(*mut u8, usize, *mut usize) -> i64,
) -> Result<Vec<u8>, Error> {
    let mut out = vec![0; first];
    let mut needed = 0;
    let mut answer = call(out.as_mut_ptr(), out.len(), &mut needed);
    if answer == NO_ROOM {
        out = vec![0; needed];
        answer = call(out.as_mut_ptr(), out.len(), &mut needed);
    }
    let len = length(answer)?;
    out.truncate(len);
    Ok(out)
}

/// A text that a call wrote, which is UTF-8.
pub fn text(bytes: Vec<u8>) -> Result<String, Error> {
    String::from_utf8(bytes).map_err(|_| Error::NotUtf8)
}
