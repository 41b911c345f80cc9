//! A zone that is held from call to call.

use crate::calls::{self, filled, TransferPlace, ZoneHandle};
use crate::error::Error;
use crate::{told, ZoneError};
use std::fmt;
use std::ptr;

/// The most bytes of a message in a stream (RFC 1035, 4.2.2).
const MAX_MESSAGE: usize = 65_535;

/// A zone: opened at a text, updated where it is, and written as text again.
///
/// ```
/// let mut zone = fuzsbanel::Zone::open("example.", "@ 300 SOA ns hostmaster 1 2 3 4 5", &[])?;
/// let update = fuzsbanel::create(1, "example.", "www 300 A 192.0.2.1", false)?;
/// let applied = zone.update(&update)?;
/// assert!(applied.code == 0 && applied.is_changed); // NoError
/// assert_eq!(zone.update(&update)?.code, 7); // YXRRSet: the zone has such a set
/// assert!(zone.text()?.ends_with("www.example. 300 IN A 192.0.2.1\n"));
/// let query = b"\0\x09\x01\0\0\x01\0\0\0\0\0\0\x03www\x07example\0\0\x01\0\x01";
/// let answer = zone.answer(query, Some(512))?.unwrap_or_default();
/// assert!(fuzsbanel::text(&answer)?.contains("www.example. 300 IN A 192.0.2.1\n"));
/// assert_eq!(zone.raise_serial(), Ok(2));
/// let query = fuzsbanel::zone_transfer(2, "example.", None)?;
/// let messages: Vec<Vec<u8>> = zone.transfer(&query).collect::<Result<_, _>>()?;
/// assert_eq!(fuzsbanel::header(&messages[0])?.answers, 3); // the SOA, the address, and the SOA once more
/// # Ok::<(), fuzsbanel::Error>(())
/// ```
pub struct Zone {
    handle: ZoneHandle,
}

/// What came of an update.
#[derive(Clone, Copy, Debug, PartialEq, Eq)]
pub struct Applied {
    /// The server's code (RFC 2136, 2.2).
    pub code: u16,
    /// Whether some set is another than before, in any field: a server raises the serial then (RFC 2136, 3.6).
    pub is_changed: bool,
}

// SAFETY: what an open handle holds is memory of `malloc`'s that nothing else points to but handles that share the zone; these
// only read what they share, and count themselves by atomic steps. Any thread may free it.
unsafe impl Send for Zone {}

/// A handle as it begins.
fn closed() -> ZoneHandle {
    ZoneHandle {
        at: ptr::null_mut(),
        is_open: false,
    }
}

impl Zone {
    /// The zone of an origin, whose records are those of a text; `included` are the texts that it may include, each after
    /// its name.
    ///
    /// ```
    /// let hosts = ("hosts", "www 300 A 192.0.2.1\n");
    /// let mut zone = fuzsbanel::Zone::open("example.", "$INCLUDE hosts\n", &[hosts])?;
    /// assert!(zone.text()?.ends_with("www.example. 300 IN A 192.0.2.1\n"));
    /// let refused = fuzsbanel::Zone::open("example.", "\nwww 300 A 192.0.2", &[]).err();
    /// assert_eq!(refused.unwrap().to_string(), "line 2, column 9: invalid data for type A");
    /// # Ok::<(), fuzsbanel::Error>(())
    /// ```
    ///
    /// # Errors
    ///
    /// The text's first fault, with its place; [`Error::NoOrigin`] for an empty origin, [`Error::NotOnWire`] for a relative
    /// name in data, and [`Error::Class`] for a zone of another class than IN.
    pub fn open(origin: &str, text: &str, included: &[(&str, &str)]) -> Result<Zone, ZoneError> {
        // it begins closed, and a call that is refused leaves it so
        let mut zone = Zone { handle: closed() };
        let (lengths, bytes) = calls::crossing(included);
        told(|name, words, found| {
            // SAFETY: the handle is of this value alone; the texts, the buffers and what is found are borrowed for the call.
            unsafe {
                calls::fuzsbanel_zone_open(
                    origin.as_ptr(),
                    origin.len(),
                    text.as_ptr(),
                    text.len(),
                    lengths.as_ptr(),
                    lengths.len(),
                    bytes.as_ptr(),
                    bytes.len(),
                    &mut zone.handle,
                    name.as_mut_ptr(),
                    name.len(),
                    words.as_mut_ptr(),
                    words.len(),
                    found,
                )
            }
        })?;
        Ok(zone)
    }

    /// Carries out an update message, and answers the server's code and whether anything changed: with 0, NoError, the
    /// update is carried out (RFC 2136, 3), and with any other the zone is as it was. What it costs depends on what the
    /// update names alone. Who may send an update is the caller's to ask, and so is the SOA's serial, which stays.
    ///
    /// # Errors
    ///
    /// The message's first fault. The zone is then as it was.
    pub fn update(&mut self, update: &[u8]) -> Result<Applied, Error> {
        let mut is_changed = false;
        // SAFETY: the handle is open, of this value alone, and not copied; the rest is borrowed for the call.
        let answer = unsafe {
            calls::fuzsbanel_zone_update(
                &mut self.handle,
                update.as_ptr(),
                update.len(),
                &mut is_changed,
            )
        };
        // A code has sixteen bits.
        let code = calls::length(answer)? as u16;
        Ok(Applied { code, is_changed })
    }

    /// The bytes that an authoritative server of the zone sends for those that it received, if it sends any (RFC 1034,
    /// 4.3.2). `most` is how many bytes a datagram may have; of `None` a stream carries them. With less room than the answer
    /// takes TC says so.
    ///
    /// # Errors
    ///
    /// That memory ran out.
    pub fn answer(&mut self, received: &[u8], most: Option<u16>) -> Result<Option<Vec<u8>>, Error> {
        let handle: *mut ZoneHandle = &mut self.handle;
        let (limit, by_stream) = (most.unwrap_or(u16::MAX), most.is_none());
        let sent = filled(512, |out, cap, needed| {
            // SAFETY: as in `text`, and the bytes are borrowed for the call.
            unsafe {
                calls::fuzsbanel_zone_answer(
                    handle,
                    received.as_ptr(),
                    received.len(),
                    limit,
                    by_stream,
                    out,
                    cap,
                    needed,
                )
            }
        })?;
        Ok(Some(sent).filter(|sent| !sent.is_empty()))
    }

    /// Raises the serial of the zone's SOA by one, modulo 2^32, as a server does after an update (RFC 1982, 3.1; RFC 2136,
    /// 3.6), and answers the new one. It takes no memory, but for a zone that is shared, which is copied first.
    ///
    /// # Errors
    ///
    /// [`Error::NoSoa`] for a zone that hasn't exactly one record as its SOA.
    pub fn raise_serial(&mut self) -> Result<u32, Error> {
        // SAFETY: as in `update`.
        let answer = unsafe { calls::fuzsbanel_zone_raise_serial(&mut self.handle) };
        // A serial has thirty-two bits.
        calls::length(answer).map(|serial| serial as u32)
    }

    /// The same zone once more, for another thread to read: no record is copied until one of both is changed, and the other
    /// stays as it was then.
    ///
    /// ```
    /// let mut zone = fuzsbanel::Zone::open("example.", "@ 300 SOA ns hostmaster 1 2 3 4 5", &[])?;
    /// let mut reader = zone.share()?;
    /// let before = reader.text()?;
    /// assert_eq!(zone.raise_serial(), Ok(2));
    /// let after = std::thread::spawn(move || reader.text()).join().unwrap()?;
    /// assert_eq!(before, after);
    /// # Ok::<(), fuzsbanel::Error>(())
    /// ```
    ///
    /// # Errors
    ///
    /// That memory ran out.
    pub fn share(&mut self) -> Result<Zone, Error> {
        let mut handle = closed();
        // SAFETY: as in `update`, and the other handle begins closed.
        let answer = unsafe { calls::fuzsbanel_zone_share(&mut self.handle, &mut handle) };
        calls::length(answer)?;
        Ok(Zone { handle })
    }

    /// The messages of the zone transfer that a query of type AXFR asks for, one after the other (RFC 5936, 2.2), each for a
    /// stream; of another query one with a code alone, and of a response none. While they are asked for the zone stays as it
    /// is. After an error there are no more.
    ///
    /// # Errors
    ///
    /// Of each message: the query's first fault, [`Error::TooLong`] for a record that no message holds, and that memory ran
    /// out.
    pub fn transfer<'z>(&'z mut self, query: &'z [u8]) -> Transfer<'z> {
        Transfer {
            zone: self,
            query,
            place: TransferPlace {
                index: 0,
                record_type: 0,
                kind: 0,
                is_unknown: 0,
                is_absolute: 0,
                name_len: 0,
                name: [0; 255],
            },
            is_over: false,
        }
    }

    /// The zone as text, which can be opened again with the same origin. A call that reads takes the handle for itself too.
    ///
    /// # Errors
    ///
    /// [`Error::TwoAnames`] where updates left an owner with two ANAME records, of which zone text has the last alone.
    pub fn text(&mut self) -> Result<String, Error> {
        let handle: *mut ZoneHandle = &mut self.handle;
        calls::text(filled(4096, |out, cap, needed| {
            // SAFETY: as in `update`, and `filled` hands in a buffer of its own.
            unsafe { calls::fuzsbanel_zone_text(handle, out, cap, needed) }
        })?)
    }
}

/// The messages of a zone transfer that are left: see [`Zone::transfer`].
pub struct Transfer<'z> {
    zone: &'z mut Zone,
    query: &'z [u8],
    place: TransferPlace,
    is_over: bool,
}

impl Iterator for Transfer<'_> {
    type Item = Result<Vec<u8>, Error>;

    fn next(&mut self) -> Option<Result<Vec<u8>, Error>> {
        if self.is_over {
            return None;
        }
        let handle: *mut ZoneHandle = &mut self.zone.handle;
        let place: *mut TransferPlace = &mut self.place;
        let query = self.query;
        let sent = filled(MAX_MESSAGE, |out, cap, needed| {
            // SAFETY: as in `Zone::text`; the place is of this value alone, and the bytes are borrowed for the call.
            unsafe {
                calls::fuzsbanel_zone_serve_transfer(
                    handle,
                    query.as_ptr(),
                    query.len(),
                    place,
                    out,
                    cap,
                    needed,
                )
            }
        });
        match sent {
            Ok(message) if !message.is_empty() => Some(Ok(message)),
            Ok(_) => {
                self.is_over = true;
                None
            }
            Err(e) => {
                self.is_over = true;
                Some(Err(e))
            }
        }
    }
}

impl fmt::Debug for Transfer<'_> {
    fn fmt(&self, f: &mut fmt::Formatter<'_>) -> fmt::Result {
        f.write_str("Transfer")
    }
}

impl Drop for Zone {
    fn drop(&mut self) {
        // SAFETY: as in `update`; nothing uses the handle afterwards.
        unsafe { calls::fuzsbanel_zone_close(&mut self.handle) }
    }
}

impl fmt::Debug for Zone {
    fn fmt(&self, f: &mut fmt::Formatter<'_>) -> fmt::Result {
        f.write_str("Zone")
    }
}
