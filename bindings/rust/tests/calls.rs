//! Each call of the crate.

use fuzsbanel::{Error, Query, Section};
use std::time::Instant;

const RESPONSE: &[u8] =
    b"\x10\x00\x81\x80\0\x01\0\x01\0\0\0\0\x03www\x07example\x03com\0\0\x01\0\x01\
\xc0\x0c\0\x01\0\x01\0\0\0\x02\0\x04\x5d\xb8\xd7\x0e";

// RFC 2136: the zone section, a prerequisite that no set is there (2.4.3), and the record to add (2.5.1)
const CREATION: &[u8] = b"\0\x01\x28\0\0\x01\0\x01\0\x01\0\0\x07example\0\0\x06\0\x01\
\x03www\xc0\x0c\0\x01\0\xfe\0\0\0\0\0\0\xc0\x19\0\x01\0\x01\0\0\x01\x2c\0\x04\xc0\0\x02\x02";

const ZONE: &str = "@ 3600 SOA ns hostmaster 1 2 3 4 5\n@ 3600 NS ns\n";

#[test]
fn a_message_is_checked() {
    assert_eq!(fuzsbanel::check(RESPONSE), Ok(49));
    assert_eq!(fuzsbanel::check(&[RESPONSE, b"more"].concat()), Ok(49));
    assert_eq!(fuzsbanel::check(&RESPONSE[..48]), Err(Error::DataLength));
    assert_eq!(fuzsbanel::check(b""), Err(Error::Short));
}

#[test]
fn a_message_is_cut() {
    assert_eq!(fuzsbanel::cut(RESPONSE, 49).as_deref(), Ok(RESPONSE));
    let cut = fuzsbanel::cut(RESPONSE, 48).unwrap();
    assert_eq!(cut.len(), 33);
    assert_eq!(cut[..12], *b"\x10\0\x83\x80\0\x01\0\0\0\0\0\0");
    assert_eq!(fuzsbanel::cut(RESPONSE, 32), Err(Error::Questions));
    assert_eq!(fuzsbanel::cut(RESPONSE, 11), Err(Error::Limit));
}

#[test]
fn a_message_is_walked() {
    let header = fuzsbanel::header(RESPONSE).unwrap();
    assert_eq!(
        (header.id, header.queries, header.answers, header.response),
        (4096, 1, 1, true)
    );
    assert!(header.recursion_desired && header.recursion_available && !header.truncated);
    assert_eq!(
        fuzsbanel::queries(RESPONSE).unwrap(),
        [Query {
            name: 12,
            query_type: 1,
            class: 1
        }]
    );
    let records = fuzsbanel::records(RESPONSE).unwrap();
    assert_eq!(records.len(), 1);
    assert_eq!(
        (records[0].record_type, records[0].class, records[0].ttl),
        (1, 1, 2)
    );
    assert_eq!(records[0].data, [0x5d, 0xb8, 0xd7, 0x0e]);
    assert_eq!(
        fuzsbanel::name(RESPONSE, records[0].name).as_deref(),
        Ok("www.example.com.")
    );
    assert_eq!(fuzsbanel::name(RESPONSE, 50), Err(Error::Short));
    let options: Vec<_> = fuzsbanel::options(b"\0\x0a\0\x02ab\0\x03\0\0")
        .map(|option| option.map(|option| (option.code, option.data)))
        .collect();
    assert_eq!(options, [Ok((10, &b"ab"[..])), Ok((3, &b""[..]))]);
    let options: Vec<_> = fuzsbanel::options(b"\0\x0a\0\x02a").collect();
    assert_eq!(options, [Err(Error::Short)]);
}

// RFC 1035, 4.1.4 and 3.3.9: the exchange is a label before a pointer to the question's name
const EXCHANGE: &[u8] = b"\0\x09\x81\x80\0\x01\0\x01\0\0\0\0\x07example\0\0\x0f\0\x01\
\xc0\x0c\0\x0f\0\x01\0\0\x01\x2c\0\x09\0\x0a\x04mail\xc0\x0c";

#[test]
fn a_message_is_walked_whole() {
    let walk = fuzsbanel::walk(EXCHANGE).unwrap();
    assert_eq!(walk.end(), EXCHANGE.len());
    let queries: Vec<_> = walk.queries().collect();
    let query = Query {
        name: 12,
        query_type: 15,
        class: 1,
    };
    assert_eq!(queries, [(query, &b"\x07example\0"[..])]);
    assert_eq!(fuzsbanel::query(EXCHANGE, 12), Ok((query, 25)));
    let records: Vec<_> = walk.records().collect();
    let (section, record, owner) = records[0];
    assert_eq!(
        (records.len(), section, owner),
        (1, Section::Answer, &b"\x07example\0"[..])
    );
    assert_eq!(
        (record.name, record.data_place, record.data),
        (25, 37, &b"\0\x0a\x04mail\xc0\x0c"[..])
    );
    assert_eq!(fuzsbanel::record(EXCHANGE, 25), Ok((record, 46)));
    assert_eq!(fuzsbanel::name(owner, 0).as_deref(), Ok("example."));
    assert_eq!(
        fuzsbanel::data_text(EXCHANGE, record.name).as_deref(),
        Ok("10 mail.example.")
    );
    assert_eq!(
        fuzsbanel::name(EXCHANGE, record.data_place + 2).as_deref(),
        Ok("mail.example.")
    );
    assert_eq!(
        fuzsbanel::walk(&EXCHANGE[..45]).err(),
        Some(Error::DataLength)
    );
    assert_eq!(fuzsbanel::walk(b"").err(), Some(Error::Short));
}

#[test]
fn a_message_is_shown() {
    let text = fuzsbanel::text(EXCHANGE).unwrap();
    assert!(text.starts_with("; header 9:RESPONSE:RD,RA:NoError:QUERY\n"));
    assert!(
        text.ends_with("\nexample. 300 IN MX 10 mail.example.\n; authorities 0\n; additionals 0\n")
    );
}

#[test]
fn a_zone_is_held() {
    let mut zone = fuzsbanel::Zone::open("example.", ZONE, &[]).unwrap();
    let told = |code, is_changed| Ok(fuzsbanel::Applied { code, is_changed });
    assert_eq!(zone.update(CREATION), told(0, true));
    assert_eq!(zone.update(CREATION), told(7, false)); // YXRRSet (RFC 2136, 2.2)
    assert_eq!(zone.update(&CREATION[..11]), Err(Error::Short));
    let applied = fuzsbanel::apply(CREATION, "example.", ZONE).unwrap();
    let text = zone.text().unwrap();
    assert_eq!(applied, format!("NoError\n{text}"));
    let moved = std::thread::spawn(move || zone.text());
    assert_eq!(moved.join().unwrap(), Ok(text));
    let refused = fuzsbanel::Zone::open("", ZONE, &[]).unwrap_err();
    assert_eq!((refused.error, refused.fault), (Error::NoOrigin, None));
    let included = [("hosts", "\nwww 300 A 192.0.2")];
    let refused = fuzsbanel::Zone::open("example.", "$INCLUDE hosts\n", &included).unwrap_err();
    let fault = fuzsbanel::zone_check("example.", "$INCLUDE hosts\n", &included).unwrap();
    assert_eq!((refused.error, &refused.fault), (Error::BadText, &fault));
    assert_eq!(
        refused.to_string(),
        "line 2, column 9 of hosts: invalid data for type A"
    );
}

#[test]
fn a_zone_is_transferred() {
    let mut zone = fuzsbanel::Zone::open("example.", ZONE, &[]).unwrap();
    let serial = zone.raise_serial().unwrap();
    let query = fuzsbanel::zone_transfer(2, "example.", None).unwrap();
    let messages: Vec<_> = zone.transfer(&query).map(Result::unwrap).collect();
    assert_eq!(messages.len(), 1);
    let text = fuzsbanel::text(&messages[0]).unwrap();
    assert_eq!(text.matches(&format!(" {serial} ")).count(), 2); // the SOA at the front and at the end
    assert!(zone.transfer(RESPONSE).next().is_none());
    let cut: Vec<_> = zone.transfer(&query[..11]).collect();
    assert_eq!(cut, [Err(Error::Short)]);
    let mut empty = fuzsbanel::Zone::open("example.", "", &[]).unwrap();
    assert_eq!(empty.raise_serial(), Err(Error::NoSoa));
}

#[test]
fn a_zone_answers() {
    let mut zone = fuzsbanel::Zone::open("example.", ZONE, &[]).unwrap();
    // RFC 2308, 2.1: no name, and the SOA; a response, and less than a header, are answered by nothing
    let query = b"\0\x09\x01\0\0\x01\0\0\0\0\0\0\x03www\x07example\0\0\x01\0\x01";
    let answer = zone.answer(query, Some(512)).unwrap().unwrap();
    let header = fuzsbanel::header(&answer).unwrap();
    assert_eq!((header.id, header.rcode, header.authoritative), (9, 3, true));
    assert_eq!((header.answers, header.authorities), (0, 1));
    assert_eq!(zone.answer(RESPONSE, None), Ok(None));
    assert_eq!(zone.answer(&query[..11], None), Ok(None));
    let malformed = zone.answer(&query[..20], None).unwrap().unwrap();
    assert_eq!(malformed, b"\0\x09\x81\x01\0\0\0\0\0\0\0\0");
}

#[test]
fn the_longest_text_of_a_name() {
    // RFC 1035, 2.3.4 and 5.1: 255 bytes, each of the labels' written \DDD
    let labels = [63, 63, 63, 61].map(|len| [vec![len], vec![0; usize::from(len)]].concat());
    let name = [labels.concat(), vec![0]].concat();
    assert_eq!(name.len(), 255);
    assert_eq!(fuzsbanel::name(&name, 0).unwrap().len(), 1004);
}

#[test]
fn a_walk_of_many_pointers_costs_what_the_bytes_cost() {
    // data that is a chain of pointers, and then records whose owner is its end (RFC 1035, 4.1.4)
    let mut message = b"\0\x01\x80\0\0\0\0\0\0\0\0\0\0\0\x0a\0\x01\0\0\0\0".to_vec();
    let chain = 8_177;
    message.extend(u16::to_be_bytes(1 + 2 * chain));
    let start = u16::try_from(message.len()).unwrap();
    message.push(0);
    message.extend((0..chain).flat_map(|i| {
        let before = if i == 0 { start } else { start + 2 * i - 1 };
        (0xC000 | before).to_be_bytes()
    }));
    let end = 0xC000 | (start + 2 * chain - 1);
    let mut records = 1_u16;
    while message.len() + 13 <= 65_535 {
        message.extend(end.to_be_bytes());
        message.extend(b"\0\x0a\0\x01\0\0\0\0\0\x01x");
        records += 1;
    }
    message[6..8].copy_from_slice(&records.to_be_bytes());
    assert_eq!((message.len(), records), (65_531, 3_782));
    let checked = Instant::now();
    assert_eq!(fuzsbanel::check(&message), Ok(message.len()));
    let checked = checked.elapsed();
    let walked = Instant::now();
    let walk = fuzsbanel::walk(&message).unwrap();
    let roots = walk.records().filter(|(.., owner)| owner == b"\0").count();
    let walked = walked.elapsed();
    assert_eq!(roots, usize::from(records));
    assert!(walked < 20 * checked, "{walked:?} and {checked:?}");
}

#[test]
fn zone_text_is_checked() {
    let sound = fuzsbanel::zone_check("example.", "$INCLUDE a\n", &[("a", "www 60 A 192.0.2.1\n")]);
    assert_eq!(sound, Ok(None));
    let fault = fuzsbanel::zone_check("example.", "$INCLUDE a\n", &[("a", "\nwww 60 A 192.0.2\n")]);
    let fault = fault.unwrap().unwrap();
    assert_eq!((fault.error, fault.name.as_str()), (Error::BadText, "a"));
    assert_eq!((fault.line, fault.column), (2, 8));
    assert_eq!(fault.words, "invalid data for type A");
    let fault = fuzsbanel::zone_check("example.", "$INCLUDE b\n", &[]).unwrap().unwrap();
    assert_eq!((fault.error, fault.line, fault.column), (Error::NoInclude, 1, 10));
    assert_eq!(fault.words, "no text named b to include");
    assert_eq!(fuzsbanel::zone_check("..", "", &[]), Err(Error::BadText));
}

#[test]
fn zone_text_is_read() {
    let zone = fuzsbanel::zone("example.", "$TTL 60\nwww A 192.0.2.1\n").unwrap();
    assert_eq!(zone, "$ORIGIN example.\nwww.example. 60 IN A 192.0.2.1\n");
    assert_eq!(
        fuzsbanel::zone("example.", "www 60 A 192.0.2.300\n"),
        Err(Error::BadText)
    );
    assert_eq!(
        fuzsbanel::zone("", "www 60 A 192.0.2.1\n").map_err(Error::number),
        Err(19)
    );
    assert_eq!(fuzsbanel::zone("..", ""), Err(Error::BadText));
}

// the examples of RFC 3597, 5; a name in data without an origin
#[test]
fn the_generic_form_is_read() {
    let text = "a 5 TYPE731 \\# 6 abcd (\n ef 01 23 45 )\ne 5 TYPE1 \\# 4 0A000001\n";
    let zone = fuzsbanel::zone("example.", text).unwrap();
    let lines = "$ORIGIN example.\na.example. 5 IN TYPE731 \\# 6 abcdef012345\ne.example. 5 IN A 10.0.0.1\n";
    assert_eq!(zone, lines);
    assert_eq!(
        fuzsbanel::zone("example.", "a 5 A \\# 3 0A000001\n"),
        Err(Error::BadText)
    );
    assert_eq!(
        fuzsbanel::zone("", "b. 5 NS x\n$ORIGIN a.\n"),
        Err(Error::NotOnWire)
    );
}

#[test]
fn what_is_written_is_read_again() {
    let mut zone = ZONE.to_owned();
    let added = [
        "www 300 TYPE257 \\# 9 000569737375656361",
        "www 300 DS \\# 24 ec4505012bb183af5f22588179a53b0a98631fad1a292118",
        "www 300 A \\# 0",
    ];
    for set in added {
        let update = fuzsbanel::append(8, "example.", set, false, false).unwrap();
        let lines = fuzsbanel::apply(&update, "example.", &zone).unwrap();
        let (code, after) = lines.split_once('\n').unwrap();
        assert_eq!(code, "NoError");
        zone = after.to_owned();
    }
    assert_eq!(fuzsbanel::zone("example.", &zone).unwrap(), zone);
    for set in added {
        assert!(zone.contains(&set.replace("www ", "www.example. ").replace(" 300 ", " 300 IN ")));
    }
}

#[test]
fn updates_are_built_and_applied() {
    let update = fuzsbanel::create(1, "example.", "www 300 A 192.0.2.2\n", false).unwrap();
    assert_eq!(update, CREATION);
    let zone = fuzsbanel::apply(&update, "example.", ZONE).unwrap();
    assert!(zone.starts_with("NoError\n$ORIGIN example.\n"));
    assert!(zone.ends_with("\nwww.example. 300 IN A 192.0.2.2\n"));
    let again =
        fuzsbanel::apply(&update, "example.", &format!("{ZONE}www 60 A 192.0.2.9\n")).unwrap();
    assert!(again.starts_with("YXRRSet\n"));
    assert!(again.ends_with("\nwww.example. 60 IN A 192.0.2.9\n"));
}

#[test]
fn every_builder_changes_its_set() {
    let www = "www 300 A 192.0.2.2\n";
    let with_www = format!("{ZONE}{www}");
    let rows = [
        (
            fuzsbanel::append(2, "example.", "www 300 A 192.0.2.3\n", true, false),
            "\nwww.example. 300 IN A 192.0.2.3\n",
        ),
        (
            fuzsbanel::compare_and_swap(3, "example.", www, "www 9 A 192.0.2.4\n", true),
            "\nwww.example. 9 IN A 192.0.2.4\n",
        ),
    ];
    for (update, end) in rows {
        let zone = fuzsbanel::apply(&update.unwrap(), "example.", &with_www).unwrap();
        assert!(
            zone.starts_with("NoError\n") && zone.ends_with(end),
            "{zone}"
        );
    }
    let rows = [
        fuzsbanel::delete_by_rdata(4, "example.", www, false),
        fuzsbanel::delete_rrset(5, "example.", "www", 1, false),
        fuzsbanel::delete_all(6, "example.", "www.example.", true),
    ];
    for update in rows {
        let zone = fuzsbanel::apply(&update.unwrap(), "example.", &with_www).unwrap();
        assert!(
            zone.starts_with("NoError\n") && !zone.contains("www"),
            "{zone}"
        );
    }
    let transfer =
        b"\0\x07\0\0\0\x01\0\0\0\0\0\x01\x07example\0\0\xfc\0\x01\0\0\x29\x04\xd0\0\0\0\0\0\0";
    assert_eq!(
        fuzsbanel::zone_transfer(7, "example.", None).as_deref(),
        Ok(&transfer[..])
    );
    let changes = b"\0\x06\0\0\0\x01\0\0\0\x01\0\x01\x07example\0\0\xfb\0\x01\xc0\x0c\0\x06\0\x01\0\0\0\0\0\x26\
        \x02ns\xc0\x0c\x0ahostmaster\xc0\x0c\0\0\0\x01\0\0\x1c\x20\0\0\x0e\x10\0\x12\x75\0\0\0\x01\x2c\
        \0\0\x29\x04\xd0\0\0\0\0\0\0";
    let soa = "@ 300 SOA ns hostmaster 1 7200 3600 1209600 300\n";
    assert_eq!(
        fuzsbanel::zone_transfer(6, "example.", Some(soa)).as_deref(),
        Ok(&changes[..])
    );
    for (other, error) in [
        ("", Error::NotOneSet),
        ("www 300 A 192.0.2.1\n", Error::NotSoa),
        ("sub 300 SOA a b 1 2 3 4 5\n", Error::NotSoa),
    ] {
        assert_eq!(
            fuzsbanel::zone_transfer(6, "example.", Some(other)),
            Err(error)
        );
    }
}

#[test]
fn what_is_not_one_set_in_the_zone_is_refused() {
    for (set, error) in [
        ("", Error::NotOneSet),
        (
            "www 300 A 192.0.2.2\nftp 300 A 192.0.2.3\n",
            Error::NotOneSet,
        ),
        ("www.example.org. 300 A 192.0.2.2\n", Error::Outside),
        ("www 300 CH A 192.0.2.2\n", Error::Class),
        ("@ 300 SOA ns hostmaster 1 2 3 4 5\n", Error::Type),
        ("$ORIGIN a\nwww.example. 300 MX 10 \"@\"\n", Error::NotOnWire),
    ] {
        assert_eq!(
            fuzsbanel::create(1, "example.", set, false),
            Err(error)
        );
    }
    assert_eq!(
        fuzsbanel::delete_all(1, "example.", "www.example.org.", false),
        Err(Error::Outside)
    );
    assert_eq!(
        fuzsbanel::delete_all(1, "", "www", false),
        Err(Error::NoOrigin)
    );
}

#[test]
fn no_update_is_cut() {
    let addresses = |count: u16| -> String {
        (0..count)
            .map(|i| format!("www 300 A 10.0.{}.{}\n", i / 256, i % 256))
            .collect()
    };
    // 41 bytes before the records, and 16 for each
    let whole = fuzsbanel::create(1, "example.", &addresses(4093), false);
    assert_eq!(whole.map(|bytes| bytes.len()), Ok(41 + 16 * 4093));
    assert_eq!(
        fuzsbanel::create(1, "example.", &addresses(4094), false),
        Err(Error::TooLong)
    );
}

#[test]
fn queries_are_built() {
    let query = b"\0\x09\x01\0\0\x01\0\0\0\0\0\0\x03www\x07example\0\0\x01\0\x01";
    let built = fuzsbanel::build_query(9, "www.example", 1, 1, true, None);
    assert_eq!(built, Ok(query.to_vec()));
    let built = fuzsbanel::build_query(9, "www.example.", 1, 1, true, Some(0)).unwrap();
    // an OPT record of the root, 512 bytes
    assert_eq!(built[29..], *b"\0\0\x29\x02\0\0\0\0\0\0\0");
    let none = fuzsbanel::build_query(9, "a..b", 1, 1, true, None);
    assert_eq!(none, Err(Error::BadText));
}

#[test]
fn notify_is_built() {
    let notify = b"\0\x09\x24\0\0\x01\0\0\0\0\0\0\x07example\0\0\x06\0\x01";
    assert_eq!(fuzsbanel::build_notify(9, "example"), Ok(notify.to_vec()));
    assert_eq!(fuzsbanel::build_notify(9, ""), Err(Error::NoOrigin));
}

#[test]
fn responses_say_whether_they_answer() {
    // NXDomain for www.example., and the SOA with a TTL of 60 and a MINIMUM of 5
    let denied = b"\0\x09\x81\x03\0\x01\0\0\0\x01\0\0\x03www\x07example\0\0\x01\0\x01\
        \xc0\x10\0\x06\0\x01\0\0\0\x3c\0\x18\xc0\x0c\xc0\x0c\0\0\0\x01\0\0\0\x02\0\0\0\x03\0\0\0\x04\0\0\0\x05";
    let said = fuzsbanel::response(denied).unwrap();
    assert_eq!((said.answers, said.negative_ttl, said.max_payload), (false, Some(5), 512));
    let query = fuzsbanel::build_query(9, "www.example", 1, 1, true, None).unwrap();
    assert_eq!(fuzsbanel::response(&query), Err(Error::Query));
}

#[test]
fn responses_are_built() {
    let query = fuzsbanel::build_query(9, "www.example", 1, 1, true, None).unwrap();
    let reply = fuzsbanel::Reply {
        recursion_available: true,
        answers: "www.example 60 A 192.0.2.1",
        ..Default::default()
    };
    let response = fuzsbanel::build_response(&query, &reply, None).unwrap();
    let wanted = b"\0\x09\x81\x80\0\x01\0\x01\0\0\0\0\x03www\x07example\0\0\x01\0\x01\
        \xc0\x0c\0\x01\0\x01\0\0\0\x3c\0\x04\xc0\0\x02\x01";
    assert_eq!(response, wanted);
    let again = fuzsbanel::build_response(&response, &reply, Some(512));
    assert_eq!(again, Err(Error::NotAQuery));
    let none = fuzsbanel::Reply { code: 16, ..Default::default() };
    assert_eq!(fuzsbanel::build_response(&query, &none, None), Err(Error::NotOnWire));
}

#[test]
fn names_and_data_have_wire_forms() {
    let name = fuzsbanel::name_wire("www.example").unwrap();
    assert_eq!(name, b"\x03www\x07example\0");
    assert_eq!(fuzsbanel::name_wire(""), Err(Error::NoOrigin));
    let data = fuzsbanel::data_wire(15, "10 mail.example").unwrap();
    assert_eq!(data, b"\0\x0a\x04mail\x07example\0");
    assert_eq!(fuzsbanel::wire_text(15, &data).as_deref(), Ok("10 mail.example."));
    assert_eq!(fuzsbanel::data_wire(1, "192.0.2.300"), Err(Error::BadText));
    assert_eq!(fuzsbanel::wire_text(1, b"\xc0\0\x02"), Err(Error::BadData));
}

#[test]
fn numbers_have_mnemonics() {
    assert_eq!(fuzsbanel::version(), (0, 1, 0));
    assert_eq!(fuzsbanel::type_number("aaaa"), Ok(28));
    assert_eq!(fuzsbanel::type_text(257).as_deref(), Ok("TYPE257"));
    assert_eq!(fuzsbanel::type_number("quad"), Err(Error::UnknownType));
    assert_eq!(fuzsbanel::class_number("*"), Ok(255));
    assert_eq!(fuzsbanel::class_text(1).as_deref(), Ok("IN"));
    assert_eq!(fuzsbanel::class_number("internet"), Err(Error::NoMnemonic));
    assert_eq!(fuzsbanel::code_number("NXDOMAIN"), Ok(3));
    assert_eq!(fuzsbanel::code_text(11).as_deref(), Ok("11"));
}

#[test]
fn refusals_have_their_numbers() {
    assert_eq!(Error::Memory.number(), 3);
    assert_eq!(Error::Class.number(), 25);
    assert_eq!(Error::BadName.to_string(), "a name is spelled wrongly");
}
