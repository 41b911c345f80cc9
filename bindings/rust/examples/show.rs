//! Reads messages in hexadecimal, one a line, and prints what each call makes of them.

use fuzsbanel::Error;
use std::io::{self, BufRead};

const TYPE_MX: u16 = 15;
const TYPE_OPT: u16 = 41;

fn main() {
    for line in io::stdin().lock().lines() {
        let line = line.expect("a line of text");
        if let Err(refusal) = show(&from_hexadecimal(&line)) {
            println!("refused {}", refusal.number());
        }
    }
}

fn show(message: &[u8]) -> Result<(), Error> {
    fuzsbanel::check(message)?;
    print!("{}", fuzsbanel::text(message)?);
    let walk = fuzsbanel::walk(message)?;
    for (query, name) in walk.queries() {
        println!(
            "question {} type {} class {}",
            fuzsbanel::name(name, 0)?,
            query.query_type,
            query.class
        );
    }
    for (_section, record, owner) in walk.records() {
        let name = fuzsbanel::name(owner, 0)?;
        let (record_type, class, ttl) = (record.record_type, record.class, record.ttl);
        println!(
            "record {name} type {record_type} class {class} ttl {ttl} data {}",
            hexadecimal(record.data)
        );
        if record_type == TYPE_OPT {
            for option in fuzsbanel::options(record.data) {
                let option = option?;
                println!("option {} {}", option.code, hexadecimal(option.data));
            }
            continue;
        }
        println!("text {}", fuzsbanel::data_text(message, record.name)?);
        if record_type == TYPE_MX {
            println!(
                "exchange {}",
                fuzsbanel::name(message, record.data_place + 2)?
            );
        }
    }
    println!("{}", hexadecimal(&fuzsbanel::cut(message, 512)?));
    Ok(())
}

fn from_hexadecimal(line: &str) -> Vec<u8> {
    let digits: Vec<u32> = line
        .chars()
        .filter_map(|digit| digit.to_digit(16))
        .collect();
    digits
        .chunks_exact(2)
        .map(|pair| (pair[0] * 16 + pair[1]) as u8)
        .collect()
}

fn hexadecimal(bytes: &[u8]) -> String {
    bytes.iter().map(|byte| format!("{byte:02x}")).collect()
}
