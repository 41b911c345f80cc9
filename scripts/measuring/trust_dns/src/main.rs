//! What ../measure.rt.txt does with a message, done by trust-dns-proto: `trust_dns read|write|cut TIMES`.
use std::io::Read;
use trust_dns_proto::error::ProtoResult;
use trust_dns_proto::op::Message;
use trust_dns_proto::serialize::binary::{BinEncodable, BinEncoder};

/// What a client takes that doesn't say.
const LIMIT: u16 = 512;

fn read(bytes: &[u8]) -> ProtoResult<usize> {
    let message = Message::from_vec(bytes)?;
    Ok(message.queries().len())
}

fn write(message: &Message) -> ProtoResult<usize> {
    Ok(message.to_vec()?.len())
}

/// Reads the message, and writes what the limit has room for.
fn cut(bytes: &[u8]) -> ProtoResult<usize> {
    let message = Message::from_vec(bytes)?;
    let mut written = Vec::with_capacity(LIMIT.into());
    {
        let mut encoder = BinEncoder::new(&mut written);
        encoder.set_max_size(LIMIT);
        message.emit(&mut encoder)?;
    }
    Ok(written.len())
}

/// The sum of what a call answers, made as often; of a refusal nothing.
fn again(times: u32, call: impl Fn() -> ProtoResult<usize>) -> usize {
    (0..times).map(|_| call().unwrap_or(0)).sum()
}

fn main() {
    let mut bytes = Vec::new();
    std::io::stdin().read_to_end(&mut bytes).expect("a message on the input");
    let words: Vec<String> = std::env::args().skip(1).collect();
    let [what, times] = words.as_slice() else {
        panic!("trust_dns read|write|cut TIMES");
    };
    let times = times.parse().expect("how often");
    let sum = match (what.as_str(), Message::from_vec(&bytes)) {
        ("read", _) => again(times, || read(&bytes)),
        ("cut", _) => again(times, || cut(&bytes)),
        (_, Ok(message)) => again(times, || write(&message)),
        (_, Err(_)) => 0,
    };
    println!("{sum}");
}
