//! Calls the functions with changed files, and prints a checksum of all results. The changes and
//! the checksum are those of bindings/c/mutated.c.
//!
//!     cargo run --release --example mutated COUNT

use std::path::Path;
use std::{env, fs};

use wurstdrape::{Error, Extension, Kind, Parts, Result, Terms, Verdict, SERVER_AUTH};

/// xorshift64 (Marsaglia 2003)
struct Changes(u64);

impl Changes {
    fn next(&mut self, below: usize) -> usize {
        self.0 ^= self.0 << 13;
        self.0 ^= self.0 >> 7;
        self.0 ^= self.0 << 17;
        (self.0 % below as u64) as usize
    }

    /// Changes up to three bytes of a file, and cuts off the end of one file in eight.
    fn change(&mut self, octets: &[u8]) -> Vec<u8> {
        let mut octets = octets.to_vec();
        for _ in 0..1 + self.next(3) {
            let place = self.next(octets.len());
            octets[place] = self.next(256) as u8;
        }
        if self.next(8) == 0 {
            octets.truncate(self.next(octets.len()));
        }
        octets
    }
}

/// FNV-1a, 64 bits
struct Sum(u64);

impl Sum {
    fn add(&mut self, octets: &[u8]) {
        for octet in octets {
            self.0 = (self.0 ^ u64::from(*octet)).wrapping_mul(1_099_511_628_211);
        }
    }

    fn add_number(&mut self, number: u64) {
        self.add(&number.to_le_bytes());
    }

    /// Adds the status of a call, and what it wrote.
    fn add_told<T: AsRef<[u8]>>(&mut self, told: Result<T>) {
        match told {
            Ok(octets) => {
                self.add_number(0);
                self.add(octets.as_ref());
            }
            Err(error) => self.add_number(status_of(error)),
        }
    }
}

impl Sum {
    /// Adds the status, and the content and the criticality of extKeyUsage.
    fn add_purposes(&mut self, der: &[u8]) {
        match wurstdrape::extension(der, &[0x55, 0x1d, 37]) {
            Ok(Some(Extension { content, critical })) => {
                self.add_number(0);
                self.add(&der[content]);
                self.add_number(critical.into());
            }
            Ok(None) => self.add_number(3),
            Err(error) => self.add_number(status_of(error)),
        }
    }
}

fn status_of(error: Error) -> u64 {
    match error {
        Error::Faulty => 2,
        Error::Refused => 1,
        Error::Empty => 3,
        Error::Arguments => 4,
        Error::Memory => 6,
    }
}

/// Returns the bytes of all parts, one after another.
fn octets_of(der: &[u8], parts: Parts) -> Vec<u8> {
    let Parts {
        signed_part,
        serial_number,
        issuer,
        subject,
        public_key,
    } = parts;
    [signed_part, serial_number, issuer, subject, public_key]
        .map(|span| &der[span])
        .concat()
}

/// A status; the kind and the byte of an error; the index, the offset and the number of a verdict.
type Told = [u64; 6];

fn fault_of(der: &[u8], kind: Kind) -> Told {
    match wurstdrape::fault_of(der, kind) {
        Ok(None) => [0; 6],
        Ok(Some(fault)) => [
            2,
            fault.kind as u64,
            fault.octet.unwrap_or(u64::MAX),
            0,
            0,
            0,
        ],
        Err(error) => [status_of(error), 0, 0, 0, 0, 0],
    }
}

fn verdict_on(answers: &[u8], chain: &[u8], terms: &Terms<'_>) -> Told {
    match wurstdrape::verify(answers, chain, terms) {
        Ok(Verdict::Trusted) => [0; 6],
        Ok(Verdict::Refused { place, rule }) => [1, 0, 0, place, 0, rule as u64],
        Ok(Verdict::Faulty {
            place,
            offset,
            fault,
        }) => [2, 0, 0, place, offset, fault as u64],
        Ok(Verdict::Empty) => [3, 0, 0, 0, 0, 0],
        Err(error) => [status_of(error), 0, 0, 0, 0, 0],
    }
}

fn main() {
    let count: usize = env::args().nth(1).unwrap().parse().unwrap();
    let top = Path::new(env!("CARGO_MANIFEST_DIR")).join("../..");
    let read = |name: &str| fs::read(top.join(name)).unwrap();
    let (root, chain) = (read("examples/root.der"), read("examples/chain.der"));
    let answers = read("crates/cert_tool/data/answers.txt");
    let files = [
        (read("examples/server.der"), Kind::Certificate),
        (read("crates/cert_tool/data/list.der"), Kind::List),
        (read("crates/cert_tool/data/request.der"), Kind::Request),
    ];
    let terms = Terms {
        anchors: &root,
        moment: 1_780_000_000,
        purpose: SERVER_AUTH,
        limit: 4096,
    };
    let mut changes = Changes(88_172_645_463_325_252);
    let mut sum = Sum(14_695_981_039_346_656_037);
    let mut done = 0;
    for number in 0..count {
        let told = match files.get(number % 4) {
            Some((file, kind)) => {
                let it = changes.change(file);
                sum.add_told(wurstdrape::show(&it, *kind));
                sum.add_told(wurstdrape::describe(&it, *kind, true));
                if *kind == Kind::Certificate {
                    sum.add_told(wurstdrape::parts(&it).map(|parts| octets_of(&it, parts)));
                    sum.add_purposes(&it);
                }
                fault_of(&it, *kind)
            }
            None => {
                let it = changes.change(&chain);
                sum.add_told(wurstdrape::questions(&root, &it, 4096));
                verdict_on(&answers, &it, &terms)
            }
        };
        for value in told {
            sum.add_number(value);
        }
        done += usize::from(told[0] == 0);
    }
    println!("{count} inputs, {done} of them valid: {:016x}", sum.0);
}
