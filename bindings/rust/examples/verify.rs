//! Prints what is in a root certificate, and validates a chain under it.
//!
//!     cargo run --example verify ROOT CHAIN ANSWERS SECONDS
//!
//! SECONDS is the validation time, since 1970. The exit status is 0 if the chain is trusted, and 1
//! otherwise.

use std::{env, fs, process};

use wurstdrape::{Kind, Terms, LIMIT, SERVER_AUTH};

fn main() -> Result<(), Box<dyn std::error::Error>> {
    let words: Vec<String> = env::args().skip(1).collect();
    let [root, chain, answers, moment] = words.as_slice() else {
        return Err("usage: verify ROOT CHAIN ANSWERS SECONDS".into());
    };
    let (root, chain, answers) = (fs::read(root)?, fs::read(chain)?, fs::read(answers)?);
    let terms = Terms {
        anchors: &root,
        moment: moment.parse()?,
        purpose: SERVER_AUTH,
        limit: LIMIT,
    };
    print!("{}", wurstdrape::show(&root, Kind::Certificate)?);
    let verdict = wurstdrape::verify(&answers, &chain, &terms)?;
    println!("{verdict:?}");
    process::exit((!verdict.is_trusted()).into())
}
