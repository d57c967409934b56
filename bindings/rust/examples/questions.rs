//! Validates a chain under a root, and verifies its signatures with the command `openssl`.
//!
//!     cargo run --example questions ROOTS CHAIN SECONDS
//!
//! SECONDS is the validation time, since 1970. The exit status is 0 if the chain is trusted, and 1
//! otherwise.

use std::path::Path;
use std::process::{self, Command};
use std::{env, fs, io};

use wurstdrape::{Terms, LIMIT, SERVER_AUTH};

/// A signature to verify. Each field is DER.
struct Question {
    /// The SubjectPublicKeyInfo of the key that has to verify the signature.
    key: Vec<u8>,
    /// The AlgorithmIdentifier of the signature.
    algorithm: Vec<u8>,
    /// The signed bytes, which are a TBSCertificate.
    signed: Vec<u8>,
    /// The BIT STRING of the signature.
    bits: Vec<u8>,
}

fn main() -> Result<(), Box<dyn std::error::Error>> {
    let words: Vec<String> = env::args().skip(1).collect();
    let [roots, chain, moment] = words.as_slice() else {
        return Err("usage: questions ROOTS CHAIN SECONDS".into());
    };
    let (roots, chain) = (fs::read(roots)?, fs::read(chain)?);
    let terms = Terms {
        anchors: &roots,
        moment: moment.parse()?,
        purpose: SERVER_AUTH,
        limit: LIMIT,
    };
    let questions = wurstdrape::questions(&roots, &chain, LIMIT)?;
    let answers = answers_of(&questions, is_valid)?;
    let verdict = wurstdrape::verify(answers.as_bytes(), &chain, &terms)?;
    println!("{verdict:?}");
    process::exit((!verdict.is_trusted()).into())
}

/// Returns the lines of `questions` whose signatures are valid: they are the answers.
fn answers_of(
    questions: &str,
    is_valid: impl Fn(&Question) -> io::Result<bool>,
) -> io::Result<String> {
    let mut answers = String::new();
    for line in questions.lines() {
        if is_valid(&question_of(line)?)? {
            answers.push_str(line);
            answers.push('\n');
        }
    }
    Ok(answers)
}

/// Decodes the last four of the six fields of a line.
fn question_of(line: &str) -> io::Result<Question> {
    let fields: Option<Vec<_>> = line.split(' ').skip(2).map(octets_of).collect();
    let fields = fields.and_then(|fields| <[Vec<u8>; 4]>::try_from(fields).ok());
    let [key, algorithm, signed, bits] = fields.ok_or(io::ErrorKind::InvalidData)?;
    Ok(Question {
        key,
        algorithm,
        signed,
        bits,
    })
}

/// Decodes bytes in hex.
fn octets_of(hex: &str) -> Option<Vec<u8>> {
    let digits: Option<Vec<_>> = hex.chars().map(|digit| digit.to_digit(16)).collect();
    let octet = |pair: &[u32]| u8::try_from(16 * pair[0] + pair.get(1)?).ok();
    digits?.chunks(2).map(octet).collect()
}

/// ecdsa-with-SHA256 (RFC 5758 3.2), and the OID id-ecPublicKey (RFC 5480 2.1.1).
const ECDSA: (&[u8], &[u8]) = (
    b"\x30\x0a\x06\x08\x2a\x86\x48\xce\x3d\x04\x03\x02",
    b"\x06\x07\x2a\x86\x48\xce\x3d\x02\x01",
);

/// sha256WithRSAEncryption (RFC 4055 5), and the OID rsaEncryption (RFC 3279 2.3.1).
const RSA: (&[u8], &[u8]) = (
    b"\x30\x0d\x06\x09\x2a\x86\x48\x86\xf7\x0d\x01\x01\x0b\x05\x00",
    b"\x06\x09\x2a\x86\x48\x86\xf7\x0d\x01\x01\x01",
);

/// Returns whether a signature is valid. A signature by another algorithm counts as invalid.
///
/// In your program, call a crate such as `ring`, or those of RustCrypto, instead of `openssl`.
fn is_valid(question: &Question) -> io::Result<bool> {
    let key_algorithm = content_of(content_of(&question.key));
    let is_supported = [ECDSA, RSA]
        .iter()
        .any(|(algorithm, key)| question.algorithm == *algorithm && key_algorithm.starts_with(key));
    // The first byte of the content is the number of unused bits.
    let [0, signature @ ..] = content_of(&question.bits) else {
        return Ok(false);
    };
    if !is_supported {
        return Ok(false);
    }
    let folder = env::temp_dir().join(format!("questions-{}", process::id()));
    fs::create_dir(&folder)?;
    let is_valid = ask_openssl(&folder, question, signature);
    fs::remove_dir_all(&folder)?;
    is_valid
}

/// Verifies a signature by means of files in an empty folder.
fn ask_openssl(folder: &Path, question: &Question, signature: &[u8]) -> io::Result<bool> {
    fs::write(folder.join("key"), &question.key)?;
    fs::write(folder.join("signed"), &question.signed)?;
    fs::write(folder.join("signature"), signature)?;
    let words = "dgst -sha256 -keyform DER -verify key -signature signature signed";
    let mut openssl = Command::new("openssl");
    openssl.args(words.split(' ')).current_dir(folder);
    Ok(openssl.output()?.status.success())
}

/// Returns the content of a value in DER whose tag has one byte.
fn content_of(der: &[u8]) -> &[u8] {
    let more = if der[1] < 0x80 { 0 } else { der[1] & 0x7f };
    &der[2 + usize::from(more)..]
}
