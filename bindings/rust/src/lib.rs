//! Decodes, prints and describes X.509 certificates (RFC 5280), CRLs and CSRs, and validates and
//! issues certificate chains.
//!
//! Each function calls functions of `wurstdrape.h`, which are proved to meet their contracts if the
//! caller does what the header requires. This crate does, except for two conditions that your
//! program must meet:
//!
//! - Link `malloc`, `realloc` and `free` of one C library.
//! - Don't call a function from a signal handler, or in the child after `fork` if the process has
//!   several threads.
//!
//! Threads may call the functions at the same time. The text that [`describe`] returns is only
//! tested, and so are the wrappers of this crate. docs/FROM_OTHERS.md of the repository says what
//! is proved about each function.
//!
//! Bytes are DER, except for answers, signatures, orders files, texts, and the content bytes of
//! serial numbers and OIDs. The glossary in docs/TRUST.md explains words that occur in names, such
//! as `Refused` and `place`.
//!
//! # Building
//!
//! The crate links two static libraries, on Linux on x86-64. `bindings/build.sh FOLDER` of the
//! repository makes them, and an installed release has them in `PREFIX/lib`. Set the environment
//! variable `WURSTDRAPE` to this folder when you build your program.
//!
//! # Validating a chain
//!
//! Wurstdrape doesn't verify signatures. Call [`questions`], verify the signature of each line with
//! a crate of your choice, and pass the lines of the valid ones to [`verify`].
//!
//! A chain is certificates in DER, with nothing between them: first the one that a trust anchor
//! issued, and last the end entity's. **This is the reverse of the order of TLS**, so concatenate
//! the `Vec<CertificateDer>` of rustls from its end:
//!
//! ```
//! # let certificates = [b"end entity".as_slice(), b"intermediate"];
//! let chain: Vec<u8> = certificates.iter().rev().flat_map(|der| der.iter().copied()).collect();
//! # assert_eq!(chain, b"intermediateend entity");
//! ```
//!
//! Leave the root out: if the chain contains it, the root must keep every rule, too (for example,
//! its dates are checked).
//!
//! **Neither host names nor revocation are checked** (docs/CLI.md lists what else isn't checked),
//! and this crate has no `ServerCertVerifier`.
//!
//! This program verifies the signatures with the command `openssl`. In your program, let `is_valid`
//! call a crate. With RustCrypto, `key` decodes to `spki::SubjectPublicKeyInfoRef`, `algorithm` to
//! `spki::AlgorithmIdentifierRef`, and `bits` to `der::asn1::BitStringRef`. The message is
//! `signed`. `ring` and the verifiers of rustls-pki-types take the bits of the key
//! (`subject_public_key`) in place of the SubjectPublicKeyInfo, so also compare the algorithm of
//! the key. The `AlgorithmIdentifier` of rustls-pki-types is the content of `algorithm`, without
//! the header of the SEQUENCE.
//!
#![doc = concat!("```no_run\n", include_str!("../examples/questions.rs"), "```")]
//!
//! # Issuing a chain
//!
//! An orders file (docs/CLI.md, "Orders") describes a chain. For each of its certificates, call
//! [`signed_part`], sign the bytes, and pass the signature to [`issue`]. [`audit`] returns
//! beforehand whether the chain will be trusted.
#![deny(missing_docs, unsafe_op_in_unsafe_fn)]

mod calls;
mod numbers;

use std::fmt;
use std::ops::Range;

pub use numbers::{ChainFault, FaultKind, OrderFault, Rule};

/// A size limit for one certificate of a chain, in bytes, that fits most purposes.
pub const LIMIT: u32 = 65536;

/// The content bytes of the OID id-kp-serverAuth (RFC 5280 4.2.1.12).
pub const SERVER_AUTH: &[u8] = &[0x2b, 6, 1, 5, 5, 7, 3, 1];

/// The kinds of values that can be decoded.
#[derive(Clone, Copy, Debug, PartialEq, Eq)]
pub enum Kind {
    /// A certificate (RFC 5280 4.1).
    Certificate,
    /// A certificate revocation list, or CRL (RFC 5280 5.1).
    List,
    /// A certification request, or CSR (RFC 2986 4.2).
    Request,
}

/// The first error that decoding meets. Its kind is proved, and its position is only tested.
#[derive(Clone, Copy, Debug, PartialEq, Eq)]
pub struct Fault {
    /// The kind of the error.
    pub kind: FaultKind,
    /// The index of the byte at which it was found, counted from 0, if it is known.
    pub octet: Option<u64>,
}

/// The error of a call.
#[derive(Clone, Copy, Debug, PartialEq, Eq)]
pub enum Error {
    /// The orders are rejected. (A chain that is rejected isn't an error, but
    /// [`Verdict::Refused`].)
    Refused,
    /// The input can't be decoded as a value, or a text, of the expected type.
    Faulty,
    /// The chain is empty, or has no certificate at the index.
    Empty,
    /// The trust anchors, the answers, the orders file, the limit, the algorithm or an OID is
    /// wrong.
    Arguments,
    /// The library ran out of memory. (If a buffer of this crate can't be allocated, the process
    /// aborts, as with any `Vec`.)
    Memory,
}

impl fmt::Display for Error {
    fn fmt(&self, f: &mut fmt::Formatter<'_>) -> fmt::Result {
        f.write_str(match self {
            Error::Refused => "the orders are rejected",
            Error::Faulty => "the input can't be decoded",
            Error::Empty => "the chain is empty, or has no certificate at this index",
            Error::Arguments => {
                "the anchors, the answers, the orders, the limit, the algorithm or an OID is wrong"
            }
            Error::Memory => "out of memory",
        })
    }
}

impl std::error::Error for Error {}

/// The result of a call that can fail.
pub type Result<T> = std::result::Result<T, Error>;

/// The validity period of a certificate, in seconds since 1970-01-01T00:00:00Z.
#[derive(Clone, Copy, Debug, PartialEq, Eq)]
pub struct Validity {
    /// The first second of the period.
    pub not_before: u64,
    /// The last second of the period.
    pub not_after: u64,
}

/// The positions of the parts of a certificate in its bytes (RFC 5280 4.1).
#[derive(Clone, Debug, PartialEq, Eq)]
pub struct Parts {
    /// The TBSCertificate, which is the signed part.
    pub signed_part: Range<usize>,
    /// The content bytes of the serial number: two's complement, most significant byte first.
    pub serial_number: Range<usize>,
    /// The issuer's name.
    pub issuer: Range<usize>,
    /// The subject's name.
    pub subject: Range<usize>,
    /// The SubjectPublicKeyInfo, which contains the public key and its algorithm.
    pub public_key: Range<usize>,
}

/// An extension of a certificate.
#[derive(Clone, Debug, PartialEq, Eq)]
pub struct Extension {
    /// The position of its content in the certificate.
    pub content: Range<usize>,
    /// Whether it is critical.
    pub critical: bool,
}

/// The verdict on a chain. Only [`Verdict::Trusted`] means that the chain is trusted.
#[derive(Clone, Copy, Debug, PartialEq, Eq)]
#[must_use]
pub enum Verdict {
    /// Each certificate keeps every rule.
    Trusted,
    /// The certificate at index `place` is the first one that breaks a rule, and `rule` is the
    /// first rule that it breaks.
    Refused {
        /// The index of the certificate, counted from 0. A trust anchor issued the certificate at
        /// index 0.
        place: u64,
        /// The rule that is broken.
        rule: Rule,
    },
    /// The bytes from `offset` on, after the first `place` certificates, aren't a certificate.
    Faulty {
        /// The number of certificates before the error.
        place: u64,
        /// The index of the first byte that doesn't belong to a certificate.
        offset: u64,
        /// The kind of the error.
        fault: ChainFault,
    },
    /// The chain is empty.
    Empty,
}

impl Verdict {
    /// Returns whether the chain is trusted.
    #[must_use]
    pub fn is_trusted(&self) -> bool {
        *self == Verdict::Trusted
    }
}

/// The answer of [`audit`]: whether the chain that an orders file describes will be trusted.
#[derive(Clone, Copy, Debug, PartialEq, Eq)]
#[must_use]
pub enum Audit {
    /// It will be trusted under its own root, if its signatures are valid and each certificate is
    /// within the size limit of the validation.
    Trusted,
    /// Its certificate at index `place` is the first one that breaks a rule, and `rule` is the
    /// first rule that it breaks.
    Refused {
        /// The index of the certificate, counted from 0.
        place: u64,
        /// The rule that is broken.
        rule: Rule,
    },
    /// The order at index `place` is rejected, so there is no chain.
    NotIssued {
        /// The index of the order, counted from 0; for [`OrderFault::NoOrders`] it is 0.
        place: u64,
        /// The reason why it is rejected.
        fault: OrderFault,
    },
}

/// The parameters of a validation.
#[derive(Clone, Copy, Debug)]
pub struct Terms<'a> {
    /// Trust anchors (RFC 5914), with nothing between them. Certificates are trust anchors, too.
    pub anchors: &'a [u8],
    /// The validation time, in seconds since 1970-01-01T00:00:00Z.
    pub moment: u64,
    /// The content bytes of the OID of the key purpose, such as [`SERVER_AUTH`], or what
    /// [`identifier_of_text`] returns.
    pub purpose: &'a [u8],
    /// The size limit for one certificate, in bytes; at least 6.
    pub limit: u32,
}

/// Returns the first error of decoding these bytes as a value of the kind, or `None` if they are
/// the encoding of one.
///
/// # Errors
///
/// - `Memory`: out of memory.
pub fn fault_of(der: &[u8], kind: Kind) -> Result<Option<Fault>> {
    calls::fault_of(der, kind)
}

/// Returns the listing of a value of the kind, as `cert_desk show` prints it.
///
/// # Errors
///
/// - `Faulty`: the bytes aren't the encoding of a value of the kind.
/// - `Memory`: out of memory.
pub fn show(der: &[u8], kind: Kind) -> Result<String> {
    calls::show(der, kind).map(text)
}

/// Returns the description of a value of the kind, as `cert_tool describe` prints it, as lines or
/// as JSON. The text is tested, but not proved.
///
/// # Errors
///
/// - `Faulty`: the bytes aren't the encoding of a value of the kind.
/// - `Memory`: out of memory.
pub fn describe(der: &[u8], kind: Kind, json: bool) -> Result<String> {
    calls::describe(der, kind, json).map(text)
}

/// Returns the subject's name of a certificate as text (RFC 4514).
///
/// # Errors
///
/// - `Faulty`: the bytes aren't the encoding of a certificate.
/// - `Memory`: out of memory.
pub fn subject(der: &[u8]) -> Result<String> {
    calls::subject(der).map(text)
}

/// Returns the issuer's name of a certificate as text (RFC 4514).
///
/// # Errors
///
/// - `Faulty`: the bytes aren't the encoding of a certificate.
/// - `Memory`: out of memory.
pub fn issuer(der: &[u8]) -> Result<String> {
    calls::issuer(der).map(text)
}

/// Returns the positions of the parts of a certificate. Nothing is copied.
///
/// # Errors
///
/// - `Faulty`: the bytes aren't the encoding of a certificate.
/// - `Memory`: out of memory.
pub fn parts(der: &[u8]) -> Result<Parts> {
    calls::parts(der)
}

/// Returns the validity period of a certificate.
///
/// # Errors
///
/// - `Faulty`: the bytes aren't the encoding of a certificate.
/// - `Memory`: out of memory.
pub fn validity(der: &[u8]) -> Result<Validity> {
    calls::validity(der)
}

/// Finds the first extension of a certificate with an OID, or returns `None` if it has no such
/// extension. `identifier` is the content bytes of the OID. A second extension with the same OID,
/// which RFC 5280 4.2 forbids and [`verify`] rejects, isn't reported.
///
/// # Errors
///
/// - `Faulty`: the bytes aren't the encoding of a certificate.
/// - `Arguments`: `identifier` isn't an OID of at most 39 bytes.
/// - `Memory`: out of memory.
pub fn extension(der: &[u8], identifier: &[u8]) -> Result<Option<Extension>> {
    calls::extension(der, identifier)
}

/// Returns the text of a name (RFC 4514) that is given in DER.
///
/// # Errors
///
/// - `Faulty`: the bytes aren't the encoding of a name.
/// - `Memory`: out of memory.
pub fn name_text(der: &[u8]) -> Result<String> {
    calls::name_text(der).map(text)
}

/// Returns the DER of a name that is given as text (RFC 4514).
///
/// # Errors
///
/// - `Faulty`: the text isn't that of a name that has an encoding.
/// - `Memory`: out of memory.
pub fn name_of_text(name: &str) -> Result<Vec<u8>> {
    calls::name_of_text(name.as_bytes())
}

/// Returns the dotted text of an OID that is given by its content bytes (X.690 8.19).
///
/// # Errors
///
/// - `Faulty`: the bytes aren't an OID of at most 39 bytes.
/// - `Memory`: out of memory.
pub fn identifier_text(octets: &[u8]) -> Result<String> {
    calls::identifier_text(octets).map(text)
}

/// Returns the content bytes of an OID that is given as dotted text.
///
/// # Errors
///
/// - `Faulty`: the text isn't that of an OID of at most 39 content bytes.
pub fn identifier_of_text(identifier: &str) -> Result<Vec<u8>> {
    calls::identifier_of_text(identifier.as_bytes())
}

/// Returns a line for each signature that has to be verified to validate a chain under trust
/// anchors. `chain` is certificates in DER with nothing between them: the first is the one that a
/// trust anchor issued, and the last is the end entity's ([order](crate#validating-a-chain)).
///
/// A line is `PLACE ANCHOR KEY ALGORITHM SIGNED BITS`, as `cert_tool questions` prints it:
///
/// - PLACE is the index of the certificate, and ANCHOR that of the trust anchor, or `-`. A verifier
///   ignores both.
/// - KEY is the SubjectPublicKeyInfo, ALGORITHM the AlgorithmIdentifier, SIGNED the signed bytes,
///   and BITS the BIT STRING of the signature, each in DER and in hex.
///
/// # Errors
///
/// - `Faulty`: the chain isn't a sequence of certificates of at most `limit` bytes each. For the
///   position and the kind of the error, call [`verify`] without answers.
/// - `Empty`: the chain is empty.
/// - `Arguments`: the trust anchors are wrong, or have 2^32 bytes or more, or the limit is below 6.
/// - `Memory`: out of memory.
pub fn questions(anchors: &[u8], chain: &[u8], limit: u32) -> Result<String> {
    calls::questions(anchors, chain, limit).map(text)
}

/// Validates a chain, which is in the form and the order that [`questions`] takes. `answers` are
/// the lines of [`questions`] whose signatures your verifier has accepted; all other signatures
/// count as invalid. Neither host names nor revocation are checked.
///
/// **A chain that isn't trusted is `Ok`, too**: call [`Verdict::is_trusted`].
///
/// Whoever writes the answers decides which signatures are valid. Don't confuse `answers` with
/// `chain`, which may come from a stranger.
///
/// # Errors
///
/// - `Arguments`: the trust anchors, the answers, the purpose or the limit are wrong.
/// - `Memory`: out of memory.
pub fn verify(answers: &[u8], chain: &[u8], terms: &Terms<'_>) -> Result<Verdict> {
    calls::verify(answers, chain, terms)
}

/// Returns the TBSCertificate at an index of the chain that an orders file describes (docs/CLI.md,
/// "Orders"). The root has index 0. Sign these bytes with `algorithm` (an AlgorithmIdentifier in
/// DER): those of the root with its own key, and all others with the key of the preceding order.
///
/// # Errors
///
/// - `Refused`: the orders are rejected.
/// - `Empty`: the chain has no certificate at this index.
/// - `Arguments`: the orders file or the algorithm is malformed.
/// - `Memory`: out of memory.
pub fn signed_part(orders: &str, place: u32, algorithm: &[u8]) -> Result<Vec<u8>> {
    calls::signed_part(orders.as_bytes(), place, algorithm)
}

/// Returns the certificate at an index, with `signature` as the signature of its TBSCertificate.
///
/// `signature` is the bytes that a signer returns, and not a BIT STRING in DER. For ECDSA, it is
/// the DER of an Ecdsa-Sig-Value (RFC 3279 2.2.3): what `ring` returns with
/// `ECDSA_.._ASN1_SIGNING`, or `ecdsa::der::Signature` of RustCrypto. It isn't verified: use
/// [`verify`] on the whole chain, with its root as trust anchor.
///
/// # Errors
///
/// The errors of [`signed_part`]. `Arguments` is also returned if the signature is too long.
pub fn issue(orders: &str, place: u32, algorithm: &[u8], signature: &[u8]) -> Result<Vec<u8>> {
    calls::issue(orders.as_bytes(), place, algorithm, signature)
}

/// Returns whether the chain that an orders file describes, signed by `algorithm`, will be trusted
/// under its own root at the validation time `moment` (seconds since 1970-01-01T00:00:00Z), for a
/// key purpose (the content bytes of its OID), if all its signatures are valid and each certificate
/// is within the size limit of the validation.
///
/// # Errors
///
/// - `Arguments`: the orders file, the algorithm or the purpose is malformed.
/// - `Memory`: out of memory.
pub fn audit(orders: &str, algorithm: &[u8], moment: u64, purpose: &[u8]) -> Result<Audit> {
    calls::audit(orders.as_bytes(), algorithm, moment, purpose)
}

/// Converts the text that a call wrote, which is UTF-8.
fn text(octets: Vec<u8>) -> String {
    String::from_utf8(octets).expect("the calls write UTF-8")
}
