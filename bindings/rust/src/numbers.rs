//! The numbers of rules, reasons and kinds of errors, which are those of `wurstdrape.h`.

/// The rules for each certificate of a chain (RFC 5280 6.1), in the order in which they are
/// checked.
#[derive(Clone, Copy, Debug, PartialEq, Eq)]
#[repr(u8)]
pub enum Rule {
    /// The signature algorithms inside and outside of the TBSCertificate differ (RFC 5280 4.1.1.2).
    AlgorithmsDiffer = 1,
    /// Two extensions have the same OID (4.2).
    DuplicateExtension = 2,
    /// The content of keyUsage, subjectAltName, basicConstraints or extKeyUsage can't be decoded.
    MalformedExtension = 3,
    /// An extension other than these four is critical (4.2).
    UnweighedCritical = 4,
    /// The issuer isn't, byte for byte, the subject of the certificate before or, for the first
    /// certificate, the name of a trust anchor (6.1.3 (a)(4)).
    WrongIssuer = 5,
    /// The validation time is before the validity (6.1.3 (a)(2)).
    NotYetValid = 6,
    /// The validation time is after the validity (6.1.3 (a)(2)).
    Expired = 7,
    /// extKeyUsage has neither the key purpose nor anyExtendedKeyUsage (4.2.1.12).
    AgainstPurpose = 8,
    /// Another certificate follows, and this one isn't a CA's (6.1.4 (k), (n)).
    NotAuthority = 9,
    /// The certificate is an intermediate CA that isn't self-issued. With it, more such CAs follow
    /// an earlier certificate than that one's path length allows (6.1.4 (l), (m)).
    PathTooLong = 10,
    /// The verifier doesn't accept the signature over the TBSCertificate (6.1.3 (a)(1)).
    WrongSignature = 11,
}

impl Rule {
    /// All rules, in the order of their numbers.
    pub const ALL: [Rule; 11] = [
        Rule::AlgorithmsDiffer,
        Rule::DuplicateExtension,
        Rule::MalformedExtension,
        Rule::UnweighedCritical,
        Rule::WrongIssuer,
        Rule::NotYetValid,
        Rule::Expired,
        Rule::AgainstPurpose,
        Rule::NotAuthority,
        Rule::PathTooLong,
        Rule::WrongSignature,
    ];

    pub(crate) fn of(number: u64) -> Rule {
        Rule::ALL[number as usize - 1]
    }
}

/// The reasons why orders are rejected.
#[derive(Clone, Copy, Debug, PartialEq, Eq)]
#[repr(u8)]
pub enum OrderFault {
    /// The file has no orders.
    NoOrders = 21,
    /// The name can't be parsed.
    Name = 22,
    /// The name isn't allowed for a root.
    RootName = 23,
    /// The name isn't allowed for an end entity.
    SubscriberName = 24,
    /// The serial number has no bytes, or more than 20 in DER, where a first byte of 0x80 or more
    /// takes one more.
    Serial = 25,
    /// A date is invalid, or notAfter is before notBefore.
    Dates = 26,
    /// An end entity has no DNS name, or one that isn't ASCII.
    DnsName = 27,
    /// A length exceeds 2^32 - 1.
    TooLong = 28,
}

impl OrderFault {
    /// All reasons, in the order of their numbers.
    pub const ALL: [OrderFault; 8] = [
        OrderFault::NoOrders,
        OrderFault::Name,
        OrderFault::RootName,
        OrderFault::SubscriberName,
        OrderFault::Serial,
        OrderFault::Dates,
        OrderFault::DnsName,
        OrderFault::TooLong,
    ];

    /// Returns the reason with this number, or `None` if the number is that of a rule.
    pub(crate) fn of(number: u64) -> Option<OrderFault> {
        OrderFault::ALL.into_iter().find(|fault| *fault as u64 == number)
    }
}

/// The errors of bytes that aren't a sequence of certificates.
#[derive(Clone, Copy, Debug, PartialEq, Eq)]
#[repr(u8)]
pub enum ChainFault {
    /// The byte where a certificate should begin isn't 0x30.
    NoCertificate = 1,
    /// The length of the certificate is indefinite.
    Indefinite = 2,
    /// The length has more than four bytes after the first.
    LengthTooWide = 3,
    /// The length isn't in the shortest form (X.690 10.1).
    LengthNotShortest = 4,
    /// The certificate has more bytes than the limit, or the chain up to its end has 2^64 bytes or
    /// more.
    TooLarge = 5,
    /// The bytes aren't a certificate in DER, or have a value that isn't supported, such as a date
    /// before 1970.
    Malformed = 6,
    /// The chain ends inside a certificate.
    Truncated = 7,
}

impl ChainFault {
    /// All errors, in the order of their numbers.
    pub const ALL: [ChainFault; 7] = [
        ChainFault::NoCertificate,
        ChainFault::Indefinite,
        ChainFault::LengthTooWide,
        ChainFault::LengthNotShortest,
        ChainFault::TooLarge,
        ChainFault::Malformed,
        ChainFault::Truncated,
    ];

    pub(crate) fn of(number: u64) -> ChainFault {
        ChainFault::ALL[number as usize - 1]
    }
}

/// The kinds of decoding errors. docs/ENCODING.md of the repository says which bytes cause which of
/// them. `DateTime`, `EncodingRules`, `Failed`, `OidUnknown`, `OutOfMemory`, `Reader` and
/// `TagModeUnknown` aren't errors of bytes, so [`crate::fault_of`] never returns them. (A date that
/// is wrong is `Value`.)
#[derive(Clone, Copy, Debug, PartialEq, Eq)]
#[repr(u8)]
pub enum FaultKind {
    /// A text isn't a date, or the date is before 1970 or after 9999.
    DateTime = 1,
    /// A text isn't the name of encoding rules.
    EncodingRules = 2,
    /// The reader or the writer failed in an earlier call.
    Failed = 3,
    /// The input ends too early.
    Incomplete = 4,
    /// A length is indefinite, which DER doesn't allow.
    IndefiniteLength = 5,
    /// The type can't have this length, or the length isn't in its shortest form.
    Length = 6,
    /// Values are nested more than 64 levels deep.
    NestingDepth = 7,
    /// A value isn't encoded in the only form that DER allows.
    Noncanonical = 8,
    /// The bytes aren't an object identifier.
    OidMalformed = 9,
    /// The caller's protocol doesn't know an object identifier.
    OidUnknown = 10,
    /// An allocation failed.
    OutOfMemory = 11,
    /// A length exceeds 2^32 - 1.
    Overflow = 12,
    /// A length has more than four bytes after its first.
    Overlength = 13,
    /// The reader doesn't support the operation.
    Reader = 14,
    /// A set contains a member twice.
    SetDuplicate = 15,
    /// A member of a set is less than the one before it.
    SetOrdering = 16,
    /// A text isn't the name of a tag mode.
    TagModeUnknown = 17,
    /// A tag number isn't in its shortest form, or exceeds 32 bits.
    TagNumberInvalid = 18,
    /// The tag isn't the expected one.
    TagUnexpected = 19,
    /// The tag is of the universal class and isn't supported.
    TagUnknown = 20,
    /// There are bytes after the last field or value.
    TrailingData = 21,
    /// A text isn't UTF-8.
    Utf8 = 22,
    /// The type doesn't have this value.
    Value = 23,
}

impl FaultKind {
    /// All kinds, in the order of their numbers.
    pub const ALL: [FaultKind; 23] = [
        FaultKind::DateTime,
        FaultKind::EncodingRules,
        FaultKind::Failed,
        FaultKind::Incomplete,
        FaultKind::IndefiniteLength,
        FaultKind::Length,
        FaultKind::NestingDepth,
        FaultKind::Noncanonical,
        FaultKind::OidMalformed,
        FaultKind::OidUnknown,
        FaultKind::OutOfMemory,
        FaultKind::Overflow,
        FaultKind::Overlength,
        FaultKind::Reader,
        FaultKind::SetDuplicate,
        FaultKind::SetOrdering,
        FaultKind::TagModeUnknown,
        FaultKind::TagNumberInvalid,
        FaultKind::TagUnexpected,
        FaultKind::TagUnknown,
        FaultKind::TrailingData,
        FaultKind::Utf8,
        FaultKind::Value,
    ];

    pub(crate) fn of(number: u64) -> FaultKind {
        FaultKind::ALL[number as usize - 1]
    }
}
