//! Calls the functions of `wurstdrape.h`, and converts their statuses to `Result`.
//!
//! Rust's references meet most of what `wurstdrape.h` requires of its caller: a slice is never a
//! null pointer, memory behind `&mut` overlaps nothing else, and the bytes of a shared slice don't
//! change. The rest is the program's: it links one `malloc`, and calls no function from a signal
//! handler, or in the child after `fork` if the process has several threads.

use std::ops::Range;

use crate::{
    Audit, ChainFault, Error, Extension, Fault, FaultKind, Kind, OrderFault, Parts, Result, Rule,
    Terms, Validity, Verdict,
};

#[repr(C)]
#[derive(Default)]
struct WdFault {
    kind: u32,
    octet: u64,
}

#[repr(C)]
#[derive(Default)]
struct WdValidity {
    not_before: u64,
    not_after: u64,
}

#[repr(C)]
#[derive(Default)]
struct WdSpan {
    start: usize,
    size: usize,
}

impl WdSpan {
    fn range(&self) -> Range<usize> {
        self.start..self.start + self.size
    }
}

#[repr(C)]
#[derive(Default)]
struct WdSpans {
    signed_part: WdSpan,
    serial_number: WdSpan,
    issuer: WdSpan,
    subject: WdSpan,
    public_key: WdSpan,
}

#[repr(C)]
#[derive(Default)]
struct WdPlace {
    place: u64,
    offset: u64,
    number: u64,
}

#[repr(C)]
#[derive(Default)]
struct WdReason {
    place: u64,
    number: u64,
}

type Is = unsafe extern "C" fn(*const u8, usize, *mut WdFault) -> u32;
type Write = unsafe extern "C" fn(*const u8, usize, *mut u8, usize, *mut usize) -> u32;
type Describe = unsafe extern "C" fn(*const u8, usize, bool, *mut u8, usize, *mut usize) -> u32;

extern "C" {
    fn wd_is_certificate(octets: *const u8, len: usize, fault: *mut WdFault) -> u32;
    fn wd_is_list(octets: *const u8, len: usize, fault: *mut WdFault) -> u32;
    fn wd_is_request(octets: *const u8, len: usize, fault: *mut WdFault) -> u32;
    fn wd_show_certificate(o: *const u8, n: usize, out: *mut u8, m: usize, l: *mut usize) -> u32;
    fn wd_show_list(o: *const u8, n: usize, out: *mut u8, m: usize, l: *mut usize) -> u32;
    fn wd_show_request(o: *const u8, n: usize, out: *mut u8, m: usize, l: *mut usize) -> u32;
    fn wd_describe_certificate(
        octets: *const u8,
        len: usize,
        json: bool,
        out: *mut u8,
        out_len: usize,
        size: *mut usize,
    ) -> u32;
    fn wd_describe_list(
        octets: *const u8,
        len: usize,
        json: bool,
        out: *mut u8,
        out_len: usize,
        size: *mut usize,
    ) -> u32;
    fn wd_describe_request(
        octets: *const u8,
        len: usize,
        json: bool,
        out: *mut u8,
        out_len: usize,
        size: *mut usize,
    ) -> u32;
    fn wd_subject(o: *const u8, n: usize, out: *mut u8, m: usize, l: *mut usize) -> u32;
    fn wd_issuer(o: *const u8, n: usize, out: *mut u8, m: usize, l: *mut usize) -> u32;
    fn wd_parts(octets: *const u8, len: usize, spans: *mut WdSpans) -> u32;
    fn wd_dates(octets: *const u8, len: usize, dates: *mut WdValidity) -> u32;
    fn wd_extension(
        octets: *const u8,
        len: usize,
        identifier: *const u8,
        identifier_len: usize,
        span: *mut WdSpan,
        critical: *mut bool,
    ) -> u32;
    fn wd_name_text(o: *const u8, n: usize, out: *mut u8, m: usize, l: *mut usize) -> u32;
    fn wd_name_of_text(o: *const u8, n: usize, out: *mut u8, m: usize, l: *mut usize) -> u32;
    fn wd_identifier_text(o: *const u8, n: usize, out: *mut u8, m: usize, l: *mut usize) -> u32;
    fn wd_identifier_of_text(o: *const u8, n: usize, out: *mut u8, m: usize, l: *mut usize) -> u32;
    fn wd_questions(
        anchors: *const u8,
        anchors_len: usize,
        chain: *const u8,
        chain_len: usize,
        limit: u32,
        out: *mut u8,
        out_len: usize,
        size: *mut usize,
    ) -> u32;
    fn wd_verify(
        answers: *const u8,
        answers_len: usize,
        anchors: *const u8,
        anchors_len: usize,
        chain: *const u8,
        chain_len: usize,
        moment: u64,
        purpose: *const u8,
        purpose_len: usize,
        limit: u32,
        told: *mut WdPlace,
    ) -> u32;
    fn wd_signed_part(
        orders: *const u8,
        orders_len: usize,
        place: u32,
        algorithm: *const u8,
        algorithm_len: usize,
        out: *mut u8,
        out_len: usize,
        size: *mut usize,
    ) -> u32;
    fn wd_issue(
        orders: *const u8,
        orders_len: usize,
        place: u32,
        algorithm: *const u8,
        algorithm_len: usize,
        signature: *const u8,
        signature_len: usize,
        out: *mut u8,
        out_len: usize,
        size: *mut usize,
    ) -> u32;
    fn wd_audit(
        orders: *const u8,
        orders_len: usize,
        algorithm: *const u8,
        algorithm_len: usize,
        moment: u64,
        purpose: *const u8,
        purpose_len: usize,
        told: *mut WdReason,
    ) -> u32;
}

const DONE: u32 = 0;
const REFUSED: u32 = 1;
const FAULTY: u32 = 2;
const EMPTY: u32 = 3;
const ARGUMENTS: u32 = 4;
const NO_ROOM: u32 = 5;

/// Returns the error for a status other than `DONE`.
fn error_of(status: u32) -> Error {
    match status {
        REFUSED => Error::Refused,
        FAULTY => Error::Faulty,
        EMPTY => Error::Empty,
        ARGUMENTS => Error::Arguments,
        _ => Error::Memory,
    }
}

/// Returns what a call writes. If 4096 bytes are too few, it is called again with a buffer of the
/// size that it needs.
fn written(mut call: impl FnMut(&mut [u8], &mut usize) -> u32) -> Result<Vec<u8>> {
    let mut room = vec![0; 4096];
    loop {
        let mut length = 0;
        match call(&mut room, &mut length) {
            DONE => {
                room.truncate(length);
                return Ok(room);
            }
            NO_ROOM => room = vec![0; length],
            status => return Err(error_of(status)),
        }
    }
}

/// Returns what a call writes for these bytes.
fn written_of(call: Write, octets: &[u8]) -> Result<Vec<u8>> {
    // SAFETY: the pointers are those of slices and a value that are borrowed during the call.
    written(|out, length| unsafe {
        call(
            octets.as_ptr(),
            octets.len(),
            out.as_mut_ptr(),
            out.len(),
            length,
        )
    })
}

pub fn fault_of(der: &[u8], kind: Kind) -> Result<Option<Fault>> {
    let call: Is = match kind {
        Kind::Certificate => wd_is_certificate,
        Kind::List => wd_is_list,
        Kind::Request => wd_is_request,
    };
    let mut told = WdFault::default();
    // SAFETY: the pointers are those of a slice and a value that are borrowed during the call.
    match unsafe { call(der.as_ptr(), der.len(), &mut told) } {
        DONE => Ok(None),
        FAULTY => Ok(Some(Fault {
            kind: FaultKind::of(told.kind.into()),
            octet: (told.octet != u64::MAX).then_some(told.octet),
        })),
        status => Err(error_of(status)),
    }
}

pub fn show(der: &[u8], kind: Kind) -> Result<Vec<u8>> {
    let call: Write = match kind {
        Kind::Certificate => wd_show_certificate,
        Kind::List => wd_show_list,
        Kind::Request => wd_show_request,
    };
    written_of(call, der)
}

pub fn describe(der: &[u8], kind: Kind, json: bool) -> Result<Vec<u8>> {
    let call: Describe = match kind {
        Kind::Certificate => wd_describe_certificate,
        Kind::List => wd_describe_list,
        Kind::Request => wd_describe_request,
    };
    // SAFETY: the pointers are those of slices and a value that are borrowed during the call.
    written(|out, length| unsafe {
        call(
            der.as_ptr(),
            der.len(),
            json,
            out.as_mut_ptr(),
            out.len(),
            length,
        )
    })
}

pub fn subject(der: &[u8]) -> Result<Vec<u8>> {
    written_of(wd_subject, der)
}

pub fn issuer(der: &[u8]) -> Result<Vec<u8>> {
    written_of(wd_issuer, der)
}

pub fn parts(der: &[u8]) -> Result<Parts> {
    let mut told = WdSpans::default();
    // SAFETY: the pointers are those of a slice and a value that are borrowed during the call.
    match unsafe { wd_parts(der.as_ptr(), der.len(), &mut told) } {
        DONE => Ok(Parts {
            signed_part: told.signed_part.range(),
            serial_number: told.serial_number.range(),
            issuer: told.issuer.range(),
            subject: told.subject.range(),
            public_key: told.public_key.range(),
        }),
        status => Err(error_of(status)),
    }
}

pub fn validity(der: &[u8]) -> Result<Validity> {
    let mut told = WdValidity::default();
    // SAFETY: the pointers are those of a slice and a value that are borrowed during the call.
    match unsafe { wd_dates(der.as_ptr(), der.len(), &mut told) } {
        DONE => Ok(Validity {
            not_before: told.not_before,
            not_after: told.not_after,
        }),
        status => Err(error_of(status)),
    }
}

pub fn extension(der: &[u8], identifier: &[u8]) -> Result<Option<Extension>> {
    let (mut span, mut critical) = (WdSpan::default(), false);
    // SAFETY: the pointers are those of slices and values that are borrowed during the call.
    let status = unsafe {
        wd_extension(
            der.as_ptr(),
            der.len(),
            identifier.as_ptr(),
            identifier.len(),
            &mut span,
            &mut critical,
        )
    };
    match status {
        DONE => Ok(Some(Extension {
            content: span.range(),
            critical,
        })),
        EMPTY => Ok(None),
        status => Err(error_of(status)),
    }
}

pub fn name_text(der: &[u8]) -> Result<Vec<u8>> {
    written_of(wd_name_text, der)
}

pub fn name_of_text(text: &[u8]) -> Result<Vec<u8>> {
    written_of(wd_name_of_text, text)
}

pub fn identifier_text(octets: &[u8]) -> Result<Vec<u8>> {
    written_of(wd_identifier_text, octets)
}

pub fn identifier_of_text(text: &[u8]) -> Result<Vec<u8>> {
    written_of(wd_identifier_of_text, text)
}

pub fn questions(anchors: &[u8], chain: &[u8], limit: u32) -> Result<Vec<u8>> {
    // SAFETY: the pointers are those of slices and a value that are borrowed during the call.
    written(|out, length| unsafe {
        wd_questions(
            anchors.as_ptr(),
            anchors.len(),
            chain.as_ptr(),
            chain.len(),
            limit,
            out.as_mut_ptr(),
            out.len(),
            length,
        )
    })
}

pub fn verify(answers: &[u8], chain: &[u8], terms: &Terms<'_>) -> Result<Verdict> {
    let mut told = WdPlace::default();
    // SAFETY: the pointers are those of slices and a value that are borrowed during the call.
    let status = unsafe {
        wd_verify(
            answers.as_ptr(),
            answers.len(),
            terms.anchors.as_ptr(),
            terms.anchors.len(),
            chain.as_ptr(),
            chain.len(),
            terms.moment,
            terms.purpose.as_ptr(),
            terms.purpose.len(),
            terms.limit,
            &mut told,
        )
    };
    match status {
        DONE => Ok(Verdict::Trusted),
        REFUSED => Ok(Verdict::Refused {
            place: told.place,
            rule: Rule::of(told.number),
        }),
        FAULTY => Ok(Verdict::Faulty {
            place: told.place,
            offset: told.offset,
            fault: ChainFault::of(told.number),
        }),
        EMPTY => Ok(Verdict::Empty),
        status => Err(error_of(status)),
    }
}

pub fn signed_part(orders: &[u8], place: u32, algorithm: &[u8]) -> Result<Vec<u8>> {
    // SAFETY: the pointers are those of slices and a value that are borrowed during the call.
    written(|out, length| unsafe {
        wd_signed_part(
            orders.as_ptr(),
            orders.len(),
            place,
            algorithm.as_ptr(),
            algorithm.len(),
            out.as_mut_ptr(),
            out.len(),
            length,
        )
    })
}

pub fn issue(orders: &[u8], place: u32, algorithm: &[u8], signature: &[u8]) -> Result<Vec<u8>> {
    // SAFETY: the pointers are those of slices and a value that are borrowed during the call.
    written(|out, length| unsafe {
        wd_issue(
            orders.as_ptr(),
            orders.len(),
            place,
            algorithm.as_ptr(),
            algorithm.len(),
            signature.as_ptr(),
            signature.len(),
            out.as_mut_ptr(),
            out.len(),
            length,
        )
    })
}

pub fn audit(orders: &[u8], algorithm: &[u8], moment: u64, purpose: &[u8]) -> Result<Audit> {
    let mut told = WdReason::default();
    // SAFETY: the pointers are those of slices and a value that are borrowed during the call.
    let status = unsafe {
        wd_audit(
            orders.as_ptr(),
            orders.len(),
            algorithm.as_ptr(),
            algorithm.len(),
            moment,
            purpose.as_ptr(),
            purpose.len(),
            &mut told,
        )
    };
    match (status, OrderFault::of(told.number)) {
        (DONE, _) => Ok(Audit::Trusted),
        (REFUSED, Some(fault)) => Ok(Audit::NotIssued {
            place: told.place,
            fault,
        }),
        (REFUSED, None) => Ok(Audit::Refused {
            place: told.place,
            rule: Rule::of(told.number),
        }),
        (status, _) => Err(error_of(status)),
    }
}
