//! Calls the functions for files of the repository. The expected results are those of OpenSSL, or
//! of a standard.

use std::fs;
use std::path::Path;

use wurstdrape::{
    Audit, ChainFault, Error, FaultKind, Kind, OrderFault, Parts, Rule, Terms, Verdict, SERVER_AUTH,
};

// 2026-05-28
const MOMENT: u64 = 1_780_000_000;

fn read(name: &str) -> Vec<u8> {
    fs::read(
        Path::new(env!("CARGO_MANIFEST_DIR"))
            .join("../..")
            .join(name),
    )
    .unwrap()
}

fn data(name: &str) -> Vec<u8> {
    read(&format!("crates/cert_tool/data/{name}"))
}

/// Returns the root, the chain below it, and the answers to its questions.
fn files_of_chain() -> (Vec<u8>, Vec<u8>, Vec<u8>) {
    let answers = data("answers.txt");
    (read("examples/root.der"), read("examples/chain.der"), answers)
}

fn terms(anchors: &[u8]) -> Terms<'_> {
    Terms {
        anchors,
        moment: MOMENT,
        purpose: SERVER_AUTH,
        limit: wurstdrape::LIMIT,
    }
}

#[test]
fn parts_are_those_that_openssl_tells() {
    let der = read("examples/server.der");
    assert_eq!(wurstdrape::subject(&der).unwrap(), "CN=desk.example");
    assert_eq!(
        wurstdrape::issuer(&der).unwrap(),
        "CN=Desk Intermediate,O=Desk Example,C=US"
    );
    // the positions that `openssl asn1parse` prints
    let parts = Parts {
        signed_part: 4..425,
        serial_number: 15..35,
        issuer: 47..113,
        subject: 145..170,
        public_key: 170..261,
    };
    assert_eq!(wurstdrape::parts(&der), Ok(parts));
    let validity = wurstdrape::validity(&der).unwrap();
    assert_eq!(
        (validity.not_before, validity.not_after),
        (1_767_225_600, 2_082_758_400)
    );
    let constraints = wurstdrape::extension(&der, &[0x55, 0x1d, 19])
        .unwrap()
        .unwrap();
    assert_eq!(
        (constraints.content, constraints.critical),
        (279..281, true)
    );
    assert_eq!(wurstdrape::extension(&der, &[0x55, 0x1d, 30]), Ok(None));
    assert_eq!(wurstdrape::extension(&der, &[0x80]), Err(Error::Arguments));
}

#[test]
fn faults_are_told() {
    let mut der = read("examples/server.der");
    assert_eq!(wurstdrape::fault_of(&der, Kind::Certificate), Ok(None));
    assert!(wurstdrape::fault_of(&der, Kind::List).unwrap().is_some());
    der.push(0);
    let fault = wurstdrape::fault_of(&der, Kind::Certificate)
        .unwrap()
        .unwrap();
    assert_eq!(fault.kind, FaultKind::TrailingData);
    assert_eq!(fault.octet, Some(der.len() as u64 - 1));
    assert_eq!(wurstdrape::subject(&der), Err(Error::Faulty));
    assert_eq!(wurstdrape::validity(&der), Err(Error::Faulty));
    assert_eq!(wurstdrape::parts(&der), Err(Error::Faulty));
    assert_eq!(wurstdrape::show(&[], Kind::Certificate), Err(Error::Faulty));
}

#[test]
fn texts_go_both_ways() {
    // as `openssl asn1parse -genstr OID:1.2.840.113549` encodes it
    let octets = [0x2a, 0x86, 0x48, 0x86, 0xf7, 0x0d];
    assert_eq!(
        wurstdrape::identifier_text(&octets).unwrap(),
        "1.2.840.113549"
    );
    assert_eq!(
        wurstdrape::identifier_of_text("1.2.840.113549").unwrap(),
        octets
    );
    assert_eq!(wurstdrape::identifier_of_text("3.1"), Err(Error::Faulty));
    let name = wurstdrape::name_of_text("CN=a,O=b").unwrap();
    assert_eq!(wurstdrape::name_text(&name).unwrap(), "CN=a,O=b");
    assert_eq!(wurstdrape::name_of_text("CN"), Err(Error::Faulty));
}

#[test]
fn other_kinds_are_listed_and_described() {
    let list = wurstdrape::show(&data("list.der"), Kind::List).unwrap();
    assert!(list.starts_with("list\n"));
    let request = wurstdrape::describe(&data("request.der"), Kind::Request, false).unwrap();
    assert!(request.starts_with("request"));
    let json = wurstdrape::describe(&read("examples/server.der"), Kind::Certificate, true).unwrap();
    assert!(json.starts_with('{') && json.ends_with("}\n"));
}

#[test]
fn a_chain_is_trusted_by_its_answers() {
    let (root, chain, answers) = files_of_chain();
    let questions = wurstdrape::questions(&root, &chain, wurstdrape::LIMIT).unwrap();
    assert_eq!(questions.as_bytes(), answers);
    let verdict = wurstdrape::verify(&answers, &chain, &terms(&root));
    assert_eq!(verdict, Ok(Verdict::Trusted));
    assert!(verdict.unwrap().is_trusted());

    // without the answer for the first certificate
    let second = questions.find('\n').unwrap() + 1;
    assert_eq!(
        wurstdrape::verify(&answers[second..], &chain, &terms(&root)),
        Ok(Verdict::Refused {
            place: 0,
            rule: Rule::WrongSignature
        })
    );
}

#[test]
fn a_chain_is_refused_for_its_reason() {
    let (root, chain, answers) = files_of_chain();
    let early = Terms {
        moment: 1,
        ..terms(&root)
    };
    assert_eq!(
        wurstdrape::verify(&answers, &chain, &early),
        Ok(Verdict::Refused {
            place: 0,
            rule: Rule::NotYetValid
        })
    );
    match wurstdrape::verify(&answers, &chain[..chain.len() - 1], &terms(&root)) {
        Ok(Verdict::Faulty {
            place: 1, fault, ..
        }) => assert_eq!(fault, ChainFault::Truncated),
        other => panic!("{other:?}"),
    }
    assert_eq!(
        wurstdrape::verify(&answers, &[], &terms(&root)),
        Ok(Verdict::Empty)
    );
    assert_eq!(wurstdrape::questions(&root, &[], 4096), Err(Error::Empty));
    let faulty = Err(Error::Arguments);
    assert_eq!(wurstdrape::verify(b"0 0", &chain, &terms(&root)), faulty);
    assert_eq!(
        wurstdrape::verify(&answers, &chain, &terms(&root[1..])),
        faulty
    );
    let narrow = Terms {
        limit: 5,
        ..terms(&root)
    };
    assert_eq!(wurstdrape::verify(&answers, &chain, &narrow), faulty);
}

#[test]
fn a_chain_is_issued_by_signatures_from_outside() {
    let orders = String::from_utf8(read("examples/orders.txt")).unwrap();
    // ecdsa-with-SHA256 (RFC 5758 3.2)
    let algorithm = [0x30, 10, 6, 8, 0x2a, 0x86, 0x48, 0xce, 0x3d, 4, 3, 2];
    for (place, name) in [(0, "Desk Root"), (1, "Desk Intermediate"), (2, "desk.example")] {
        let part = wurstdrape::signed_part(&orders, place, &algorithm).unwrap();
        let der = wurstdrape::issue(&orders, place, &algorithm, b"signature").unwrap();
        assert!(der.ends_with(b"\x03\x0a\0signature"));
        assert_eq!(der[wurstdrape::parts(&der).unwrap().signed_part], part);
        let subject = wurstdrape::subject(&der).unwrap();
        assert!(subject.starts_with(&format!("CN={name}")));
    }
    let no = |orders: &str, place, algorithm: &[u8]| {
        let part = wurstdrape::signed_part(orders, place, algorithm).unwrap_err();
        let whole = wurstdrape::issue(orders, place, algorithm, b"signature");
        assert_eq!(whole, Err(part));
        part
    };
    assert_eq!(no(&orders, 3, &algorithm), Error::Empty);
    assert_eq!(no("order\n", 0, &algorithm), Error::Arguments);
    assert_eq!(no(&orders, 0, &[]), Error::Arguments);
    assert_eq!(no("", 0, &algorithm), Error::Refused);
}

#[test]
fn orders_are_audited_before_a_signature_is_made() {
    let orders = String::from_utf8(read("examples/orders.txt")).unwrap();
    let algorithm = [0x30, 10, 6, 8, 0x2a, 0x86, 0x48, 0xce, 0x3d, 4, 3, 2];
    let audit = |orders: &str, moment| {
        wurstdrape::audit(orders, &algorithm, moment, SERVER_AUTH)
    };
    assert_eq!(audit(&orders, 1780000000), Ok(Audit::Trusted));
    let rule = |place, rule| Ok(Audit::Refused { place, rule });
    assert_eq!(audit(&orders, 1), rule(0, Rule::NotYetValid));
    assert_eq!(audit(&orders, 1830000000), rule(2, Rule::Expired));
    let not_issued = |place, fault| Ok(Audit::NotIssued { place, fault });
    assert_eq!(audit("", 1), not_issued(0, OrderFault::NoOrders));
    let long = orders.replace("serial 02", &format!("serial 01{}", "00".repeat(20)));
    assert_eq!(audit(&long, 1), not_issued(1, OrderFault::Serial));
    assert_eq!(audit("order\n", 1), Err(Error::Arguments));
    for (algorithm, purpose) in [(&algorithm[..], &[][..]), (&[], SERVER_AUTH)] {
        let none = wurstdrape::audit(&orders, algorithm, 1, purpose);
        assert_eq!(none, Err(Error::Arguments));
    }
}

#[test]
fn threads_call_at_once() {
    let der = read("examples/server.der");
    std::thread::scope(|scope| {
        for _ in 0..8 {
            scope.spawn(|| {
                for _ in 0..500 {
                    assert_eq!(wurstdrape::subject(&der).unwrap(), "CN=desk.example");
                }
            });
        }
    });
}
