"""Many messages, made by OpenSSL and by Python's `cryptography`, and mutations of them."""

import datetime
import functools
import subprocess

from cryptography import x509
from cryptography.hazmat.primitives import hashes, serialization
from cryptography.hazmat.primitives.asymmetric import ec, ed25519, rsa, x25519
from cryptography.hazmat.primitives.serialization import PrivateFormat, pkcs7
from cryptography.x509 import ocsp

DER = serialization.Encoding.DER
NOW = datetime.datetime(2026, 1, 1, tzinfo=datetime.timezone.utc)
HASHES = [hashes.SHA1, hashes.SHA224, hashes.SHA256, hashes.SHA384, hashes.SHA512]


class Maker:
    """Makes messages in a folder that has the keys and certificates of by_openssl.py."""

    def __init__(self, folder, random):
        self.folder, self.random = folder, random
        self.ca = x509.load_pem_x509_certificate((folder / "ca.pem").read_bytes())
        self.ca_key = serialization.load_pem_private_key((folder / "ca.key").read_bytes(), None)
        self.certificate = x509.load_pem_x509_certificate((folder / "a.pem").read_bytes())
        self.key = serialization.load_pem_private_key((folder / "a.key").read_bytes(), None)

    def bytes(self, count):
        return self.random.randbytes(count)

    def maybe(self, *words):
        return list(words) if self.random.randrange(2) else []

    def openssl(self, *words):
        """What OpenSSL writes with these words."""
        subprocess.run(["openssl", *words, "-out", "many"], cwd=self.folder, check=True,
                       capture_output=True)
        return (self.folder / "many").read_bytes()

    def digest(self):
        return self.random.choice(HASHES)()

    def serial(self):
        return self.random.getrandbits(self.random.choice([7, 8, 16, 64, 127, 159])) or 1

    def hashed(self):
        """The algorithm, the two hashes and the number by which a certificate is named."""
        digest = self.digest()
        return (self.bytes(digest.digest_size), self.bytes(digest.digest_size), self.serial(),
                digest)

    def made(self, kind):
        """A message of a kind."""
        return {
            "ocsp-request": self.ocsp_request, "ocsp-response": self.ocsp_response,
            "message": self.message, "key": self.clear_key, "encrypted-key": self.encrypted_key,
            "timestamp-request": self.timestamp_request, "timestamp": self.timestamp,
        }[kind]()

    # Each kind.

    def ocsp_request(self):
        if self.random.randrange(10) == 0:
            words = ["ocsp", "-issuer", "ca.pem"]
            for _ in range(self.random.randrange(1, 5)):
                words += ["-serial", hex(self.serial())]
            words += self.maybe("-no_nonce") + self.maybe("-signer", "a.pem", "-signkey", "a.key")
            subprocess.run(["openssl", *words, "-reqout", "many"], cwd=self.folder, check=True,
                           capture_output=True)
            return (self.folder / "many").read_bytes()
        builder = ocsp.OCSPRequestBuilder()
        if self.random.randrange(4) == 0:
            builder = builder.add_certificate(self.certificate, self.ca, self.digest())
        else:
            builder = builder.add_certificate_by_hash(*self.hashed())
        if self.random.randrange(2):
            nonce = x509.OCSPNonce(self.bytes(self.random.randrange(1, 33)))
            builder = builder.add_extension(nonce, self.random.randrange(2) == 0)
        return builder.build().public_bytes(DER)

    def ocsp_response(self):
        random = self.random
        if random.randrange(20) == 0:
            status = random.choice([
                it for it in ocsp.OCSPResponseStatus if it != ocsp.OCSPResponseStatus.SUCCESSFUL
            ])
            return ocsp.OCSPResponseBuilder.build_unsuccessful(status).public_bytes(DER)
        if random.randrange(10) == 0:
            return self.answered()
        status = random.choice(list(ocsp.OCSPCertStatus))
        is_revoked = status == ocsp.OCSPCertStatus.REVOKED
        reasons = [it for it in x509.ReasonFlags if it != x509.ReasonFlags.unspecified]
        name_hash, key_hash, serial, digest = self.hashed()
        builder = ocsp.OCSPResponseBuilder().add_response_by_hash(
            name_hash, key_hash, serial, digest, status, NOW,
            random.choice([None, NOW + datetime.timedelta(7)]), NOW if is_revoked else None,
            random.choice([None, *reasons]) if is_revoked else None,
        )
        by = random.choice(list(ocsp.OCSPResponderEncoding))
        builder = builder.responder_id(by, self.ca)
        if random.randrange(2):
            builder = builder.certificates(random.choice([[self.ca], [self.ca, self.certificate]]))
        if random.randrange(2):
            builder = builder.add_extension(x509.OCSPNonce(self.bytes(16)), False)
        return builder.sign(self.ca_key, hashes.SHA256()).public_bytes(DER)

    def answered(self):
        """A response of OpenSSL's responder."""
        ask = ["ocsp", "-issuer", "ca.pem", "-cert", "a.pem"]
        for _ in range(self.random.randrange(4)):
            ask += ["-serial", hex(self.random.choice([0x1001, 0x1002, self.serial()]))]
        ask += self.maybe("-no_nonce")
        answer = ["ocsp", "-index", "index", "-CA", "ca.pem", "-rsigner", "responder.pem", "-rkey",
                  "responder.key", "-reqin", "asked", *self.maybe("-ndays", "7"),
                  *self.maybe("-resp_key_id"), *self.maybe("-resp_no_certs")]
        for words in ([*ask, "-reqout", "asked"], [*answer, "-respout", "many"]):
            subprocess.run(["openssl", *words], cwd=self.folder, check=True, capture_output=True)
        return (self.folder / "many").read_bytes()

    def message(self):
        ways = [self.signed] * 4 + [self.encrypted] * 3 + [self.other, self.built]
        return self.random.choice(ways)()

    def text(self):
        (self.folder / "text").write_bytes(self.bytes(self.random.randrange(1, 200)))
        return ["-in", "text", "-binary", "-outform", "DER"]

    def signed(self):
        words = ["cms", "-sign", *self.text(), *self.maybe("-nodetach"), *self.maybe("-keyid"),
                 *self.maybe("-noattr"), *self.maybe("-nocerts"), *self.maybe("-nosmimecap"),
                 *self.maybe("-certfile", "ca.pem"), "-md",
                 self.random.choice(["sha1", "sha256", "sha384", "sha512"])]
        signers = self.random.choice([["a"], ["rsa"], ["a", "rsa"]])
        for name in signers:
            words += ["-signer", f"{name}.pem", "-inkey", f"{name}.key"]
            if name == "rsa":
                words += self.maybe("-keyopt", "rsa_padding_mode:pss")
        return self.openssl(*words)

    def encrypted(self):
        cipher = self.random.choice(["-aes-128-cbc", "-aes-256-cbc", "-des3", "-aes-192-cbc"])
        words = ["cms", "-encrypt", cipher, *self.text(), *self.maybe("-keyid")]
        ways = [["-recip", "a.pem"], ["-recip", "rsa.pem"], ["-pwri_password", "x"],
                ["-secretkey", self.bytes(16).hex(), "-secretkeyid", self.bytes(8).hex()],
                ["-recip", "rsa.pem", "-keyopt", "rsa_padding_mode:oaep"]]
        for way in self.random.sample(ways, self.random.randrange(1, 4)):
            words += way
        return self.openssl(*words)

    def other(self):
        way = self.random.choice([
            ["-EncryptedData_encrypt", "-aes-128-cbc", "-secretkey", self.bytes(16).hex()],
            ["-digest_create"], ["-data_create"],
        ])
        return self.openssl("cms", *way, *self.text())

    def built(self):
        """A message that `cryptography` makes."""
        data = self.bytes(self.random.randrange(1, 200))
        if self.random.randrange(2):
            builder = pkcs7.PKCS7EnvelopeBuilder().set_data(data).add_recipient(self.rsa)
            return builder.encrypt(DER, [])
        builder = pkcs7.PKCS7SignatureBuilder().set_data(data)
        builder = builder.add_signer(self.certificate, self.key, hashes.SHA256())
        options = [pkcs7.PKCS7Options.DetachedSignature, pkcs7.PKCS7Options.NoAttributes,
                   pkcs7.PKCS7Options.NoCerts, pkcs7.PKCS7Options.Binary]
        return builder.sign(DER, self.random.sample(options, self.random.randrange(4)))

    @functools.cached_property
    def rsa(self):
        return x509.load_pem_x509_certificate((self.folder / "rsa.pem").read_bytes())

    @functools.cached_property
    def rsa_keys(self):
        return [rsa.generate_private_key(public_exponent=e, key_size=1024) for e in (3, 65537)]

    def private(self):
        return self.random.choice([
            lambda: ec.generate_private_key(self.random.choice(
                [ec.SECP256R1(), ec.SECP384R1(), ec.SECP521R1(), ec.SECP256K1()])),
            ed25519.Ed25519PrivateKey.generate, x25519.X25519PrivateKey.generate,
            lambda: self.random.choice(self.rsa_keys),
        ])()

    def encoded(self, encryption):
        return self.private().private_bytes(DER, PrivateFormat.PKCS8, encryption)

    def clear_key(self):
        return self.encoded(serialization.NoEncryption())

    def encrypted_key(self):
        if self.random.randrange(3):
            (self.folder / "plain").write_bytes(self.clear_key())
            way = self.random.choice([
                ["-v2", "aes-128-cbc"], ["-v2", "aes-256-cbc", "-v2prf", "hmacWithSHA512"],
                ["-v2", "des3"], ["-v1", "PBE-SHA1-3DES"], ["-scrypt", "-scrypt_N", "2"],
            ])
            return self.openssl("pkcs8", "-topk8", "-inform", "DER", "-in", "plain", "-outform",
                                "DER", *way, "-iter", "1", "-passout", "pass:x")
        return self.encoded(serialization.BestAvailableEncryption(b"x"))

    def timestamp_request(self):
        (self.folder / "text").write_bytes(self.bytes(self.random.randrange(1, 200)))
        return self.openssl(
            "ts", "-query", "-data", "text", *self.maybe("-cert"), *self.maybe("-no_nonce"),
            *self.maybe("-tspolicy", self.random.choice(["1.2.3.4.1", "1.3.6.1.4.1.32473.1"])),
            self.random.choice(["-sha1", "-sha224", "-sha256", "-sha384", "-sha512"]),
        )

    def timestamp(self):
        (self.folder / "query").write_bytes(self.timestamp_request())
        return self.openssl("ts", "-reply", "-config", "tsa", "-section", "tsa_config",
                            "-queryfile", "query", "-signer", "tsa.pem", "-inkey", "tsa.key",
                            *self.maybe("-chain", "ca.pem"))
