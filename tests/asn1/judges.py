"""What OpenSSL and Python's `cryptography` read, and whether OpenSSL writes it back."""

import ctypes
import ctypes.util
import warnings

from cryptography.hazmat.primitives import serialization
from cryptography.hazmat.primitives.serialization import pkcs7
from cryptography.x509 import ocsp

CRYPTO = ctypes.CDLL(ctypes.util.find_library("crypto"))
CRYPTO.ERR_reason_error_string.restype = ctypes.c_char_p
CRYPTO.ERR_peek_error.restype = ctypes.c_ulong
CRYPTO.ERR_reason_error_string.argtypes = [ctypes.c_ulong]
# Of each kind, the type of OpenSSL.
TYPES = {
    "ocsp-request": "OCSP_REQUEST",
    "ocsp-response": "OCSP_RESPONSE",
    "message": "CMS_ContentInfo",
    "key": "PKCS8_PRIV_KEY_INFO",
    "encrypted-key": "X509_SIG",
    "timestamp-request": "TS_REQ",
    "timestamp": "TS_RESP",
}


def function(name):
    found = getattr(CRYPTO, name)
    found.restype, found.argtypes = ctypes.c_void_p, None
    return found


def written(of, value):
    """The octets that OpenSSL writes of a value."""
    write = getattr(CRYPTO, f"i2d_{of}")
    write.restype = ctypes.c_int
    size = write(ctypes.c_void_p(value), None)
    if size < 0:
        return None
    room = (ctypes.c_ubyte * max(size, 1))()
    end = ctypes.cast(room, ctypes.POINTER(ctypes.c_ubyte))
    write(ctypes.c_void_p(value), ctypes.byref(end))
    return bytes(room[:size])


def openssl(kind, octets):
    """"same", "other" where it writes other bytes, or "refused", and the first reason."""
    of = TYPES[kind]
    CRYPTO.ERR_clear_error()
    room = ctypes.create_string_buffer(octets, len(octets))
    start = ctypes.addressof(room)
    place = ctypes.c_void_p(start)
    value = function(f"d2i_{of}")(None, ctypes.byref(place), ctypes.c_long(len(octets)))
    if not value:
        return "refused", first_reason()
    found = "refused", "octets are left behind"
    if place.value == start + len(octets):
        found = "same" if written(of, value) == octets else "other", ""
        if kind == "ocsp-response":
            found = basic(value, octets, found)
    function(f"{of}_free")(ctypes.c_void_p(value))
    return found


def first_reason():
    """The first of the errors of a call, which a parser of OpenSSL reports from the inside out."""
    return (CRYPTO.ERR_reason_error_string(CRYPTO.ERR_peek_error()) or b"").decode()


def basic(value, octets, found):
    """The same of a response and the basic response that it contains, if it contains one."""
    CRYPTO.ERR_clear_error()
    inside = function("OCSP_response_get1_basic")(ctypes.c_void_p(value))
    if not inside:
        reason = first_reason()
        is_other = reason in ("no response data", "not basic response")
        return found if is_other else ("refused", reason)
    encoding = written("OCSP_BASICRESP", inside)
    function("OCSP_BASICRESP_free")(ctypes.c_void_p(inside))
    return found if encoding and encoding in octets else ("other", "")


def ocsp_request(octets):
    found = ocsp.load_der_ocsp_request(octets)
    return found.serial_number, list(found.extensions)


def ocsp_response(octets):
    found = ocsp.load_der_ocsp_response(octets)
    if found.response_status == ocsp.OCSPResponseStatus.SUCCESSFUL:
        return found.produced_at, list(found.responses), found.certificates, list(found.extensions)
    return None


READERS = {
    "ocsp-request": ocsp_request,
    "ocsp-response": ocsp_response,
    "message": pkcs7.load_der_pkcs7_certificates,
    "key": lambda octets: serialization.load_der_private_key(octets, None),
    "encrypted-key": lambda octets: serialization.load_der_private_key(octets, b"x"),
}


def python(kind, octets):
    """"read", or the reason; None where `cryptography` has no reader."""
    if kind not in READERS:
        return None
    with warnings.catch_warnings():
        warnings.simplefilter("ignore")
        try:
            READERS[kind](octets)
        except BaseException as error:  # a panic of its Rust is no Exception
            return f"{type(error).__name__}: {str(error).splitlines()[0] if str(error) else ''}"
    return "read"
