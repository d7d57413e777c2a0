"""What the header has, for tests that call the library as C does."""
import ctypes


class Slice(ctypes.Structure):
    _fields_ = [("at", ctypes.c_char_p), ("length", ctypes.c_size_t)]


class File(ctypes.Structure):
    _fields_ = [("name", Slice), ("text", Slice)]


class Policy(ctypes.Structure):
    _fields_ = [("held", ctypes.c_void_p), ("is_open", ctypes.c_bool)]


class Request(ctypes.Structure):
    _fields_ = [(name, Slice) for name in ("octets", "secret", "reply", "control")] + [
        ("authenticator", ctypes.c_uint8 * 16), ("form", ctypes.c_uint8), ("identifier", ctypes.c_uint8),
        ("has_authenticator", ctypes.c_bool), ("has_secret", ctypes.c_bool)]


class Outcome(ctypes.Structure):
    _fields_ = [("packet_length", ctypes.c_size_t), ("report_length", ctypes.c_size_t),
                ("code", ctypes.c_uint8), ("sends", ctypes.c_uint8), ("stopped", ctypes.c_bool)]


def slice_of(some: bytes) -> Slice:
    return Slice(some, len(some))


def load(library: str) -> ctypes.CDLL:
    radpolicy = ctypes.CDLL(library)
    for call in (radpolicy.radpolicy_open, radpolicy.radpolicy_run, radpolicy.radpolicy_close):
        call.restype = ctypes.c_uint8
    return radpolicy


class Pair(ctypes.Structure):
    _fields_ = [(name, ctypes.c_size_t) for name in ("value", "value_length", "line", "line_length", "name_length")] + [
        ("within", ctypes.c_uint32), ("number", ctypes.c_uint32), ("kind", ctypes.c_uint8)]


class Lists(ctypes.Structure):
    _fields_ = [(name, ctypes.c_size_t) for name in ("packet_length", "octets_length", "request_count", "reply_count",
                                                     "control_count")] + [
        ("code", ctypes.c_uint8), ("sends", ctypes.c_uint8), ("stopped", ctypes.c_bool)]
