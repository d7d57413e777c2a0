"""RADIUS policies, run by libradpolicy on requests, and lists of attributes that are edited and come back.

    import radpolicy

    with radpolicy.Dictionary.of_folder("/usr/share/freeradius") as dictionary:
        with dictionary.policy(b'update reply { Reply-Message := "hello" }') as policy:
            print(policy.run(radpolicy.Request(b"User-Name = bob")).report)

A policy is read once and run on any number of requests. What is refused raises Refused, with the line that the program
radpolicy prints for it; where there is no memory it is MemoryError, and a handle that was closed is a ValueError. Any
thread may use a Dictionary, a Policy or a Store: the calls of one handle wait for each other. For calls at the same
time give each thread a handle of its own, by `share`.

The library is that of the same version, libradpolicy.so.0 where the system finds it, or what the environment's
RADPOLICY_LIBRARY names. Its header radpolicy.h says what each call does."""
import ctypes
import os
import threading
from enum import IntEnum
from pathlib import Path
from typing import Any, Iterable, List, NamedTuple, Optional, Tuple, Type, TypeVar, Union

__version__ = "0.1.0"

LIBRARY = "libradpolicy.so.0"

_Self = TypeVar("_Self", bound="_Handle")


class Refused(Exception):
    """What was given is refused. Its text is the line that the program prints, as `radpolicy: E51 policy:3: token does
    not fit`."""


class Full(Exception):
    """The list would have more than 4096 pairs. It is as it was."""


class Kind(IntEnum):
    """The kind of an attribute: a plain one, a vendor's (RFC 2865, section 5.26), or an extended one (RFC 6929)."""

    PLAIN = 0
    VENDOR = 1
    EXTENDED = 2


class Form(IntEnum):
    """How a request is given: the octets of a packet, or lines of an Access-Request or an Accounting-Request."""

    PACKET = 0
    ACCESS_LINES = 1
    ACCOUNTING_LINES = 2


class Code(IntEnum):
    """The last code of a policy."""

    OK = 0
    NOOP = 1
    UPDATED = 2
    FAIL = 3
    REJECT = 4


class Sends(IntEnum):
    """What is sent: no packet was made since there is no secret, or nothing is sent, or a reply."""

    UNMADE = 0
    NOTHING = 1
    REPLY = 2


class Which(IntEnum):
    """A list of a store."""

    REQUEST = 0
    REPLY = 1
    CONTROL = 2


class Operator(IntEnum):
    """The operators of policies: = := += ^= -= == !*"""

    ADD_NEW = 0
    REPLACE = 1
    APPEND = 2
    PREPEND = 3
    REMOVE_EQUAL = 4
    KEEP_EQUAL = 5
    REMOVE_ALL = 6


class Attribute(NamedTuple):
    """An attribute by its numbers: its own, and that of the vendor or of the extended type within which it has that."""

    number: int
    within: int = 0
    kind: Kind = Kind.PLAIN


class Request(NamedTuple):
    """A request, and the lines of the lists with which its run begins. With a secret a reply packet is made. The
    authenticator is that of a request that is given as lines."""

    octets: bytes
    form: Form = Form.ACCESS_LINES
    secret: Optional[bytes] = None
    identifier: int = 0
    authenticator: Optional[bytes] = None
    reply: bytes = b""
    control: bytes = b""


class Outcome(NamedTuple):
    """What a run came to. The packet is empty where none is sent."""

    code: Code
    sends: Sends
    stopped: bool
    packet: bytes
    report: str


class Pair(NamedTuple):
    """A pair of a list: its value's octets as they are sent, a hidden one's in plain, and its line as reports have it."""

    attribute: Attribute
    value: bytes
    name: str
    line: str


class Lists(NamedTuple):
    """What a run came to, with the pairs of its lists."""

    code: Code
    sends: Sends
    stopped: bool
    packet: bytes
    request: List[Pair]
    reply: List[Pair]
    control: List[Pair]


class _Slice(ctypes.Structure):
    _fields_ = [("at", ctypes.c_char_p), ("length", ctypes.c_size_t)]


class _File(ctypes.Structure):
    _fields_ = [("name", _Slice), ("text", _Slice)]


class _Held(ctypes.Structure):
    _fields_ = [("held", ctypes.c_void_p), ("is_open", ctypes.c_bool)]


class _Attribute(ctypes.Structure):
    _fields_ = [("within", ctypes.c_uint32), ("number", ctypes.c_uint32), ("kind", ctypes.c_uint8)]


class _Request(ctypes.Structure):
    _fields_ = [(name, _Slice) for name in ("octets", "secret", "reply", "control")] + [
        ("authenticator", ctypes.c_uint8 * 16), ("form", ctypes.c_uint8), ("identifier", ctypes.c_uint8),
        ("has_authenticator", ctypes.c_bool), ("has_secret", ctypes.c_bool)]


class _Outcome(ctypes.Structure):
    _fields_ = [("packet_length", ctypes.c_size_t), ("report_length", ctypes.c_size_t), ("code", ctypes.c_uint8),
                ("sends", ctypes.c_uint8), ("stopped", ctypes.c_bool)]


class _Pair(ctypes.Structure):
    _fields_ = [(name, ctypes.c_size_t) for name in ("value", "value_length", "line", "line_length", "name_length")] + [
        ("within", ctypes.c_uint32), ("number", ctypes.c_uint32), ("kind", ctypes.c_uint8)]


class _Lists(ctypes.Structure):
    _fields_ = [(name, ctypes.c_size_t) for name in (
        "packet_length", "octets_length", "request_count", "reply_count", "control_count")] + [
        ("code", ctypes.c_uint8), ("sends", ctypes.c_uint8), ("stopped", ctypes.c_bool)]


class _Edit(ctypes.Structure):
    _fields_ = [("value", _Slice), ("within", ctypes.c_uint32), ("number", ctypes.c_uint32), ("kind", ctypes.c_uint8),
                ("list", ctypes.c_uint8), ("op", ctypes.c_uint8)]


class _StorePair(ctypes.Structure):
    _fields_ = [("value_length", ctypes.c_size_t), ("within", ctypes.c_uint32), ("number", ctypes.c_uint32),
                ("kind", ctypes.c_uint8)]


_DONE, _REFUSED, _NO_MEMORY, _TOO_SHORT, _IS_CLOSED, _IS_FULL, _NOT_THERE = 0, 2, 4, 5, 6, 8, 9
_PACKET = 4096
_loaded: Optional[ctypes.CDLL] = None


def _library() -> ctypes.CDLL:
    global _loaded
    if _loaded is None:
        _loaded = ctypes.CDLL(os.environ.get("RADPOLICY_LIBRARY", LIBRARY))
    return _loaded


def _call(name: str, *given: Any) -> int:
    """The status of a call. An int is a size, octets and rooms go with their length, and any other is pointed at."""
    words: List[Any] = []
    for one in given:
        if isinstance(one, int):
            words.append(ctypes.c_size_t(one))
        elif isinstance(one, bytes):
            words += [ctypes.c_char_p(one), ctypes.c_size_t(len(one))]
        elif isinstance(one, ctypes.Array):
            words += [one, ctypes.c_size_t(len(one))]
        else:
            words.append(one if isinstance(one, ctypes.c_uint8) else ctypes.byref(one))
    call = getattr(_library(), name)
    call.restype = ctypes.c_uint8
    return int(call(*words))


def _room(length: int) -> Any:
    return (ctypes.c_char * length)()


def _slice(octets: bytes) -> _Slice:
    return _Slice(octets, len(octets))


def _taken(status: int, line: bytes = b"") -> None:
    """Raises what a status stands for that is neither done nor one of a room that is too short."""
    if status == _REFUSED:
        raise Refused(line.decode(errors="backslashreplace").rstrip("\n"))
    if status == _NO_MEMORY:
        raise MemoryError("radpolicy: there is not enough memory")
    if status == _IS_CLOSED:
        raise ValueError("radpolicy: the handle is closed")
    if status == _IS_FULL:
        raise Full("radpolicy: the list would have more than 4096 pairs")
    if status == _NOT_THERE:
        raise LookupError("radpolicy: what is asked for is not there")
    assert status == _DONE, f"radpolicy: status {status}"


class _Handle:
    """What the library keeps. It is given up at the end of `with`, by `close`, or with the object."""

    _close = ""

    def __init__(self) -> None:
        self._held = _Held()
        self._lock = threading.Lock()

    def __enter__(self: _Self) -> _Self:
        return self

    def __exit__(self, *_: Any) -> None:
        self.close()

    def __del__(self) -> None:
        if getattr(self, "_held", None) and self._held.is_open:
            self.close()

    def close(self) -> None:
        """Gives it up. Where it was closed before, that does nothing."""
        with self._lock:
            _call(self._close, self._held)

    def _opened(self, name: str, *given: Any) -> None:
        """Makes a call that opens this handle, and ends in a room for a fault's line and its length."""
        room, told = _room(1024), ctypes.c_size_t()
        status = _call(name, self._held, *given, room, told)
        if status == _TOO_SHORT:
            room = _room(told.value)
            status = _call(name, self._held, *given, room, told)
        _taken(status, room.raw[: told.value])


class Dictionary(_Handle):
    """The dictionary of some files, the main one first: each the last component of its path, and what it holds."""

    _close = "radpolicy_dictionary_close"

    def __init__(self, files: Iterable[Tuple[str, bytes]] = ()) -> None:
        super().__init__()
        given = [_File(_slice(os.fsencode(name)), _slice(text)) for name, text in files]
        if given:
            self._opened("radpolicy_dictionary_open", (_File * len(given))(*given))

    @classmethod
    def of_files(cls: Type["Dictionary"], paths: Iterable[Union[str, Path]]) -> "Dictionary":
        """That of the files at these paths, the main one first."""
        return cls([(Path(path).name, Path(path).read_bytes()) for path in paths])

    @classmethod
    def of_folder(cls: Type["Dictionary"], folder: Union[str, Path]) -> "Dictionary":
        """That of the files of a folder whose names are `dictionary`, the main one, or begin with `dictionary.`"""
        others = sorted(path for path in Path(folder).glob("dictionary.*") if path.is_file())
        return cls.of_files([Path(folder) / "dictionary", *others])

    def policy(self, text: bytes) -> "Policy":
        """The policy that a text spells. It holds the dictionary too, which may be closed."""
        policy = Policy()
        with self._lock:
            policy._opened("radpolicy_policy_open", self._held, text)
        return policy

    def attribute(self, name: str) -> Attribute:
        """The attribute for which a name stands, as `Framed-Pool` or `Attr-26.9.1`; LookupError where there is none."""
        told = _Attribute()
        with self._lock:
            status = _call("radpolicy_attribute_named", self._held, name.encode(), told)
        if status == _NOT_THERE:
            raise LookupError(f"radpolicy: no attribute has the name {name}")
        _taken(status)
        return Attribute(told.number, told.within, Kind(told.kind))

    def name(self, attribute: Attribute) -> str:
        """The name that the dictionary has for an attribute; LookupError where it has none."""
        asked, room, told = _Attribute(attribute.within, attribute.number, attribute.kind), _room(256), ctypes.c_size_t()
        with self._lock:
            status = _call("radpolicy_attribute_name", self._held, asked, room, told)
            if status == _TOO_SHORT:
                room = _room(told.value)
                status = _call("radpolicy_attribute_name", self._held, asked, room, told)
        _taken(status)
        return room.raw[: told.value].decode()

    def share(self) -> "Dictionary":
        """One more handle of it."""
        other = Dictionary()
        with self._lock:
            _taken(_call("radpolicy_dictionary_share", self._held, other._held))
        return other


class Policy(_Handle):
    """A policy with its dictionary, which `Dictionary.policy` opens. A run changes nothing that it holds."""

    _close = "radpolicy_close"

    def share(self) -> "Policy":
        """One more handle of it, which is not copied."""
        other = Policy()
        with self._lock:
            _taken(_call("radpolicy_share", self._held, other._held))
        return other

    def run(self, request: Request) -> Outcome:
        """Runs it on a request."""
        return self._run("radpolicy_run", request, 1 << 16)

    def reply(self, request: Request) -> Outcome:
        """Runs it on a request, and makes no report, which is a good third of the work."""
        return self._run("radpolicy_reply", request, 1024)

    def run_pairs(self, request: Request) -> Lists:
        """Runs it on a request, and tells the pairs of its lists."""
        asked, told, packet = _asked(request), _Lists(), _room(_PACKET)
        pairs, room = (_Pair * 256)(), _room(1 << 16)
        with self._lock:
            status = _call("radpolicy_run_pairs", self._held, asked, told, packet, pairs, room)
            if status == _TOO_SHORT:
                count = told.request_count + told.reply_count + told.control_count
                pairs, room = (_Pair * count)(), _room(told.octets_length)
                status = _call("radpolicy_run_pairs", self._held, asked, told, packet, pairs, room)
        octets = room.raw
        _taken(status, octets[: told.octets_length])
        first, second = told.request_count, told.request_count + told.reply_count
        last = second + told.control_count
        lists = [[_pair_of(pair, octets) for pair in pairs[begin:end]]
                 for begin, end in ((0, first), (first, second), (second, last))]
        return Lists(Code(told.code), Sends(told.sends), told.stopped, packet.raw[: told.packet_length], *lists)

    def _run(self, name: str, request: Request, length: int) -> Outcome:
        asked, told, packet, room = _asked(request), _Outcome(), _room(_PACKET), _room(length)
        with self._lock:
            status = _call(name, self._held, asked, told, packet, room)
            if status == _TOO_SHORT:
                room = _room(told.report_length)
                status = _call(name, self._held, asked, told, packet, room)
        report = room.raw[: told.report_length]
        _taken(status, report)
        sent = packet.raw[: told.packet_length]
        return Outcome(Code(told.code), Sends(told.sends), told.stopped, sent, report.decode())


class Store(_Handle):
    """Three lists of pairs, empty at first, with the states that they went through. Each edit adds a state; `undo` and
    `redo` go from one to the next. What can't be done raises, and changes nothing."""

    _close = "radpolicy_store_close"

    def __init__(self) -> None:
        super().__init__()
        _taken(_call("radpolicy_store_open", self._held))

    def edit(self, which: Which, attribute: Attribute, operator: Operator, value: bytes = b"") -> None:
        """Edits a list by one pair. Values are compared octet by octet."""
        edit = _Edit(_slice(value), attribute.within, attribute.number, attribute.kind, which, operator)
        self._do("radpolicy_store_edit", edit)

    def undo(self) -> None:
        """Goes to the state before."""
        self._do("radpolicy_store_undo")

    def redo(self) -> None:
        """Goes to the state after."""
        self._do("radpolicy_store_redo")

    def rollback(self, to: int) -> None:
        """Gives the lists back as they were at a place, as one more state."""
        self._do("radpolicy_store_rollback", to)

    def settle(self) -> None:
        """Forgets each state but the present one."""
        self._do("radpolicy_store_settle")

    def place(self) -> int:
        """The place of the present state, the first at 0."""
        place = ctypes.c_size_t()
        self._do("radpolicy_store_place", place)
        return place.value

    def pairs(self, which: Which) -> List[Tuple[Attribute, bytes]]:
        """The pairs of a list in the present state."""
        count, listed = ctypes.c_size_t(), ctypes.c_uint8(which)
        with self._lock:
            _taken(_call("radpolicy_store_count", self._held, listed, count))
            return [self._pair(listed, at) for at in range(count.value)]

    def _pair(self, listed: ctypes.c_uint8, at: int) -> Tuple[Attribute, bytes]:
        pair, room = _StorePair(), _room(256)
        status = _call("radpolicy_store_pair", self._held, listed, at, pair, room)
        if status == _TOO_SHORT:
            room = _room(pair.value_length)
            status = _call("radpolicy_store_pair", self._held, listed, at, pair, room)
        _taken(status)
        return Attribute(pair.number, pair.within, Kind(pair.kind)), room.raw[: pair.value_length]

    def _do(self, name: str, *given: Any) -> None:
        with self._lock:
            _taken(_call(name, self._held, *given))


def _asked(request: Request) -> _Request:
    authenticator = request.authenticator
    if authenticator is not None and len(authenticator) != 16:
        raise ValueError("radpolicy: a Request Authenticator has 16 octets")
    asked = _Request(_slice(request.octets), _slice(request.secret or b""), _slice(request.reply),
                     _slice(request.control), form=request.form, identifier=request.identifier,
                     has_authenticator=authenticator is not None, has_secret=request.secret is not None)
    asked.authenticator[:] = authenticator or bytes(16)
    return asked


def _pair_of(pair: _Pair, octets: bytes) -> Pair:
    line = octets[pair.line : pair.line + pair.line_length]
    value = octets[pair.value : pair.value + pair.value_length]
    attribute = Attribute(pair.number, pair.within, Kind(pair.kind))
    return Pair(attribute, value, line[: pair.name_length].decode(), line.decode())
