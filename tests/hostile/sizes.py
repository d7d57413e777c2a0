"""Rows of crafted input by its size and depth: what each is, how it ends, and that it ends in time and memory."""
from dataclasses import dataclass
from typing import Dict, Iterator, List, Optional

MIB = 1 << 20
MAX_INPUT = 16 * MIB
MAX_LINES = 200_000
MAX_PAIRS = 4096
MAX_SIZE = 65_535
MAX_DEPTH = 64
TYPES = b"""ATTRIBUTE User-Name 1 string
ATTRIBUTE User-Password 2 string encrypt=1
ATTRIBUTE Class 25 octets
ATTRIBUTE Short 241.1 octets
ATTRIBUTE Long 245.1 octets
ATTRIBUTE Long-Text 245.2 string
VENDOR Small 9
BEGIN-VENDOR Small
ATTRIBUTE Small-Text 1 string
END-VENDOR Small
"""
RUN = "run -f request --policy policy dictionary"
STEP = "step -f request --policy policy --script script dictionary"
DECODE = "decode -f packet -S secret dictionary"
ENCODE = f"encode -f request -S secret --authenticator {'00' * 16} dictionary"
LISTS = b"request\n%breply\n%bcontrol\nresult %b\n"
EMPTY = LISTS % (b"", b"", b"ok")
FULL = LISTS % (b"", b"", b"fail stopped")
COUNTS = b"files %d\nattributes %d\nvalues %d\nvendors %d\nnotes %d\n"
# Why a row is off.
SHOWS = "a show looks for each pair from the beginning of its list: the square of their number"
TRIED = "a regular expression is read anew for each size that what is compiled of it is tried with"


@dataclass(frozen=True)
class Row:
    """A command on files. It ends with the output, or with the fault at its place; an output that is long to spell is
    known by its end. A row that is `off` is not run, for the reason that stands there."""

    name: str
    words: str
    files: Dict[str, bytes]
    fault: Optional[str] = None
    end: bytes = b""
    off: Optional[str] = None


def run_row(
    name: str, end: bytes = b"", fault: Optional[str] = None, off: Optional[str] = None, **files: bytes
) -> Row:
    """A run of a request and a policy by the types, or by a dictionary."""
    return Row(name, RUN, {"request": b"", "policy": b"", "dictionary": TYPES, **files}, fault, end, off)


def check_row(
    name: str, end: bytes = b"", fault: Optional[str] = None, off: Optional[str] = None, **files: bytes
) -> Row:
    """A check of a policy and a dictionary."""
    words = "check --policy policy dictionary" if "policy" in files else "check dictionary"
    return Row(name, words, {"dictionary": TYPES, **files}, fault, end, off)


def pair_row(name: str, line: bytes, fault: Optional[str] = None) -> Row:
    """A request of one line, which a run prints as it stands."""
    return run_row(name, b"  " + line + b"\nreply\ncontrol\nresult ok\n", fault, request=line + b"\n")


def hexadecimal(count: int) -> bytes:
    return b"0x" + b"61" * count


def value_rows() -> List[Row]:
    """Values as long as they may be, and longer by one octet."""
    rows = []
    for name, most in (b"Class", 253), (b"Short", 252), (b"Long", 4012):
        for count, fault in (most, None), (most + 1, "E31 request:1"):
            rows.append(pair_row(f"{count} octets of {name.decode()}", name + b" = " + hexadecimal(count), fault))
    for name, most in (b"User-Name", 253), (b"Small-Text", 247), (b"User-Password", 128):
        for count, fault in (most, None), (most + 1, "E31 request:1"):
            rows.append(pair_row(f"{count} octets of {name.decode()}", name + b' = "' + b"a" * count + b'"', fault))
    return rows


def name_rows() -> List[Row]:
    """Names of 128 and of 129 octets."""
    line, value = b"ATTRIBUTE %b 200 integer\n", b"ATTRIBUTE A 200 integer\nVALUE A %b 1\n"
    note = b"note dictionary:%d\n"
    return [
        check_row("an attribute's name of 128", COUNTS % (1, 1, 0, 0, 0), dictionary=line % (b"n" * 128)),
        check_row("an attribute's name of 129", COUNTS % (1, 0, 0, 0, 1) + note % 1, dictionary=line % (b"n" * 129)),
        check_row("a value's name of 128", COUNTS % (1, 1, 1, 0, 0), dictionary=value % (b"n" * 128)),
        check_row("a value's name of 129", COUNTS % (1, 1, 0, 0, 1) + note % 2, dictionary=value % (b"n" * 129)),
        check_row("a vendor's name of 128", COUNTS % (1, 0, 0, 1, 0), dictionary=b"VENDOR %b 9\n" % (b"n" * 128)),
        check_row("a vendor's name of 129", fault="E10 dictionary:1", dictionary=b"VENDOR %b 9\n" % (b"n" * 129)),
    ]


def depth_rows() -> List[Row]:
    """Policies nested as deep as they may be, and deeper."""
    rows = []
    for depth in MAX_DEPTH, MAX_DEPTH + 1:
        nested = b"transaction {\n" * depth + b"}\n" * depth
        fault = None if depth == MAX_DEPTH else f"E53 policy:{depth}"
        rows.append(check_row(f"{depth} transactions", b"size %d\n" % (2 * depth), fault, policy=nested))
        rows.append(run_row(f"a run of {depth} transactions", b"result ok\n", fault, policy=nested))
        fault = None if depth == MAX_DEPTH else "E53 policy:1"
        denied = b"if (" + b"!" * (depth - 1) + b"&Class) { }"
        rows.append(check_row(f"{depth - 1} signs of denial", b"size 1\n", fault, policy=denied))
        bracketed = b"if " + b"(" * depth + b"&Class" + b")" * depth + b" { }"
        rows.append(check_row(f"{depth} brackets", b"size 1\n", fault, policy=bracketed))
    return rows


def policy_rows() -> List[Row]:
    """Policies as large as they may be, and larger by one line."""
    many = b"update control {\n" + b"Class !* ANY\n" * MAX_SIZE + b"}\n"
    more = b"update control {\n" + b"Class !* ANY\n" * (MAX_SIZE + 1) + b"}\n"
    words = b"ok\n" * MAX_SIZE
    lines = b"update reply {\n" + b"Class += 0x01\n" * MAX_PAIRS + b"%b}\n"
    pairs = b"Class = 0x01\n" * MAX_PAIRS
    listed = b"  " + pairs.replace(b"\n", b"\n  ")[:-2]
    return [
        check_row("a policy of 65,535 lines", b"size 65535\n", policy=many),
        check_row("a policy of 65,536 lines", fault="E54 policy:65537", policy=more),
        run_row("a run of 65,535 lines", LISTS % (b"", b"", b"ok"), policy=many),
        run_row("a run of 65,535 words", LISTS % (b"", b"", b"ok"), policy=words),
        run_row("4096 pairs added to a reply", LISTS % (b"", listed, b"ok"), policy=lines % b""),
        run_row("4097 pairs added to a reply", FULL, policy=lines % b"Class += 2\n"),
        run_row("65,535 lines on 4096 pairs", LISTS % (listed, b"", b"ok"), request=pairs, policy=many),
    ]


def pattern_policy(texts: List[bytes]) -> bytes:
    """A condition with a regular expression on each line after the first."""
    return b"# profile: wider\n" + b"".join(b"if (&Long-Text =~ /%b/) { updated }\n" % text for text in texts)


def search_row(name: str, texts: List[bytes], value: bytes) -> Row:
    """A run in which no regular expression is found in a value."""
    line = b'Long-Text = "' + value + b'"\n'
    return run_row(name, LISTS % (b"  " + line, b"", b"ok"), request=line, policy=pattern_policy(texts))


def capture_row(name: str, condition: bytes, request: bytes, line: bytes = b"") -> Row:
    """A run in which a condition with captures doesn't hold, or puts them into a line of the reply."""
    policy = b"# profile: wider\nif (" + condition + b') {\nupdate reply { Long-Text := "%{0}" }\n}\n'
    return run_row(name, LISTS % (b"  " + request, line and b"  " + line, b"ok"), request=request, policy=policy)


def capture_rows() -> List[Row]:
    """The slow ones over the longest text and the longest octets, with what they capture."""
    text, octets = b'Long-Text = "' + b"a" * 4011 + b'!"\n', b"Long = 0x" + b"61" * 4011 + b"21\n"
    alike = b'Long-Text = "' + b"a" * 4012 + b'"\n'
    slow = [(b"Long-Text", text, found) for found in (b"((a*)*)b", b"((a|aa)+)$", b"((a?){500})a{500}b", b"((x+x+)+)y")]
    slow += [(b"Long", octets, found) for found in (b"((6*1*)*)b", b"((61|6161)+)$", b"(((61)?){250})(61){250}b")]
    return [
        *(
            capture_row(f"captures of {found.decode()} in {name.decode()}", b"&%b =~ /%b/" % (name, found), request)
            for name, request, found in slow
        ),
        capture_row("captures of 4012 octets", b"&Long-Text =~ /((a|aa)+)$/", alike, alike),
        capture_row("captures in captures", b'&Long-Text =~ /(a*)/ && "%{1}" =~ /((a*)*)b/', text),
    ]


def text_row(name: str, condition: bytes, request: bytes, code: bytes, shown: bytes = b"") -> Row:
    """A run whose code tells whether a condition holds."""
    policy = b"# profile: wider\nif (" + condition + b") { updated }\n"
    return run_row(name, LISTS % (shown or b"  " + request, b"", code), request=request, policy=policy)


def text_rows() -> List[Row]:
    """Texts of conditions that are long, and that put in what is far in a list or absent."""
    request = b'Long-Text = "' + b"1" * 4012 + b'"\n'
    many, absent = b"%{Long-Text}" * 500, b"%{Class}" * 500
    pairs = b"Short = 0x01\n" * MAX_PAIRS
    listed = b"  " + pairs.replace(b"\n", b"\n  ")[:-2]
    alike = b'"x%{Long-Text}" == "x%{Long-Text}"'
    return [
        text_row("two numbers of 2,000,000 digits", b'"' + many + b'" == "0' + many + b'"', request, b"updated"),
        text_row("two texts of 2,000,000 octets", b'"x' + many + b'" != "x' + many + b'"', request, b"ok"),
        text_row("1,000 texts of 4012 octets", b" && ".join([alike] * 1000), request, b"updated"),
        text_row("500 absent from 4096 pairs", b'"' + absent + b'" == "' + absent + b'"', pairs, b"updated", listed),
    ]


def pattern_rows() -> List[Row]:
    """Regular expressions that take long elsewhere, over the longest value; many of them; and large ones."""
    alike, mixed = b"a" * 4012, b"abbabaab" * 501 + b"abba"
    words = b"|".join(b"w%d" % at for at in range(10_000))
    slow = [b"(a*)*b", b"(a|aa)+$", b"(a*)*(a*)*(a*)*b", b"(a?){500}a{500}b", b"(x+x+)+y"]
    full = [b"a{%d}" % (20_000 - at) for at in range(65)]
    found = [search_row(f"a search for {text.decode()}", [text], alike[:-1] + b"!") for text in slow]
    return [
        *found,
        search_row("a search for 10,000 words", [words], alike),
        search_row("a search with many states", [b"[ab]*a[ab]{1000}c"], mixed),
        search_row("100 searches with many states", [b"[ab]*a[ab]{%d}c" % (100 + at) for at in range(100)], mixed),
        search_row("250 groups in one another", [b"(" * 250 + b"b" + b")" * 250], alike),
        check_row("251 groups in one another", fault="E59 policy:2", policy=pattern_policy([b"(" * 251 + b")" * 251])),
        check_row("64 that fill what there is for all", b"size 128\n", policy=pattern_policy(full[:-1])),
        check_row("65 that are more", fault="E60 policy:66", policy=pattern_policy(full)),
        check_row("a million repetitions", fault="E60 policy:2", policy=pattern_policy([b"((a{100}){100}){100}"])),
        check_row("a long one", fault="E60 policy:2", off=TRIED, policy=pattern_policy([b"a" * (8 * MIB)])),
        check_row(
            "100 of 10,000 words each", b"size 200\n", off=TRIED,
            policy=pattern_policy([b"x%d|%b" % (at, words) for at in range(100)]),
        ),
    ]


def rows_of_size(count: int, name: str, is_longer: bool) -> List[Row]:
    """A file of so many octets in each place."""

    def fault(file: str) -> Optional[str]:
        return f"E04 {file}" if is_longer else None

    blank = ((b" " * 79 + b"\n") * (count // 80 + 1))[:count]
    packet = b"01000014" + b"00" * 16 + b" " * (count - 40)
    none = {"request": b"", "policy": b"", "dictionary": TYPES}
    read = {"packet": packet, "secret": b"s", "dictionary": TYPES}
    written = {"request": b"", "secret": b"s" * count, "dictionary": TYPES}
    return [
        run_row(f"a request of {name}", EMPTY, fault("request"), request=blank),
        run_row(f"a policy of {name}", EMPTY, fault("policy"), policy=blank),
        run_row(f"a dictionary of {name}", EMPTY, fault("dictionary"), dictionary=b"#" * count),
        Row(f"a script of {name}", STEP, {**none, "script": blank}, fault("script")),
        Row(f"a packet of {name}", DECODE, read, fault("packet"), b"\nrequest\n"),
        Row(f"a secret of {name}", ENCODE, written, fault("secret"), b"00" * 16 + b"\n"),
    ]


def input_rows() -> List[Row]:
    """Files of 16 MiB, and of one octet more, which are not read."""
    return rows_of_size(MAX_INPUT, "16 MiB", False) + rows_of_size(MAX_INPUT + 1, "more than 16 MiB", True)


def full_rows() -> List[Row]:
    """Inputs of 16 MiB that hold as much as they can."""
    value = b'User-Name = "' + b"\\" * (MAX_INPUT - 14) + b'"'
    words = b"(" * (MAX_INPUT - 4)
    walk = {"policy": b"", "request": b"", "dictionary": TYPES}
    pairs = {**walk, "request": b"Class = 0x01\n" * MAX_PAIRS}
    return [
        run_row("a request of one quoted text", fault="E31 request:1", request=value),
        run_row("a request of one name", fault="E32 request:1", request=b"n" * MAX_INPUT),
        run_row("a policy of brackets", fault="E53 policy:1", policy=b"if " + words),
        run_row("a policy of one word", fault="E51 policy:1", policy=b"n" * MAX_INPUT),
        Row("a script of one word", STEP, {**walk, "script": b"n" * MAX_INPUT}, "E06 script:1"),
        Row("a script of 3,355,443 shows", STEP, {**walk, "script": b"show " * (MAX_INPUT // 5)}, end=b"control\n"),
        Row("a script of 20 shows of 4096 pairs", STEP, {**pairs, "script": b"show " * 20}, end=b"control\n"),
        Row("a script of 2,000 shows", STEP, {**pairs, "script": b"show " * 2000}, end=b"control\n", off=SHOWS),
    ]


def request_rows() -> List[Row]:
    """Requests of as many pairs as there may be, and of one more; packets of as many octets."""
    pairs = b"Class = 0x01\n" * MAX_PAIRS
    listed = b"  " + pairs.replace(b"\n", b"\n  ")[:-2]
    secret = {"dictionary": TYPES, "secret": b"s\n"}
    most = b"Long = " + hexadecimal(4012)
    return [
        run_row("4096 pairs", LISTS % (listed, b"", b"ok"), request=pairs),
        run_row("4097 pairs", fault="E35 request:4097", request=pairs + b"Class = 0x01\n"),
        Row("a packet of 4096 octets", ENCODE, {**secret, "request": most}, end=b"61\n"),
        Row("a packet of 4099 octets", ENCODE, {**secret, "request": most + b"\nClass = 0x01\n"}, "E46"),
        Row("a packet of 4096 pairs", ENCODE, {**secret, "request": pairs}, "E46"),
        packet_row("a read packet of 4096 octets", 4096, b"\n" + b"  Class = 0x\n" * 2038),
        packet_row("a read packet of 4097 octets", 4097, fault="E41"),
    ]


def packet_row(name: str, length: int, end: bytes = b"", fault: Optional[str] = None) -> Row:
    """A packet of so many octets of empty attributes."""
    octets = b"\x01\x00" + length.to_bytes(2, "big") + bytes(16) + (b"\x19\x02" * length)[: length - 20]
    files = {"dictionary": TYPES, "secret": b"s\n", "packet": octets.hex().encode()}
    return Row(name, DECODE, files, fault, end)


def include_rows() -> List[Row]:
    """Files that include each other: two, a chain as deep as it may be and deeper, and ten times the next file."""
    chain = {f"f{at}": b"$INCLUDE f%d\n" % (at + 1) for at in range(9)}
    tenfold = {f"f{at}": b"$INCLUDE f%d\n" % (at + 1) * 10 for at in range(8)}
    named = {**tenfold, "f8": b"ATTRIBUTE A 200 integer\n" * 10}
    whole = "check " + " ".join(f"f{at}" for at in range(9))
    return [
        Row("ten lines in each of nine files", whole, {**tenfold, "f8": b"\n" * 10}, "E17 f8:8"),
        Row("nine files that include the next", whole, {**chain, "f8": b"\n"}, end=COUNTS % (9, 0, 0, 0, 0)),
        Row("ten files that include the next", whole + " f9", {**chain, "f9": b"\n"}, "E16 f8:1"),
        Row("a tenth file that is not given", whole, chain, "E15 f8:1"),
        Row("two files that include each other", "check a b", {"a": b"$INCLUDE b\n", "b": b"$INCLUDE a\n"}, "E16 a:1"),
        Row("a file that includes itself ten times", "check a", {"a": b"$INCLUDE a\n" * 10}, "E16 a:1"),
        Row("ten names in each of nine files", whole, named, "E17 f8:8"),
    ]


def line_rows() -> List[Row]:
    """Dictionaries of as many lines as there may be, of each kind, and of one more."""
    blank = b"\n" * MAX_LINES
    numbered = range(MAX_LINES)
    names = b"".join(b"ATTRIBUTE N-%d %d integer\n" % (at, at) for at in numbered)
    alike = b"ATTRIBUTE Class 25 octets\n" * MAX_LINES
    half = MAX_LINES // 2
    values = b"ATTRIBUTE A 200 integer\n" + b"".join(b"VALUE A N-%d %d\n" % (at, at) for at in range(MAX_LINES - 1))
    same = b"ATTRIBUTE A 200 integer\n" * half + b"VALUE A One 1\n" * half
    vendors = b"".join(b"VENDOR N-%d %d\n" % (at, at) for at in numbered)
    skipped = b"ATTRIBUTE A 200.1 integer\n" * MAX_LINES
    blocks = b"VENDOR V 9\n\n" + b"BEGIN-VENDOR V\nEND-VENDOR V\n" * (half - 1)
    nested = b"BEGIN-TLV T\n" * half + b"END-TLV T\n" * half
    return [
        check_row("200,000 blank lines", COUNTS % (1, 0, 0, 0, 0), dictionary=blank),
        check_row("200,001 blank lines", fault="E17 dictionary:200001", dictionary=blank + b"\n"),
        check_row("200,001 lines, the last of them bad", fault="E17 dictionary:200001", dictionary=blank + b"bad\n"),
        check_row("200,000 names of attributes", COUNTS % (1, MAX_LINES, 0, 0, 0), dictionary=names),
        check_row("200,000 lines of one attribute", COUNTS % (1, 1, 0, 0, 0), dictionary=alike),
        check_row("199,999 names of values", COUNTS % (1, 1, MAX_LINES - 1, 0, 0), dictionary=values),
        check_row("100,000 lines of one value", COUNTS % (1, 1, 1, 0, 0), dictionary=same),
        check_row("200,000 vendors", COUNTS % (1, 0, 0, MAX_LINES, 0), dictionary=vendors),
        check_row("200,000 skipped lines", b"note dictionary:200000\n", dictionary=skipped),
        check_row("99,999 blocks", COUNTS % (1, 0, 0, 1, 0), dictionary=blocks),
        check_row("100,000 blocks in one another", b"note dictionary:200000\n", dictionary=nested),
    ]


def hash_rows() -> List[Row]:
    """Names of values whose keys share one hash, since its seed is fixed: reading them takes time that grows with the
    square of how many there are. The kit's hasher joins the first eight octets of a name to what it made of the
    attribute's id, and multiplies that by what it makes of the rest; with this id and these octets the product is 0. By
    another hasher they are names like any others."""
    count = 7000
    head = b"VENDOR V 9001 format=4,1\nBEGIN-VENDOR V\nATTRIBUTE A 427001 integer\n"
    values = head + b"".join(b"VALUE A ynwtg04z%08d %d\n" % (at, at) for at in range(count))
    last = b"VALUE A YNWTG04Z%08d 7\n" % (count - 1)
    end = b"END-VENDOR V\n"
    return [
        check_row("7,000 names of values of one hash", COUNTS % (1, 1, count, 1, 0), dictionary=values + end),
        check_row("7,000, the last with two numbers", fault="E19 dictionary:7004", dictionary=values + last + end),
    ]


def rows() -> Iterator[Row]:
    """All of them, some at a time, since they are large."""
    makers = [value_rows, name_rows, depth_rows, policy_rows, pattern_rows, capture_rows, text_rows]
    for maker in [*makers, input_rows, full_rows, request_rows, include_rows, line_rows, hash_rows]:
        yield from maker()
