"""Runs of a prepared policy in one process, beside the decoding and encoding alone of FreeRADIUS's library."""
from pathlib import Path
from typing import Callable, Dict, List, Optional

from dictionaries import Set
from packets import PAP, ROUNDS, SECRET, Worker, count_for, seconds_of
from timing import Word, in_turn

# Fourteen lines, as an operator's policy: conditions, expansions, a failing transaction and a reply.
POLICY = """if (&User-Name == "nemo" && &NAS-Port < 1000) {
	update reply {
		Service-Type := Login-User
		Reply-Message := "Hello, %{User-Name}"
		Session-Timeout := 600
	}
}
else {
	reject
}
transaction {
	update control { NAS-Port-Type := Virtual }
	fail
}
"""

# The same after what each server's default configuration calls first, `filter_username` of FreeRADIUS 3.
FILTERING = """# profile: wider
if (&User-Name) {
	if (&User-Name =~ / /) { reject }
	if (&User-Name =~ /@[^@]*@/) { reject }
	if (&User-Name =~ /\\.\\./) { reject }
	if (&User-Name =~ /@/ && &User-Name !~ /@(.+)\\.(.+)$/) { reject }
	if (&User-Name =~ /\\.$/) { reject }
	if (&User-Name =~ /@\\./) { reject }
}
""" + POLICY


def workers(drive: Path, peer: Optional[Path], dictionaries: Set, folder: Path) -> Dict[str, Worker]:
    def ours(policy: str) -> Worker:
        files = [folder / name for name in ("packet", "secret", policy, "reply", "control")]
        return lambda work, count: [drive, "runs", str(count), *files, *dictionaries.files]

    found = {"ours": ours("policy"), "filtering": ours("filtering")}
    if peer:

        def library(work: str, count: int) -> List[Word]:
            return [peer, "both", dictionaries.folder, SECRET, folder / "packet", str(count)]

        found["libfreeradius"] = library
    return found


def show_runs(drive: Path, dictionaries: Set, folder: Path, peer: Optional[Path]) -> None:
    """Runs a second: a packet is decoded, a policy of fourteen lines is run, and its reply is made; and the same with
    comparisons with regular expressions before it."""
    policies = {"policy": POLICY.encode(), "filtering": FILTERING.encode()}
    given = {"packet": PAP, "secret": SECRET.encode(), **policies, "reply": b"", "control": b""}
    for name, octets in given.items():
        (folder / name).write_bytes(octets)
    works: Dict[str, Callable[[], float]] = {}
    for who, worker in workers(drive, peer, dictionaries, folder).items():
        count = count_for(worker, "both")
        works[who] = lambda worker=worker, count=count: seconds_of(worker, "both", count)
    taken = in_turn(works, ROUNDS)
    line = f"Runs of a prepared policy by {dictionaries.name}: {1 / taken['ours']:,.0f} a second"
    if peer:
        ratio = taken["libfreeradius"] / taken["ours"]
        line += f", {ratio:.2f} times libfreeradius's decode and encode alone"
    line += f"; {1 / taken['filtering']:,.0f} with filter_username in front"
    print(line, flush=True)
