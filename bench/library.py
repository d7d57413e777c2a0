"""Calls of the library for C, beside the decoding and encoding alone of FreeRADIUS's library."""
import shutil
import subprocess
from pathlib import Path
from typing import Callable, Dict, List, Optional

from dictionaries import Set
from packets import ROUNDS, SECRET, Worker, count_for, seconds_of
from runs import workers as runners
from timing import Word, in_turn

RUNS = {"reply": "a run that tells its reply", "run": "with the report", "pairs": "with the pairs"}
OPENED = {"dictionary": "a dictionary is opened", "policy": "a policy by it"}
# As many times as a dictionary of a server's size is opened in a second or so.
FEW = 50


def library_program(root: Path) -> Optional[Path]:
    """The program over the library, `library.c`, which is made where the proved archive is, and a C compiler."""
    made = root / "bench" / "out" / "library"
    made.parent.mkdir(parents=True, exist_ok=True)
    compiler, library = shutil.which("cc"), root / "out" / "library"
    if not compiler or subprocess.run([root / "scripts" / "make-library", library], stdout=subprocess.DEVNULL).returncode:
        return None
    command = [compiler, "-O2", f"-I{root / 'c'}", "-o", made, root / "bench" / "library.c", library / "libradpolicy.a"]
    return made if subprocess.run(command).returncode == 0 else None


def show_library(root: Path, dictionaries: Set, folder: Path, peer: Optional[Path]) -> None:
    """Calls a second, of the packet and the policy that `show_runs` gives, and what each of the others takes."""
    program = library_program(root)
    if not program:
        print("The library for C: left out, since it was not made")
        return

    def worker(work: str, count: int) -> List[Word]:
        given = [folder / "packet", SECRET, folder / "policy"]
        return [program, work, str(count), *given, *dictionaries.files]

    calls: Dict[str, Worker] = {work: worker for work in (*RUNS, *OPENED)}
    calls.update({"both": runners(program, peer, dictionaries, folder)["libfreeradius"]} if peer else {})
    works: Dict[str, Callable[[], float]] = {}
    for work, called in calls.items():
        count = FEW if work == "dictionary" else count_for(called, work)
        works[work] = lambda work=work, called=called, count=count: seconds_of(called, work, count)
    taken = in_turn(works, ROUNDS)
    print(f"Calls of the library for C by {dictionaries.name}, a second")
    for work, name in RUNS.items():
        ratio = f", {taken['both'] / taken[work]:.2f} times libfreeradius's decode and encode alone" if peer else ""
        print(f"  {name:26}{1 / taken[work]:12,.0f}{ratio}")
    for work, name in OPENED.items():
        print(f"  {name:26}{1 / taken[work]:12,.0f}", flush=True)
