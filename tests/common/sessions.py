"""Programs that begin others, which outlive them: ended with all of those, so that nothing writes into a folder when it
is removed."""
import os
import signal
import time
from contextlib import suppress
from pathlib import Path
from typing import List, Optional

# For those that end by themselves.
SECONDS = 5


def members(session: int, folder: Optional[Path]) -> List[int]:
    """The processes of a session that have not ended, and those whose command names the folder."""
    found = []
    for place in Path("/proc").glob("[0-9]*"):
        # (it may end meanwhile)
        with suppress(OSError):
            words = (place / "cmdline").read_bytes()
            names_folder = folder is not None and os.fsencode(folder) in words
            if words and (names_folder or os.getsid(int(place.name)) == session):
                found.append(int(place.name))
    return found


def end_session(session: int, folder: Optional[Path] = None) -> None:
    """Returns once all have ended: by themselves, since some of them tidy up, or else killed."""
    until = time.monotonic() + SECONDS
    while left := members(session, folder):
        for number in left if time.monotonic() > until else []:
            with suppress(ProcessLookupError):
                os.kill(number, signal.SIGKILL)
        time.sleep(0.05)
