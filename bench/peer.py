"""FreeRADIUS's own programs and library, where they are installed."""
import shutil
import subprocess
from pathlib import Path
from typing import Optional

HERE = Path(__file__).resolve().parent
SERVER = Path("/usr/share/freeradius")
HEADERS = Path("/usr/include/freeradius")
PACKAGES = "freeradius-common freeradius-utils libfreeradius-dev libtalloc-dev libpcre3-dev"
INCLUDED = ["autoconf.h", "build.h", "features.h", "radpaths.h"]


def radclient() -> Optional[str]:
    return shutil.which("radclient")


def library_program() -> Optional[Path]:
    """The program over the library, `peer.c`, which is made where its headers and a C compiler are."""
    made = HERE / "out" / "peer"
    shim = made.parent / "shim" / "freeradius"
    shim.mkdir(parents=True, exist_ok=True)
    # A header of the library's that its package lacks.
    (shim / "automask.h").write_text("")
    flags = ["-O2", "-w", f"-I{shim.parent}", "-D_GNU_SOURCE", "-DNDEBUG"]
    flags += [flag for name in INCLUDED for flag in ("-include", f"freeradius/{name}")]
    place = "/usr/lib/freeradius"
    libraries = [f"-L{place}", f"-Wl,-rpath,{place}", "-lfreeradius-radius", "-ltalloc"]
    compiler = shutil.which("cc")
    if not compiler or not HEADERS.is_dir():
        return None
    command = [compiler, *flags, "-o", made, HERE / "peer.c", *libraries]
    return made if subprocess.run(command, stderr=subprocess.DEVNULL).returncode == 0 else None
