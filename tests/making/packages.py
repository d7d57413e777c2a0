"""What `make install` and `make package` put in their places, used there and removed again."""
import os
import re
import shutil
import subprocess
import tarfile
from pathlib import Path
from typing import List, NamedTuple, Sequence, Set

from common.report import Report
from common.subject import Subject
from library.calls import EXPORTED
from making.copies import SYSTEM_PATH, Copy, new_copy

NEEDED = ("dpkg", "dpkg-deb", "dpkg-shlibdeps", "strip", "objdump", "cc")
LIBRARY = "crates/radpolicy_c/out/libradpolicy_c.a"
# Opens nothing, and says so.
IN_C = """#include <radpolicy.h>
#include <stdio.h>

int main(void)
{
    struct radpolicy_policy policy = RADPOLICY_CLOSED;
    radpolicy_close(&policy);
    puts(policy.is_open ? "open" : "closed");
    return 0;
}
"""
EXAMPLE = "share/doc/radpolicy/examples/hello"
DICTIONARIES = "share/radpolicy/dictionaries"
MORE = "radpolicy-again"
NOBODY = 65534
# What a program would call to open a socket, or to start another program.
OUTWARD = re.compile("socket(pair)?|connect|bind|listen|accept4?|getaddrinfo|v?fork|clone|exec.+|posix_spawnp?|system|popen")


def printed(command: Sequence[object]) -> str:
    """What a command prints; its faults too."""
    said = subprocess.run(
        list(map(str, command)),
        env={"PATH": SYSTEM_PATH, "LC_ALL": "C"},
        stdin=subprocess.DEVNULL,
        stdout=subprocess.PIPE,
        stderr=subprocess.STDOUT,
        text=True,
    )
    return said.stdout if said.returncode == 0 else f"{said.stdout}(status {said.returncode})"


def files_below(folder: Path) -> Set[str]:
    """The files in a folder and in those below it, links too."""
    return {str(path.relative_to(folder)) for path in folder.rglob("*") if path.is_symlink() or not path.is_dir()}


def faults_of_use(prefix: Path, elsewhere: Path) -> List[str]:
    """What is wrong with what is installed below a prefix, for a user who is not root: an example from another folder,
    with the dictionaries there, and in its own folder by its own command."""
    example, dictionaries = prefix / EXAMPLE, sorted((prefix / DICTIONARIES).glob("dictionary*"))
    words = ["run", "-f", example / "request", "--policy", example / "policy", *dictionaries]
    who = {"user": NOBODY, "group": NOBODY, "extra_groups": []} if os.geteuid() == 0 else {}
    wanted, wrong = (example / "output").read_text(), []
    for command, folder in (
        (["radpolicy", *words], elsewhere),
        (["sh", "-c", "radpolicy $(cat command)"], example),
    ):
        how = {"stdin": subprocess.DEVNULL, "stdout": subprocess.PIPE, "stderr": subprocess.STDOUT, "text": True}
        path = {"PATH": f"{prefix / 'bin'}:{SYSTEM_PATH}"}
        ended = subprocess.run(list(map(str, command)), cwd=folder, env=path, **how, **who)
        wrong += [] if (ended.returncode, ended.stdout) == (0, wanted) else [f"in {folder}: {ended}"]
    return wrong


def faults_of_library(prefix: Path, folder: Path, libraries: str = "lib") -> List[str]:
    """What is wrong with the library below a prefix, for one who compiles a program over it, shared and static."""
    source, place = folder / "program.c", prefix / libraries
    source.write_text(IN_C)
    shown = {line.split()[-1] for line in printed(["nm", "-D", "--defined-only", place / "libradpolicy.so"]).splitlines()}
    wrong = [] if shown == set(EXPORTED) else [f"the shared library shows {sorted(shown)}"]
    said = printed(["cc", f"-I{prefix / 'include'}", "-o", folder / "static", source, place / "libradpolicy.a"])
    wrong += [said] if said else []
    flags = [f"-I{prefix / 'include'}", f"-L{place}", "-lradpolicy"]
    if shutil.which("pkg-config"):
        found = ["env", f"PKG_CONFIG_PATH={place / 'pkgconfig'}", "pkg-config", "--cflags", "--libs", "radpolicy"]
        flags = printed(found).split()
    said = printed(["cc", "-o", folder / "shared", source, *flags, f"-Wl,-rpath,{place}"])
    wrong += [said] if said else []
    ended = [printed([folder / name]) for name in ("static", "shared")]
    return wrong + [f"a program of it says {said!r}" for said in ended if said != "closed\n"]


def faults_of_links(documents: Path) -> List[str]:
    """The links in the documents that lead to no file there."""
    wrong = []
    for document in sorted(documents.rglob("*.md")):
        for link in re.findall(r"\]\(([^)#]+)[^)]*\)", document.read_text()):
            is_elsewhere = re.match("[a-z]+:", link)
            wrong += [] if is_elsewhere or (document.parent / link).exists() else [f"{document.name}: {link}"]
    return wrong


def new_folder_beside(copy: Copy, name: str) -> Path:
    folder = copy.root.parent / name
    folder.mkdir()
    folder.chmod(0o755)
    return folder


def check_install(subject: Subject, report: Report) -> None:
    """`make install` with one more program, used, and `make uninstall`."""
    absent = [command for command in ("cc", "ld", "objcopy", "ar", "nm") if not shutil.which(command, path=SYSTEM_PATH)]
    absent += [] if (subject.root / LIBRARY).is_file() else [LIBRARY]
    if absent:
        report.say(f"make install: not tried, there is no {', no '.join(absent)}")
        return
    with new_copy(subject) as copy:
        with open(copy.root / "programs.txt", "a") as programs:
            programs.write(f"{MORE}: radpolicy_cli\n")
        place, elsewhere = new_folder_beside(copy, "place"), new_folder_beside(copy, "elsewhere")
        copy.make("install", f"DESTDIR={place}", "PREFIX=/usr", umask=0o077)
        listed = [copy.run(["scripts/list-installed", kind]).stdout.splitlines() for kind in ("files", "links")]
        wanted = {f"usr/{line.split()[-1]}" for lines in listed for line in lines} | {f"usr/bin/{MORE}"}
        found = files_below(place)
        report.check("make install: every file", [f"differs: {file}" for file in sorted(wanted ^ found)])
        documents = place / "usr/share/doc/radpolicy"
        report.check("make install: the documents' links", faults_of_links(documents))
        report.check("make install: in use", faults_of_use(place / "usr", elsewhere))
        report.check("make install: the library for C", faults_of_library(place / "usr", elsewhere))
        copy.make("uninstall", f"DESTDIR={place}", "PREFIX=/usr")
        report.check("make uninstall: no file is left", [f"left: {file}" for file in sorted(files_below(place))])


class Made(NamedTuple):
    """The two packages and the tarball, with what `make package` said."""

    package: Path
    development: Path
    tarball: Path
    said: str

    def files(self) -> Sequence[Path]:
        return self.package, self.development, self.tarball


def make_package(copy: Copy, **how: object) -> Made:
    said = copy.make("package", **how).stdout
    heading = re.search(r"^## (\S+)", (copy.root / "CHANGELOG.md").read_text(), re.M)
    name = f"_{heading[1]}_{printed(['dpkg', '--print-architecture']).strip()}"
    made = [copy.root / f"out/radpolicy{ending}" for ending in (f"{name}.deb", f"-dev{name}.deb", f"{name}.tar.gz")]
    return Made(*made, said)


def faults_of_contents(made: Made) -> List[str]:
    """What is wrong with the owners of the files, and with the tarball, which has the files of both packages."""
    lines = [line for package in made.files()[:2] for line in printed(["dpkg-deb", "-c", package]).splitlines()]
    wrong = [line for line in lines if line.split()[1] != "root/root"]
    in_package = {line.split()[5].rstrip("/")[2:] for line in lines} - {""}
    with tarfile.open(made.tarball) as tarball:
        members = tarball.getmembers()
    wrong += [f"{it.name} in the tarball is of {it.uid}:{it.gid}" for it in members if (it.uid, it.gid) != (0, 0)]
    return wrong + [f"in one alone: {name}" for name in sorted(in_package ^ {it.name for it in members})]


def check_made(copy: Copy, report: Report) -> Made:
    """What is in the packages, and what is said of them."""
    made = make_package(copy)
    if not made.development.is_file():
        report.check("make package: a package", [made.said])
        raise FileNotFoundError(made.package)
    report.check("make package: files of root, and the same in the tarball", faults_of_contents(made))
    depends = printed(["dpkg-deb", "-f", made.package, "Depends"]).strip()
    wrong = [] if re.fullmatch(r"libc6 \(>= [0-9.]+\)", depends) else [f"it depends on {depends!r}"]
    report.check("make package: the C library is all that it needs", wrong)
    if shutil.which("lintian"):
        said = printed(["lintian", *made.files()[:2]])
        errors = [line for line in said.splitlines() if line.startswith("E:")]
        report.check("make package: no errors by lintian", errors)
    else:
        report.say("make package: not judged by lintian, which is not installed")
    return made


def check_again(subject: Subject, report: Report, first: Made) -> None:
    """The same octets from another copy, under other circumstances, and another version by another heading."""
    with new_copy(subject) as copy:
        for file in (copy.root / "dictionaries").iterdir():
            os.utime(file)
        second = make_package(copy, umask=0o077, TZ="Asia/Tokyo")
        pairs = zip(first.files(), second.files())
        wrong = [one.name for one, other in pairs if not other.is_file() or one.read_bytes() != other.read_bytes()]
        report.check("make package: the same octets again", wrong)
        changes = copy.root / "CHANGELOG.md"
        changes.write_text(changes.read_text().replace("\n## ", "\n## 9.8.7\n\n- Another.\n\n## ", 1))
        other = make_package(copy)
        version = printed(["dpkg-deb", "-f", other.package, "Version"]).strip()
        report.check("make package: the version of the change log", [] if version == "9.8.7" else [version])


def faults_of_calls(folder: Path) -> List[str]:
    """What the programs in a folder call of the C library and should not."""
    wrong = []
    for program in sorted(folder.iterdir()):
        symbols = [line.split() for line in printed(["objdump", "-T", program]).splitlines() if "*UND*" in line]
        wrong += [f"{program.name} calls {words[-1]}" for words in symbols if OUTWARD.fullmatch(words[-1].lstrip("_"))]
        wrong += [] if symbols else [f"{program.name} calls nothing"]
    return wrong


def check_installed(copy: Copy, report: Report, made: Made) -> None:
    """The package installed in a folder in place of the root, used there, and removed."""
    if os.geteuid() != 0:
        report.say("make package: not installed, since dpkg asks for the rights of root")
        return
    root, elsewhere = new_folder_beside(copy, "root"), new_folder_beside(copy, "elsewhere")
    for folder in ("info", "updates"):
        (root / "var/lib/dpkg" / folder).mkdir(parents=True)
    (root / "var/lib/dpkg/status").touch()
    before = files_below(root)
    dpkg = ["dpkg", f"--root={root}", f"--log={root.parent}/log", "--force-depends", "--path-include=*"]
    said = printed([*dpkg, "-i", *made.files()[:2]])
    contents = [line for package in made.files()[:2] for line in printed(["dpkg-deb", "-c", package]).splitlines()]
    listed = {line.split(" ./")[1].split(" -> ")[0] for line in contents}
    missing = {name for name in listed if name and not name.endswith("/")} - files_below(root)
    report.check("the package: installed", [f"{name} is missing; {said}" for name in sorted(missing)])
    report.check("the package: in use", faults_of_use(root / "usr", elsewhere))
    architecture = printed(["dpkg-architecture", "-qDEB_HOST_MULTIARCH"]).strip()
    wrong = faults_of_library(root / "usr", elsewhere, f"lib/{architecture}")
    report.check("the package: the library for C", wrong)
    report.check("the package: no call that opens a socket or starts a program", faults_of_calls(root / "usr/bin"))
    said = printed([*dpkg, "-r", "radpolicy-dev", "radpolicy"])
    own = {name for name in files_below(root) - before if not name.startswith("var/lib/dpkg/")}
    own |= {"usr"} if (root / "usr").exists() else set()
    report.check("the package: removed, with no file left", [f"{name} is left; {said}" for name in sorted(own)])


def check(subject: Subject, report: Report) -> None:
    """`make package`, by programs that are built."""
    absent = [command for command in NEEDED if shutil.which(command, path=SYSTEM_PATH) is None]
    absent += [] if (subject.root / LIBRARY).is_file() else [LIBRARY]
    if absent:
        report.say(f"make package: not tried, there is no {', no '.join(absent)}")
        return
    with new_copy(subject) as copy:
        made = check_made(copy, report)
        check_again(subject, report, made)
        check_installed(copy, report, made)
