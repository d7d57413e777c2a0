"""Pages that `radpolicy-page` writes: what a browser shows of them at each position is what `radpolicy step` prints,
and no secret is in a page that hides them."""
import base64
import hashlib
import re
import subprocess
from pathlib import Path
from typing import Dict, List, NamedTuple, Tuple

from common.report import Report
from common.subject import Subject, new_folder
from outputs.writers import OF_PAGE
from page.browser import Browser, installed, new_browser

WIDER = "# profile: wider\n"
LISTS = ("request", "reply", "control")
PASSWORD = "Hidden <b>password"
HOSTILE = f"""User-Name = "</script><script>document.title='taken'</script><!-- \\" & \\\\ \\342\\200\\250 \\377 \\001"
User-Password = "{PASSWORD}"
NAS-Identifier = "]]> &lt; <img src=x onerror=document.title=1>"
"""
COPYING = """# </script> in a comment
update control {
	Tmp-String-0 := "%{User-Password}"
	Cleartext-Password := "the literal"
}
transaction {
	update reply { Reply-Message += "It was %{control:Tmp-String-0}, </script> & more" }
	if (&User-Password == "another literal") { reject }
	fail
}
if (&User-Password =~ /^(.*)$/) {
	update control { Tmp-String-1 := "%{1}" }
}
update reply { Filter-Id := &control:Tmp-String-0 }
"""
SECRETS = (PASSWORD, "the literal", "another literal")
ESCAPES = ((b"\\u003c", b"\\u003e"), (b"&lt;", b"&gt;"))
INTERNAL = """ATTRIBUTE Tmp-String-0 1820 string
ATTRIBUTE Tmp-String-1 1821 string
ATTRIBUTE Cleartext-Password 1100 string
"""
BUTTONS = ("To the start", "One step back", "One step forward", "To the end")
CONTROLS = {("slider", "Position"), *(("button", name) for name in BUTTONS)}
# As radpolicy-import writes it, and the lines that do not run where the user is bob.
COMMENTED = """if (&User-Name == "bob") {  # policy.d/campus:3
	update reply { Filter-Id := "bob's" }
}  # policy.d/campus:5
elsif (&User-Name == "eve") {  # policy.d/campus:6
	reject
}  # policy.d/campus:8
ok
"""
IDLE = ["4", "5", "6"]
IDLE_NUMBERS = "[...document.querySelectorAll('#policy .idle .number')].map(it => it.textContent)"
# What is shown at a position: the words of the step, and each list.
SHOWN = """(() => ({
  step: document.getElementById("step").textContent,
  lists: ["request", "reply", "control"].map(name =>
    [...document.querySelectorAll(`#${name} li:not(.gone) .words`)].map(it => it.textContent)),
  current: [...document.querySelectorAll("#policy [aria-current] .number")].map(it => it.textContent),
}))()"""


class Made(NamedTuple):
    """A page, and the files that it is made of."""

    folder: Path
    words: List[str]


def files_of(subject: Subject) -> List[str]:
    return [str(path) for path in sorted((subject.root / "dictionaries").glob("dictionary*"))]


def page_of(subject: Subject, made: Made, *more: str) -> bytes:
    """The page that the program writes."""
    command = [str(subject.driver("radpolicy_page")), *made.words, *more]
    ended = subprocess.run(command, cwd=made.folder, stdout=subprocess.PIPE, stderr=subprocess.PIPE)
    if ended.returncode != 0:
        raise RuntimeError(ended.stderr.decode())
    return ended.stdout


def wanted_of(subject: Subject, made: Made) -> List[Tuple[str, List[List[str]]]]:
    """Of each position the words of its step, and its lists, as `radpolicy step` prints them."""
    plain = [word for word in made.words if word != "--show-secrets"]
    script = made.folder / "script"

    def printed(words: str) -> List[str]:
        script.write_text(words)
        command = [str(subject.program), "step", "--script", "script", *plain]
        ended = subprocess.run(command, cwd=made.folder, stdout=subprocess.PIPE, check=True)
        return ended.stdout.decode(errors="replace").split("\n")[:-1]

    steps = int(printed("end")[0].split()[0])
    positions: List[Tuple[str, List[List[str]]]] = [("0 start ok", [])]
    for line in printed("show" + " forward show" * steps):
        if line in LISTS:
            positions[-1][1].append([])
        elif line.startswith("  "):
            positions[-1][1][-1].append(line[2:])
        else:
            positions.append((line, []))
    return positions


def faults_here(browser: Browser, wanted: List[Tuple[str, List[List[str]]]], place: int) -> List[str]:
    """Where a browser shows something else than is printed of a position."""
    label, lists = wanted[place]
    shown, words = browser.value(SHOWN), f"{place} of {len(wanted) - 1}: {label.split(' ', 1)[1]}"
    line = re.match(r"\d+ \w+ (\d+)", label)
    marked = [line.group(1)] if line else []
    wrong = [] if shown["step"] == words and shown["lists"] == lists else [f"{shown}, and not {words} {lists}"]
    return wrong + ([] if shown["current"] == marked else [f"line {shown['current']} is marked at {place}"])


def press(browser: Browser, key: str) -> None:
    for kind in ("keyDown", "keyUp"):
        browser.ask("Input.dispatchKeyEvent", type=kind, key=key, code=key)


def faults_of_positions(browser: Browser, subject: Subject, made: Made) -> List[str]:
    """The same of each position, going forward by a key and back by a button."""
    wanted, wrong = wanted_of(subject, made), []
    for place in range(len(wanted)):
        wrong += faults_here(browser, wanted, place)
        press(browser, "ArrowRight")
    for place in reversed(range(len(wanted))):
        wrong += faults_here(browser, wanted, place)
        browser.value("document.getElementById('back').click()")
    return wrong


def example(subject: Subject, folder: Path, name: str) -> Made:
    """An example's request and policy, the policy below the line for the wider profile."""
    source = subject.root / "examples" / name
    policy = source.joinpath("policy").read_text()
    folder.joinpath("policy").write_text(policy if policy.startswith("# profile") else WIDER + policy)
    folder.joinpath("request").write_bytes(source.joinpath("request").read_bytes())
    return Made(folder, ["-f", "request", "--policy", "policy", *files_of(subject)])


def hostile(subject: Subject, folder: Path) -> Made:
    folder.joinpath("request").write_text(HOSTILE)
    folder.joinpath("policy").write_text(WIDER + COPYING)
    folder.joinpath("dictionary.internal").write_text(INTERNAL)
    main = folder / "dictionary"
    main.write_text(subject.root.joinpath("dictionaries/dictionary").read_text() + "$INCLUDE dictionary.internal\n")
    files = [str(main), str(folder / "dictionary.internal"), *files_of(subject)[1:]]
    return Made(folder, ["-f", "request", "--policy", "policy", *files])


def spellings(secret: str) -> List[bytes]:
    """A secret as octets, in hexadecimal digits and in base64 from each of three octets on, and as it is escaped."""
    octets = secret.encode()
    found = [octets, octets.hex().encode(), octets.hex().upper().encode()]
    found += [octets.replace(b"<", less).replace(b">", more) for less, more in ESCAPES]
    for place in range(3):
        coded = base64.b64encode(b"\0" * place + octets)
        found.append(coded[(place * 8 + 5) // 6 : -4])
    return found


def faults_of_secrets(page: bytes, secrets: Tuple[str, ...]) -> List[str]:
    found = [(secret, spelled) for secret in secrets for spelled in spellings(secret) if spelled in page]
    return [f"{secret!r} is in the page as {spelled!r}" for secret, spelled in found]


def faults_of_names(browser: Browser) -> List[str]:
    """Controls that the browser's tree for screen readers has without a name."""
    nodes: List[Dict] = browser.ask("Accessibility.getFullAXTree")["nodes"]
    roles = {"button", "slider", "list", "region", "navigation"}
    shown = [node for node in nodes if not node["ignored"] and "role" in node]
    named = [(node["role"]["value"], node.get("name", {}).get("value", "")) for node in shown]
    wrong = [f"a {role} has no name" for role, name in named if role in roles and not name]
    return wrong + [f"no {role} is named {name}" for role, name in CONTROLS - set(named)]


def faults_of_fixed_parts(subject: Subject, page: bytes) -> List[str]:
    """Where the fixed parts are not those of the crate's folder, or the content policy has other fingerprints."""
    made = subprocess.run([str(subject.root / "scripts/make-page"), "check"], stderr=subprocess.PIPE)
    wrong = [made.stderr.decode()] if made.returncode else []
    for tag in (b"style", b"script"):
        text = re.search(b"<%b>(.*?)</%b>" % (tag, tag), page, re.DOTALL)
        fingerprint = base64.b64encode(hashlib.sha256(text.group(1) if text else b"").digest())
        allowed = b"%b-src 'sha256-%b'" % (tag, fingerprint) in page
        wrong += [] if allowed else [f"the fingerprint of its {tag.decode()}"]
    return wrong


def check_files(subject: Subject, report: Report, folder: Path) -> None:
    made = hostile(subject, folder)
    page = page_of(subject, made)
    wrong = faults_of_secrets(page, SECRETS)
    wrong += [] if page.count(b"(hidden)") > 8 else ["too little is hidden"]
    shown = faults_of_secrets(page_of(subject, made, "--show-secrets"), SECRETS)
    wrong += [] if len(shown) >= len(SECRETS) else [f"with --show-secrets it has {shown} alone"]
    report.check("page without secrets", wrong)
    page_of(subject, made, "-o", "page.html")
    written = made.folder.joinpath("page.html").read_bytes()
    report.check("page in a file", [] if OF_PAGE.without_mark(written) == page else ["it is another"])
    report.check("page of fixed parts", faults_of_fixed_parts(subject, page))
    source = subject.root / "examples/transactions"
    page = page_of(subject, Made(source, ["-f", "request", "--policy", "policy", *files_of(subject)]))
    kept = subject.root.joinpath("docs/page-of-transactions.html").read_bytes()
    report.check("page in the documents", [] if page == kept else ["it is another: write it anew"])


def check_lines(subject: Subject, report: Report, folder: Path) -> None:
    """Lines are read in the wider profile, whatever their first line is."""
    folder.joinpath("request").write_text('User-Name = "bob"\nTunnel-Type:1 = VLAN\n')
    folder.joinpath("reply").write_text("Tunnel-Type:2 = VLAN\n")
    folder.joinpath("control").write_text("Login-IPv6-Host = 2001:db8::1\n")
    folder.joinpath("policy").write_text(WIDER + "ok\n")
    lists = ["--reply", "reply", "--control", "control"]
    page = page_of(subject, Made(folder, ["-f", "request", *lists, "--policy", "policy", *files_of(subject)]))
    pairs = (b"Tunnel-Type:1 = VLAN", b"Tunnel-Type:2 = VLAN", b"Login-IPv6-Host = 2001:db8::1")
    report.check("page of lines with tags", [f"{it!r} is not in the page" for it in pairs if it not in page])


def check_idle(subject: Subject, report: Report, browser: Browser, folder: Path) -> None:
    """Closing braces are dimmed with their branch, whatever comment is behind them."""
    folder.joinpath("request").write_text('User-Name = "bob"\n')
    folder.joinpath("policy").write_text(WIDER + COMMENTED)
    made = Made(folder, ["-f", "request", "--policy", "policy", *files_of(subject)])
    folder.joinpath("page.html").write_bytes(page_of(subject, made))
    browser.open(f"file://{folder}/page.html")
    found = [str(int(number) - 1) for number in browser.value(IDLE_NUMBERS)]
    report.check("page with braces before comments", [] if found == IDLE else [f"lines {found} are dimmed"])


def check_in_browser(subject: Subject, report: Report, browser: Browser, folder: Path) -> None:
    for name in ("transactions", "alternatives", "hello", "vlan"):
        folder.joinpath(name).mkdir()
        made = example(subject, folder / name, name)
        folder.joinpath("page.html").write_bytes(page_of(subject, made, "--show-secrets"))
        browser.open(f"file://{folder}/page.html")
        wrong = faults_of_positions(browser, subject, made)
        report.check(f"page of {name}", wrong + browser.complaints() + faults_of_names(browser))
    folder.joinpath("commented").mkdir()
    check_idle(subject, report, browser, folder / "commented")
    folder.joinpath("hostile").mkdir()
    made = hostile(subject, folder / "hostile")
    page = page_of(subject, made, "--show-secrets")
    folder.joinpath("page.html").write_bytes(page)
    browser.open(f"file://{folder}/page.html")
    wrong = faults_of_positions(browser, subject, made)
    title = browser.value("document.title")
    wrong += [] if title == "radpolicy: a run, step by step" else [f"the title is {title}"]
    report.check("page of a hostile request", wrong + browser.complaints())
    for asked, wanted in (("#position=3", 3), ("#position=99999", 0), ("#position=-1", 0), ("#position=2x", 0)):
        browser.open(f"file://{folder}/page.html{asked}")
        found = browser.value("Number(document.getElementById('slider').value)")
        report.check(f"page opened at {asked}", [] if found == wanted else [f"it is at {found}"])


def check(subject: Subject, report: Report) -> None:
    if not subject.driver("radpolicy_page").is_file():
        report.check("pages", ["radpolicy_page is not built"])
        return
    with new_folder() as folder:
        folder.joinpath("hidden").mkdir()
        check_files(subject, report, folder / "hidden")
        folder.joinpath("lines").mkdir()
        check_lines(subject, report, folder / "lines")
        program = installed()
        if not program:
            report.say("page: what a browser shows is left out, there is no chromium")
            return
        with new_browser(program, folder) as browser:
            check_in_browser(subject, report, browser, folder)
