"""The cases of `radpolicy-page`: each file of `cases/` has a request, a policy, a command, and what the page has to
hold.

    $ radpolicy-page -f request --policy policy dictionary
    >> shown
    update control { User-Password := (hidden) }
    >> lists
    request
    reply
    control
      User-Password = (hidden)

They are written as all worked cases are (`common/worked.py`). Of a page `data` is the text that its script reads,
`shown` the policy in it, and `lists` what is there without a script, the lists at the end of the run."""
import json
import re
from pathlib import Path
from typing import Dict

from common.program import Ended
from common.report import Report
from common.subject import Subject
from common.worked import Cases, as_printed, check_cases

DATA = re.compile(rb'<script type="application/json" id="run">(.*)</script>\n')
LISTS = re.compile(rb'<pre tabindex="0" aria-labelledby="end-heading">\n(.*)</pre>\n', re.DOTALL)


def named(ended: Ended, files: Dict[str, bytes]) -> Dict[str, bytes]:
    data, lists = DATA.findall(ended.output), LISTS.findall(ended.output)
    found = as_printed(ended, files)
    if len(data) == len(lists) == 1:
        found["data"], found["lists"] = data[0] + b"\n", lists[0]
        found["shown"] = json.loads(data[0])["policy"].encode()
    return found


CASES = Cases("page", Path(__file__).parent / "cases", named)


def check(subject: Subject, report: Report) -> None:
    check_cases(CASES, subject, report)
