"""The sums of what radpolicy-replay says at the end, of parts of an input."""
import json
import re
from collections import Counter

COUNT = re.compile(r"(\d+) ([a-z]+(?: [a-z]+)*)")
LINE = re.compile(r"  (\d+) by (.*?):(\d+): (.*)\n")
MEMBERS = ("records", "policy", "line", "text")
# Names of records are told of a difference.
FIRST = 3
SUMMARY = re.compile(
    r"(\d+ [a-z]+(?:, \d+ [a-z ]+)*\n)(?:every record is refused: .*\n)?(?:  \d+ records: .*\n)*((?:  \d+ by .*\n)*)(no secret: .*\n)?"
    r"(?:\d+ records a second\n)?"
)


class Sums:
    """Counts, of records, by lines of policies and, of JSON, by differences, and whether no secret was known. The rates
    of parts are left out, and so are differences in words, of which a part does not tell those that it has once."""

    def __init__(self):
        self.counts, self.lines, self.policies, self.differences = Counter(), Counter(), [], {}
        self.no_secret, self.is_json = None, False

    def add(self, said):
        """Adds a summary, if this is one, and says whether it is."""
        return self.add_json(said) if said.startswith("{") else self.add_text(said)

    def add_lines(self, lines):
        """Adds lines of policies, those of the new one before those of the old one."""
        for number, *place in lines:
            self.lines[tuple(place)] += number
        policies = list(dict.fromkeys(policy for _, policy, _, _ in lines))
        if len(policies) > 1 or not set(policies) <= set(self.policies):
            self.policies = policies + [policy for policy in self.policies if policy not in policies]

    def add_differences(self, differences):
        for each in differences:
            records, first = self.differences.get(each["difference"], (0, []))
            self.differences[each["difference"]] = records + each["records"], (first + each["first"])[:FIRST]

    def add_text(self, said):
        if not (summary := SUMMARY.fullmatch(said)):
            return False
        self.counts.update({name: int(number) for number, name in COUNT.findall(summary[1])})
        found = LINE.findall(summary[2])
        self.add_lines([(int(number), policy, int(line), text) for number, policy, line, text in found])
        self.no_secret = self.no_secret or summary[3]
        return True

    def add_json(self, said):
        try:
            summary = json.loads(said)
        except ValueError:
            return False
        self.is_json = True
        self.add_lines([tuple(line[member] for member in MEMBERS) for line in summary.pop("lines")])
        self.add_differences(summary.pop("differences"))
        self.no_secret = summary.pop("no_secret", self.no_secret)
        summary.pop("records_per_second", None)
        self.counts.update(summary)
        return True

    def __str__(self):
        places = sorted(self.lines, key=lambda place: (self.policies.index(place[0]), place[1]))
        lines = [(self.lines[place], *place) for place in places]
        if self.is_json:
            said = dict(self.counts, **({"no_secret": True} if self.no_secret else {}))
            told = sorted(self.differences.items(), key=lambda each: -each[1][0])
            said["differences"] = [
                {"records": records, "difference": text, "first": first} for text, (records, first) in told
            ]
            said["lines"] = [dict(zip(MEMBERS, line)) for line in lines]
            return json.dumps(said, separators=(",", ":"), ensure_ascii=False) + "\n"
        counts = ", ".join(f"{number} {name}" for name, number in self.counts.items()) + "\n"
        by = "".join(f"  {number} by {policy}:{line}: {text}\n" for number, policy, line, text in lines)
        return counts + by + (self.no_secret or "")
