"""Policies with a copy of a secret attribute in a line with a fault, and beside it lines with a fault that compare or set the
copy."""
from random import Random
from typing import List

from common.secrets import WIDER, Policy, attributes, is_text

# Attributes that are no secret but by a copy.
TARGETS = ["Tmp-String-0", "Tmp-String-1", "Filter-Id", "Reply-Message", "User-Name"]
# Statements that seem to give the target {t} a value of the secret attribute {s}; none of them can be read.
COPIES = [
    'update {{\n{t}[0] := "%{{{s}}}"\n}}',
    "update control {{\n&{t}[n] := &{s}\n}}",
    "update {{\n{t} := := &{s}\n}}",
    'update {{\n{t} := = "%{{{s}}}"\n}}',
    "update {{\n{t} := %{{{s}}}\n}}",
    'update {{\n{t} := "%{{{s}}}\n}}',
    "update reply {{\n{t} += 'a %{{{s}}}\n}}",
    'update {{\n{t} :=\n"%{{{s}}}\n}}',
    "update {{ {t} &{s} }}",
    'update {{\n{t} "%{{{s}}}"\n}}',
    "update {{\n{t} => &{s}\n}}",
    "update {{\n{t} $ &{s}\n}}",
    "update {{\n{t} := [ &{s} ]\n}}",
    "update {{\n{t} := ( &{s} )\n}}",
    'update {{\n{t} := "%{{string:control:{s}}}" x\n}}',
    'update {{\n{t} := x "%{{reply:{s}}}"\n}}',
    "update {{ &control:{t} += &{s}[0] }}",
    'foreach &{s} {{\nupdate {{\n{t} := "%{{Foreach-Variable-0}}"\n}}\n}}',
    'if (&{s} =~ /(.*)/ {{\nupdate {{\n{t} := "%{{1}}"\n}}\n}}',
    'switch &{s} {{\ncase /(.*)/ {{\nupdate {{\n{t} := "%{{0}}"\n}}\n}}\n}}',
]
# Lines with a secret {v} beside the target, none of which can be read.
LINES = [
    'if (&{t} = "{v}") {{ ok }}',
    "if ('{v}' = &{t}) {{ ok }}",
    'if (&{t} == "{v}" x) {{ ok }}',
    'if (&control:{t} == "{v}) {{ ok }}',
    "if (&{t} == {v} {v}) {{ ok }}",
    'if ("%{{{t}}}" = "{v}") {{ ok }}',
    'if ("{v}" == "%{{request:{t}}}" {{ ok }}',
    "if (&{t} =~ /{v}) {{ ok }}",
    'if (&{t}[0] == "{v}") {{ ok }}',
    'update reply {{ {t} := "{v}" x }}',
    "update {{ &{t} := {v} {v} }}",
    'update {{ {t} "{v}" }}',
    'update {{ {t}[1] += "{v}" }}',
    '{t} = "{v}"',
    'switch &{t} {{ case "{v}" {{ ok }} }}',
]
# The same beside the secret attribute itself: a value that is joined to its name, or stands behind another sign.
JOINED = [
    "update {{ {s}:{v} }}",
    "update {{ {s}/{v} := x }}",
    "update {{ &control:{s}@{v} }}",
    "if (&{s}.{v}) {{ ok }}",
    'update {{ {s}[0] := "{v}" }}',
    'update {{ {s} := := "{v}" }}',
]


def policy_with_faults(rng: Random) -> Policy:
    """A policy of such statements: the copy may stand before the lines or behind them."""
    policy = Policy()
    copied = rng.choice([it for it in attributes() if is_text(it)])
    target = rng.choice(TARGETS)
    body: List[str] = [rng.choice(COPIES).format(t=target, s=copied.name)]
    for template in rng.sample(LINES, rng.randint(1, 3)):
        body.append(policy.fill(rng, template.replace("{t}", target), copied))
    if rng.random() < 0.5:
        body.append(policy.fill(rng, rng.choice(JOINED), copied))
    rng.shuffle(body)
    policy.text = WIDER + "\n".join(body) + "\n"
    return policy
