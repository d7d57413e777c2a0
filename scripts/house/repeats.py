"""Files that have the same six lines and more in a row, each with another or twice in itself."""
import re
from collections import defaultdict

LEAST = 6
# A run of lines that stands in more places is too common to say anything.
MOST = 8
# What is not counted: blank lines, comments, imports, and lines with no word.
THIN = re.compile(r"\s*(//|--|(pub(\([^)]*\))? )?(ghost )?use |[^\w]*$)")


def told_lines(text):
    """Returns the lines that count, each with its number, blanks folded."""
    return [(number, " ".join(line.split())) for number, line in enumerate(text.split("\n"), 1) if not THIN.match(line)]


def places_of_runs(files):
    """Returns of each run of six lines where it begins: file and place among the lines that count."""
    places = defaultdict(list)
    for file, lines in files.items():
        for at in range(len(lines) - LEAST + 1):
            places[tuple(it[1] for it in lines[at : at + LEAST])].append((file, at))
    return places


def pairs_of(texts):
    """Returns the pairs of files, or files by themselves, that share six lines or more, as two of `FILE:LINE`, where the
    first such place is."""
    files = {file: told_lines(text) for file, text in texts.items()}
    shared = set()
    for places in places_of_runs(files).values():
        if len(places) <= MOST:
            shared |= {(one, other) for one in places for other in places if one < other}
    first = {(one[0], other[0]): (one[1], other[1]) for one, other in sorted(shared, reverse=True)}
    return sorted((f"{a}:{files[a][i][0]}", f"{b}:{files[b][j][0]}") for (a, b), (i, j) in first.items())
