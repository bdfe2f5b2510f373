"""Counts the places of the design pass in the sources: run it at the top of the repository.

    python3 tools/places.py          a line for each point
    python3 tools/places.py list     each place too
    python3 tools/places.py list 3   the places of point 3 alone

It finds by the text what may be written in a better form; what a reader finds is in docs/DESIGN-PASS.md.
"""

import collections
import itertools
import pathlib
import re
import sys

SOURCES = sorted(pathlib.Path("crates").glob("*/src/**/*.rt"))
ANSWERS = sorted(pathlib.Path("crates").glob("*/proofs/*/**/Answers.antt"))

# An enum, or a method that answers a kind by a number.
ENUMS = r"\benum \w+|fn (number|layer|code)\(.*-> u"
# A loop over numbers, a loop by a condition, or a count that goes up by hand.
LOOPS = r"for \w+ in \d*\w*\.\.|\bwhile\b|\+= 1;"
# A trait that a derive may give, or a conversion under a name of its own.
IMPLS = r"^impl.*\b(From<|TryFrom<|PartialEq|PartialOrd|Clone|Copy|Debug|Default|(fmt::)?Display) ?.*for |fn (none|name_of|line_of|number)\("
# An array of a fixed size in a type or a local, or a count beside something.
BUFFERS = r"(: |= )\[.+; \w+\]|^\s+(pub )?(count|len|length): "
# What chooses a step: a function as a value, or a match on what to do.
CHOICES = r"\bfn\(|\bdyn\b|match (command|which|name|kind|self\.forms\.command)"


def lines_like(pattern, files=SOURCES):
    """The lines of the sources, without comments and clauses, in which the pattern stands."""
    for path in files:
        for number, line in enumerate(path.read_text().splitlines(), 1):
            code = line.split("//")[0]
            if re.match(r"\s*(ensures|requires|ghost)\b", code):
                continue
            if re.search(pattern, code):
                yield f"{path}:{number}: {line.strip()}"


def functions():
    """Each function: where it is, its signature, its clauses, its body."""
    head = re.compile(r"^( *)(?:pub(?:\(\w+\))? )?fn (\w+)")
    for path in SOURCES:
        lines = path.read_text().splitlines()
        for start, line in enumerate(lines):
            found = head.match(line)
            if not found:
                continue
            indent = found.group(1)
            signature, clauses, body, inside = [], [], [], False
            for text in lines[start:]:
                if inside:
                    if text == indent + "}":
                        break
                    body.append(text.split("//")[0].strip())
                elif re.match(r"\s*(ensures|requires)\b", text):
                    clauses.append(text.strip().rstrip(";"))
                    if text.endswith(";"):
                        break
                elif text == indent + "{" or text.endswith("{"):
                    signature.append(text.rstrip("{").strip())
                    inside = True
                elif text.endswith(";") or text.endswith(" }"):
                    signature.append(text.strip())
                    break
                else:
                    signature.append(text.strip())
            yield f"{path}:{start + 1}: {found.group(2)}", " ".join(signature), clauses, " ".join(body)


def twins():
    """Groups of functions whose bodies are the same but for names and numbers."""
    groups = collections.defaultdict(list)
    for where, _, _, body in functions():
        shape = re.sub(r"\b(?!let|mut|if|else|for|in|while|match|return|Ok|Err|Some|None|self)\w+\b", "_", body)
        if len(re.findall(r"\w+|\S", shape)) >= 24:
            groups[shape].append(where)
    return [" | ".join(group) for group in groups.values() if len(group) > 1]


def repeated_facts():
    """Clauses that stand word for word, but for their name, in three or more contracts."""
    counts = collections.Counter()
    for _, _, clauses, _ in functions():
        counts.update(re.sub(r"^(ensures|requires)( \w+)? \{", "{", clause) for clause in clauses)
    return [f"{count} times {clause}" for clause, count in counts.most_common() if count >= 3]


def travelling():
    """Pairs of parameters, not `self`, that three or more functions of one file take together."""
    counts = collections.Counter()
    for where, signature, _, _ in functions():
        taken = re.sub(r"^.*?fn \w+(<.*?>)?\(", "", signature.split(" -> ")[0])
        names = re.findall(r"\b(\w+: &?(?:mut )?[\w\[][^,()]*)", taken)
        for first, second in itertools.combinations(names, 2):
            counts[where.split(":")[0], first.strip(" )"), second.strip(" )")] += 1
    return [f"{count} times in {file}: {first}, {second}" for (file, first, second), count in counts.most_common() if count >= 3]


def answers():
    """Goals that are answered by hand."""
    return list(lines_like(r"^pub \S+ : goal\.", ANSWERS))


POINTS = {
    1: ("enums, and kinds answered by a number", lambda: list(lines_like(ENUMS))),
    2: ("groups of functions with one body but for names and numbers", twins),
    3: ("loops over numbers or by a condition, and counts by hand", lambda: list(lines_like(LOOPS))),
    4: ("traits that a derive may give, and conversions by name", lambda: list(lines_like(IMPLS))),
    5: ("facts in three or more contracts, and parameters that travel together", lambda: repeated_facts() + travelling()),
    6: ("arrays of a fixed size, and counts beside something", lambda: list(lines_like(BUFFERS))),
    7: ("functions as values, and matches on what to do", lambda: list(lines_like(CHOICES))),
    8: ("goals answered by hand", answers),
}


def main():
    wanted = [int(word) for word in sys.argv[2:]] or list(POINTS)
    for point in wanted:
        title, places = POINTS[point]
        found = places()
        print(f"{point}. {title}: {len(found)}")
        if "list" in sys.argv[1:]:
            for place in found:
                print(f"    {place}")
    stays = list(lines_like_comment())
    print(f"kept with a reason beside it: {len(stays)}")
    if "list" in sys.argv[1:] and not sys.argv[2:]:
        for place in stays:
            print(f"    {place}")


def lines_like_comment():
    """The lines that say why a place stays as it is."""
    for path in SOURCES:
        for number, line in enumerate(path.read_text().splitlines(), 1):
            if "// Stays: " in line:
                yield f"{path}:{number}: {line.strip()}"


main()
