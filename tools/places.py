"""Counts, in the sources below this folder, what stands in three functions or more: python3 tools/places.py

First the clauses: the text of a requires or an ensures, over the functions of its crate. Then each pair of
parameters by name, over all functions; self, an allocator and a runtime do not count."""
import collections
import glob
import re

LEFT_OUT = {"self", "heap", "rt", "f"}


def sources():
    for path in sorted(glob.glob("crates/*/src/**/*.rt", recursive=True)):
        with open(path, encoding="utf-8") as source:
            yield path.split("/")[1], path, source.read()


def clauses():
    found = collections.defaultdict(set)
    for crate, path, text in sources():
        function = None
        for line in text.splitlines():
            if named := re.search(r"\bfn (\w+)", line):
                function = f"{path.split('/')[-1]}:{named.group(1)}"
            clause = re.match(r"\s*(?:requires|ensures)\s*\w*\s*\{(.*)\}\s*;?$", line)
            if clause and function:
                found[crate, clause.group(1).strip()].add(function)
    return found


def pairs():
    found = collections.defaultdict(list)
    for crate, _, text in sources():
        for function in re.finditer(r"\bfn (\w+)(?:<[^>]*>)?\(([^)]*)\)", text):
            names = [part.split(":")[0].strip().replace("mut ", "") for part in function.group(2).split(",") if ":" in part]
            names = [name for name in names if name not in LEFT_OUT]
            for i, first in enumerate(names):
                for second in names[i + 1:]:
                    found[first, second].append(f"{crate}:{function.group(1)}")
    return found


for (crate, clause), functions in sorted(clauses().items()):
    if len(functions) >= 3:
        print(f"{crate}: {len(functions)} functions: {clause}")
for names, functions in sorted(pairs().items(), key=lambda row: -len(row[1])):
    if len(functions) >= 3:
        print(f"{', '.join(names)}: {len(functions)} functions: {' '.join(functions)}")
