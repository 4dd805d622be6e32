#!/usr/bin/env python3
# Counts the places of older forms in the code of a commit, or of the folder as it is where no commit is named; -v lists each.
import re
import subprocess
import sys


def sources(commit):
    """The files crates/*/src/**.rt as (path, text)."""
    if commit is None:
        names = subprocess.run(["git", "ls-files", "-co", "--exclude-standard", "crates"], capture_output=True, text=True).stdout.split()
        read = lambda n: open(n, encoding="utf-8").read()
    else:
        names = subprocess.run(["git", "ls-tree", "-r", "--name-only", commit, "crates"], capture_output=True, text=True).stdout.split()
        read = lambda n: subprocess.run(["git", "show", f"{commit}:{n}"], capture_output=True, text=True).stdout
    return [(n, read(n)) for n in sorted(names) if re.match(r"crates/\w+/src/.*\.rt$", n)]


# Each pattern is asked of every line of the code.
LINES = {
    "1 enums": r"^\s*(pub(\(\w+\))? )?enum ",
    "1 answers of a value and a flag": r"-> (Result<)?\((.*, )?(bool|Option<\w+>)(, .*)?\)",
    "1 numbers that stand for none": r"\bconst END\b|=> 0,$|unwrap_or\(0\)",
    "3 loops over counted numbers, `while`, `loop`": r"^\s*(for .* in .*\.\.|while |loop \{)",
    "3 counters stepped by hand": r"(\+= 1;|saturating_add\(1\);)$",
    "3 tests of a place before a read": r"^\s*if \w+ < .*(len\(\)|count)\b.*\{",
    "4 impls of equality, order, copying, conversion, printing": r"^\s*impl.* (PartialEq|Eq|PartialOrd|Ord|Clone|Copy|From|TryFrom|Display|fmt::Display|Debug|Default|Add)\b.* for ",
    "4 comparisons by a function of their own": r"fn (is|same\w*|compare\w*|is_rising)\(",
    "6 fields that are fixed arrays": r"^\s+(pub )?\w+: (&mut )?\[.*; .*\],$",
    "6 fields that count what an array holds": r"^\s+(count|used): usize,$",
    "7 `dyn`, function pointers, switches on a step": r"\bdyn\b|: fn\(|match \w*(step|kind|mode)\b",
}


def heads(text):
    """The heads of functions: from `fn` to the brace of the body or the end of the declaration."""
    return re.findall(r"\bfn \w+[^{;]*(?:\{ [^\n]*\}\n[^{;]*)*[{;]", text)


def main():
    words = [w for w in sys.argv[1:] if w != "-v"]
    wordy = "-v" in sys.argv
    code = sources(words[0] if words else None)
    for name, pattern in LINES.items():
        found = [(n, i + 1, l.strip()) for n, t in code for i, l in enumerate(t.split("\n")) if re.search(pattern, l) and not l.strip().startswith("//")]
        print(f"{len(found):4}  {name}")
        if wordy:
            for place in found:
                print("        %s:%d: %s" % place)
    clauses, groups, changing = {}, {}, []
    for n, t in code:
        for clause in re.findall(r"(?:requires|ensures)(?: \w+)? \{ (.*) \}$", t, re.M):
            clauses.setdefault(clause, []).append(n)
        for head in heads(t):
            names = re.findall(r"(\w+): ", head.split(")")[0])
            for i in range(len(names) - 1):
                groups.setdefault((names[i], names[i + 1]), []).append(n)
            if re.search(r"&mut", head.split("->")[0]) and re.search(r"-> bool", head):
                changing.append((n, re.search(r"fn (\w+)", head).group(1)))
    print(f"{len(changing):4}  1 functions that change something and answer `bool`")
    if wordy:
        for place in changing:
            print("        %s: %s" % place)
    for name, table in (("5 clauses that stand word for word in three functions or more", clauses), ("5 pairs of parameters side by side in three functions or more", groups)):
        often = sorted(((len(v), k, v) for k, v in table.items() if len(v) > 2), key=lambda e: -e[0])
        print(f"{sum(e[0] for e in often):4}  {name} ({len(often)} different)")
        if wordy:
            for number, key, where in often:
                print(f"        {number}: {key} in {', '.join(sorted(set(w.split('/')[1] for w in where)))}")


main()
