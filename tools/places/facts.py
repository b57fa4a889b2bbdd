import collections, glob, re
facts = collections.defaultdict(set)
for path in sorted(glob.glob("crates/*/src/*.rt")):
    crate, stem = path.split("/")[1], path.split("/")[3][:-3]
    for fn in re.finditer(r"\bfn (\w+)(?:<[^>]*>)?\(([^)]*)\)((?:(?!\bfn \w).)*?)(?:\n *\{|;)\n", open(path).read(), re.S):
        types = dict(re.findall(r"(\w+): ([^,]+?)\s*(?:,|$)", fn[2].strip()))
        for kind, clause in re.findall(r"(requires|ensures)(?: \w+)? \{ (.*) \};?$", fn[3], re.M):
            for fact in clause.split(" × "):
                fact = re.sub(r"^\((.*)\)$", lambda m: m[1] if m[1].count("(") == m[1].count(")") else m[0], fact)
                fact = re.sub(r"[A-Za-z_]\w*", lambda m: "‹" + types[m[0]] + "›" if m[0] in types else m[0], fact)
                facts[kind, fact].add(f"{crate}::{stem}::{fn[1]}")
for (kind, fact), fns in sorted(facts.items()):
    if len(fns) > 2:
        print(f"{kind} {fact}: {len(fns)}: {' '.join(sorted(fns))}")
