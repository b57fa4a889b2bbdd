import glob, itertools, re
fns = {}
for path in sorted(glob.glob("crates/*/src/*.rt")):
    for m in re.finditer(r"\bfn (\w+)(?:<[^>]*>)?\(([^)]*)\)", open(path).read()):
        fns[f"{path[7:-3].replace('/src/', '::')}::{m[1]}"] = frozenset(" ".join(p.split()) for p in m[2].split(",") if ":" in p)
groups = {frozenset.intersection(*(fns[f] for f in trio)) for trio in itertools.combinations(fns, 3)}
for group in sorted((g for g in groups if len(g) > 2), key=sorted):
    who = [f for f in fns if group <= fns[f]]
    print(f"{', '.join(sorted(group))}: {len(who)}: {' '.join(who)}")
