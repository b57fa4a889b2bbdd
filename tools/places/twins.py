import collections, glob, re
KEPT = set("as break const else enum extern fn for if impl in let match mut ref return self Self struct while Ok Err Some None".split())
shapes = collections.defaultdict(list)
for path in sorted(glob.glob("crates/*/src/*.rt")):
    text = re.sub(r"//.*|pub(\(\w+\))? |^ *(ghost use|requires|ensures|#\[tactic).*$", "", open(path).read(), flags=re.M)
    for indent in ("", "    "):
        for item in re.finditer(rf"^{indent}(?:extern \"C\" )?(fn|struct|enum|impl|trait)(?:<[^>]*>)? ([\w ]+)(;|.*?^{indent}\}})", text, re.M | re.S):
            names, shape = {}, []
            for w in re.findall(r"\w+|[^\w\s,]", item[0]):
                if w[0].isdigit() or w in ("true", "false"):
                    w = "0"
                elif (w[0].isalpha() or w[0] == "_") and w not in KEPT:
                    w = names.setdefault(w, f"n{len(names)}")
                shape.append(w)
            line = text[:item.start()].count("\n") + 1
            shapes[" ".join(shape)].append(f"{path[7:].replace('src/', '')}:{line} {item[1]} {item[2].strip()}")
for shape, who in sorted(shapes.items(), key=lambda s: s[1]):
    if len(who) > 1 and len(shape.split()) > 9:
        print(f"{len(who)} alike, {len(shape.split())} words each: {'; '.join(who)}")
