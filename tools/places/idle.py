import glob, re
WORD = re.compile(r"[^\s(){},.;:∷×∙⊎↔→+*^/%|]+")
defs, todo, parts = {}, [], {}
for path in glob.glob("crates/*/proofs/*.antt"):
    crate, stem = path.split("/")[1], path.split("/")[3][:-5]
    if stem == "Lib":
        continue
    text = re.sub(r"--.*", "", open(path).read())
    uses = {}
    for c, f, names in re.findall(r"^use Rattle\.(\w+)\.proofs\.([\w.]+)\.\{([^}]*)\}", text, re.M):
        uses.update({n.strip(): (c, f.split(".")[0], f.split(".")[-1] if "." in f else n.strip()) for n in names.split(",")})
    at, inside = None, None
    for number, line in enumerate(text.split("\n"), 1):
        m = re.match(r"( *)(?:pub )?(?:abbrev |unfoldable )?(?:pub )?()([\w'→≡-]+) :(?: |$)|( *)(?:pub )?(record |data )(\w+)", line)
        m = m and [m[0], m[1] or m[4] or "", m[5] or "", m[3] or m[6]]
        if m and m[3] not in ("→", "let") and not (inside and len(m[1]) > inside[0]):
            at = (crate, stem, m[3])
            inside = (len(m[1]), m[2]) if m[2] in ("record ", "data ") else None
            defs.setdefault(at, (path, number))
        elif inside and line.strip() and len(line) - len(line.lstrip()) <= inside[0]:
            inside = None
        if at and not line.startswith("use "):
            parts.setdefault(at, []).append(line)
    for key in [k for k in parts if k[:2] == (crate, stem)]:
        words = set(WORD.findall("\n".join(parts[key])))
        parts[key] = {(crate, stem, w) for w in words} | {uses[w] for w in words if w in uses}
for path in glob.glob("crates/*/proofs/*/**/*.antt", recursive=True) + glob.glob("crates/*/specs/*.antt"):
    for c, f, names in re.findall(r"^use Rattle\.(\w+)\.proofs\.([\w.]+)\.\{([^}]*)\}", open(path).read(), re.M):
        todo += [(c, f.split(".")[0], n.strip()) for n in names.split(",")] + [(c, f.split(".")[0], f.split(".")[-1])]
for path in glob.glob("crates/*/src/*.rt"):
    crate = path.split("/")[1]
    todo += [(crate if c == "crate" else c, f, n) for c, f, n in re.findall(r"(\w+)::proofs::(\w+)::(\w+)", open(path).read())]
pages = set(re.findall(r"`([\w.]+)`", "".join(open(p).read() for p in ["README.md"] + sorted(set(glob.glob("docs/*.md")) - {"docs/DESIGN-PASS.md"}))))
todo += [k for k in defs if k[2] in pages or k[1] in ("Example", "Wide")]
seen = set()
while todo:
    key = todo.pop()
    if key in defs and key not in seen:
        seen.add(key)
        todo += parts[key]
idle = sorted(set(defs) - seen, key=lambda k: (defs[k][0], defs[k][1]))
for key in idle:
    print(f"{defs[key][0]}:{defs[key][1]} {key[2]}")
print(len(idle), "of", len(defs))
