import collections, glob, re
same = collections.defaultdict(list)
for path in sorted(glob.glob("crates/*/proofs/*.antt")):
    text = re.sub(r"--.*", "", open(path).read())
    for m in re.finditer(r"^( *)(?:pub )?([\w'→≡<&+*-]+) : (.*(?:\n\1    +.*)*)\n(?: *unfolding .*\n)?\1\2\b", text, re.M):
        names, shape = {}, []
        for w in re.findall(r"[^\W\d][\w'.₀-₉-]*|\d+|\S", m[3]):
            shape.append(names.setdefault(w, f"n{len(names)}") if len(w) == 1 and w.isalpha() and w != "λ" else w)
        key = " ".join(shape)
        same[key].append(f"{path[7:]}:{text[:m.start()].count(chr(10)) + 1} {m[2]}")
for key, who in sorted(same.items(), key=lambda s: s[1]):
    if len(who) > 1:
        print(f"{'; '.join(who)}: {key[:200]}")
print(len(same))
