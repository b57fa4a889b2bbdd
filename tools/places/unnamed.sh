for f in crates/*/proofs/*.antt; do
  c=$(echo "$f" | cut -d/ -f2) n=$(basename "$f" .antt)
  [ "$n" = Lib ] || grep -rqE "(Rattle\.$c\.proofs\.$n\.)|(\b$c::proofs::$n::)" crates/*/proofs crates/*/specs crates/*/src ||
    grep -qE "crate::proofs::$n::" crates/$c/src/*.rt || echo "$f"
done
