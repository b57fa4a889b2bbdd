for c in $(sed -n 's/^\([a-z_]*\)[: ].*/\1/p' crates.txt); do
  a=$(find crates/$c/proofs -mindepth 3 -name Answers.antt 2>/dev/null | sort)
  i=$(find crates/$c/proofs -mindepth 3 -name Invariants.antt 2>/dev/null | sort)
  l=$(find crates/$c/proofs -maxdepth 1 -name '*.antt' ! -name Lib.antt 2>/dev/null)
  echo "$c" $(echo $a | wc -w) $(cat /dev/null $a | wc -l) $(cat /dev/null $a | grep -cE '^pub [^ ]+ : goal\.') $(echo $i | wc -w) $(cat /dev/null $i | wc -l) $(echo $l | wc -w) $(cat /dev/null $l | wc -l)
done | awk '{ print; for (k = 2; k <= 8; k++) s[k] += $k } END { print "all", s[2], s[3], s[4], s[5], s[6], s[7], s[8] }'
