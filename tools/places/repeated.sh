find crates -path '*/proofs/*/*/Answers.antt' -not -path '*/out/*' -exec cat {} + | sed -E 's/^ +//' |
  awk 'length > 30 && !/^(use|--|pub )/ { n[$0]++ } END { for (t in n) if (n[t] > 1) { texts++; lines += n[t] }; print texts, "texts", lines, "lines" }'
