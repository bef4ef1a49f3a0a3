# The verdicts of a table as a square, the run of the line first: + above, - below, = equal, ~ close, . open. The runs with most below them come first, so
# that what is settled fills the two corners.
#   desk table --qrels qrels --measure P_5 *.run | awk -f verdicts.awk
BEGIN { split("above + below - equal = close ~ open .", words); for (i = 1; i in words; i += 2) sign[words[i]] = words[i + 1]; turned["+"] = "-"; turned["-"] = "+" }
$1 == "run" { names[++runs] = $2; if (length($2) > wide) wide = length($2) }
$1 == "pair" {
    said[$2, $4] = sign[$3]
    said[$4, $2] = sign[$3] in turned ? turned[sign[$3]] : sign[$3]
    if ($3 == "above") { lead[$2]++; lead[$4]-- }
    if ($3 == "below") { lead[$2]--; lead[$4]++ }
}
END {
    for (i = 2; i <= runs; i++) for (j = i; j > 1 && lead[names[j - 1]] < lead[names[j]]; j--) { moved = names[j]; names[j] = names[j - 1]; names[j - 1] = moved }
    for (i = 1; i <= runs; i++) {
        line = sprintf("%-" wide "s ", names[i])
        for (j = 1; j <= runs; j++) line = line " " (i == j ? " " : said[names[i], names[j]])
        sub(/ +$/, "", line)
        print line
    }
}
