# The best and the worst rank of each system, a line NAME BEST WORST, the best first: 1 more than how many others are above it in every completion, and
# 1 more than how many may be above it in some.
#   desk table --qrels qrels --measure P_5 *.run | awk -f ranks.awk
$1 == "run" { names[++runs] = $2 }
$1 == "pair" {
    certain[$3 == "above" ? $4 : $2] += $3 == "above" || $3 == "below"
    if ($5 ~ /^-/) possible[$2]++
    if ($6 !~ /^-|^0\.0*$/) possible[$4]++
}
END { for (i = 1; i <= runs; i++) print names[i], 1 + certain[names[i]], 1 + possible[names[i]] | "sort -k2,2n -k3,3n -k1,1" }
