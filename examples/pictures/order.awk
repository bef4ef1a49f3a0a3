# A picture of the order of systems: a row for each tier, and an arrow from each system to those that it covers, with the topics that it wins
# and loses against them. Debian package: graphviz.
#   desk tiers --qrels qrels --measure P_5 *.run | awk -f order.awk | dot -Tsvg > order.svg
function quoted(text) {
    gsub(/\\/, "&&", text)
    gsub(/"/, "\\\\&", text)
    gsub(/&/, "\\&amp;", text)
    return "\"" text "\""
}
# Counts the runs below a run: those that it covers, and all below them.
function count_below(run, reached,    i, count) {
    for (i = 1; i <= covers[run]; i++) {
        if (!((run, i) in covered) || (covered[run, i] in reached)) continue
        reached[covered[run, i]]
        count += 1 + count_below(covered[run, i], reached)
    }
    return count
}
$1 == "measure" || $1 == "level" || $1 == "depth" || $1 == "topics" { head = head (head == "" ? "" : ", ") ($1 == "measure" ? $2 : $1 " " $2) }
$1 == "tiers" { tiers = $2 }
$1 == "system" { names[++runs] = $2; row[$3] = row[$3] " " quoted($2) ";" }
$1 == "cover" {
    covered[$2, ++covers[$2]] = $3
    arrows = arrows "  " quoted($2) " -> " quoted($3) " [label=\" " $4 ":" $5 "\"];\n"
}
END {
    for (i = 1; i <= runs; i++) { split("", reached); settled += count_below(names[i], reached) }
    print "digraph order {"
    print "  graph [fontname=\"sans-serif\", fontsize=12, nodesep=0.25, ranksep=0.5, labelloc=t, label=\"" head ": " settled + 0 " of " runs * (runs - 1) / 2 \
          " orders hold however the judging ends\\nA system is above all that its arrows lead to (topics won:lost)\\n \"];"
    print "  node [shape=box, style=\"rounded,filled\", fillcolor=\"#d7e6f5\", color=\"#2b5d8b\", fontname=\"sans-serif\", fontsize=13, height=0.35];"
    print "  edge [color=\"#2b5d8b\", fontname=\"sans-serif\", fontsize=11];"
    for (i = 1; i <= tiers; i++) {
        print "  { rank=same; \"tier " i "\" [shape=plaintext, style=\"\"];" row[i] " }"
        if (i > 1) print "  \"tier " i - 1 "\" -> \"tier " i "\" [style=invis];"
    }
    printf "%s}\n", arrows
}
