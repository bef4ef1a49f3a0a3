# How many pairs of each table that a session printed are open or close: lines NUMBER PAIRS, the first of number 0. Ask for a table at first and after each change:
#   awk 'BEGIN {print "table"} /^(judge|undo|redo) / {print; print "table"}' lines | desk session --qrels qrels --measure P_5 *.run | awk -f left.awk
$1 == "measure" && tables++ { print tables - 2, left + 0; left = 0 }
$1 == "pair" { left += $3 == "open" || $3 == "close" }
END { print tables - 1, left + 0 }
