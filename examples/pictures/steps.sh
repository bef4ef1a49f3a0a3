#!/bin/sh
# A picture of lines NUMBER COUNT, as left.awk prints them: a step for each change. Debian package: gnuplot-nox.
#   sh steps.sh TITLE < lines > picture.svg
{
    echo "title = \"$1\""
    echo '$steps << END'
    cat
    cat <<'END_OF_SCRIPT'
END
set terminal svg noenhanced size 900, 420 font "sans-serif,13" background "white"
set title title
set xlabel "judgements, corrections and undoings so far"
set yrange [0:*]
set autoscale xfix
set grid linetype 1 linecolor "#dddddd"
set style fill solid 1.0
unset key
plot $steps using 1:2 with fillsteps linecolor "#9dc3e6", $steps using 1:2 with steps linewidth 2 linecolor "#2b5d8b"
END_OF_SCRIPT
} | gnuplot
