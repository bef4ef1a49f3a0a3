#!/bin/sh
# A picture of lines NAME LOW HIGH: a bar from LOW to HIGH in each row, the first line at the top, or a dark point where the two are one number. With
# `ranks` bars are of whole numbers, a half longer at both ends, and dark where the two are one. Debian package: gnuplot-nox.
#   sh bars.sh TITLE [ranks] < lines > picture.svg
{
    echo "title = \"$1\"; pad = ${2:+0.4 +} 0"
    echo 'set ytics scale 0 ()'
    awk -v quote="'" '
        { name = $1; gsub(quote, "&&", name); tics = tics "set ytics add (" quote name quote " " (-NR) ")\n" }
        { bars = bars $2 " " $3 " " (-NR) " " ($2 == $3 ? 2841995 : 10339302) "\n" }
        END { printf "%s$bars << END\n%sEND\n", tics, bars }'
    cat <<'END_OF_SCRIPT'
stats $bars using 1 name "low" nooutput
stats $bars using 2 name "high" nooutput
set terminal svg noenhanced size 900, 26 * low_records + 110 font "sans-serif,13" background "white"
set title title
set xrange [pad > 0 ? 0.5 : floor(low_min * 10) / 10.0 : pad > 0 ? low_records + 0.5 : ceil(high_max * 10) / 10.0]
set yrange [-low_records - 0.6 : -0.4]
if (pad > 0) set xtics 1
set grid xtics linetype 1 linecolor "#dddddd"
set style fill solid 1.0 border linecolor "#2b5d8b"
unset key
plot $bars using ($1 / 2 + $2 / 2):3:($1 - pad):($2 + pad):($3 - 0.3):($3 + 0.3):4 with boxxyerror linecolor rgbcolor variable, \
    $bars using ($1 == $2 && pad == 0 ? $1 : NaN):3 with points pointtype 7 linecolor "#2b5d8b"
END_OF_SCRIPT
} | gnuplot
