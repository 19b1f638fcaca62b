#!/usr/bin/env bash
# measure/comparison/curve.sh <NUMBERS >PICTURE.svg: draws what `measure/comparison/threads.sh curve` printed: how many times as fast as in sequence
# four systems of one stage run, over the microseconds that each takes there, from 1 to 1,000.
set -euo pipefail
LC_ALL=C awk '
function x(work) { return 60 + 160 * log(work) / log(10) }
function y(speed) { return 290 - 62 * speed }
function line(x1, y1, x2, y2, class) { printf "<line x1=\"%.1f\" y1=\"%.1f\" x2=\"%.1f\" y2=\"%.1f\" class=\"%s\"/>\n", x1, y1, x2, y2, class }
function text(left, top, anchor, words) { printf "<text x=\"%.1f\" y=\"%.1f\" text-anchor=\"%s\">%s</text>\n", left, top, anchor, words }

# the points of the way whose microseconds stand in this column
function curve(column, class, place,  i) {
    printf "<polyline class=\"%s\" points=\"", class
    for (i = 1; i <= points; i++) printf "%.1f,%.1f ", x(work[i]), y(speed[column, i])
    print "\"/>"
    line(75, 30 + 18 * place, 105, 30 + 18 * place, class)
}

$2 / 4 >= 1 && $2 / 4 <= 1000 {
    work[++points] = $2 / 4
    for (column = 3; column <= 5; column++) speed[column, points] = $2 / $column
}

END {
    print "<svg xmlns=\"http://www.w3.org/2000/svg\" viewBox=\"0 0 570 335\" font-family=\"sans-serif\" font-size=\"12\">"
    print "<style>line, polyline { fill: none; stroke-width: 2 } .rule { stroke: #ddd; stroke-width: 1 } .even { stroke: #888; stroke-width: 1 }"
    print ".par { stroke: #b58900 } .kept { stroke: #268bd2 } .original { stroke: #dc322f }</style>"
    print "<rect width=\"570\" height=\"335\" fill=\"white\"/>"
    for (mark = 1; mark <= 1000; mark *= 10) {
        line(x(mark), y(0), x(mark), y(4), "rule")
        text(x(mark), 307, "middle", mark)
    }
    for (mark = 0; mark <= 4; mark++) {
        line(x(1), y(mark), x(1000), y(mark), mark == 1 ? "even" : "rule")
        text(52, y(mark) + 4, "end", mark)
    }
    text(300, 327, "middle", "microseconds of work of a system, of four in a stage")
    curve(4, "kept", 1)
    curve(5, "original", 2)
    curve(3, "par", 3)
    text(110, 52, "start", "dispatch on kept workers")
    text(110, 70, "start", "the original")
    text(110, 88, "start", "dispatch, which starts threads")
    text(60, 20, "start", "times as fast as in sequence")
    print "</svg>"
}'
