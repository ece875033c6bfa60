# A stream for a terminal of rows by cols, the same in each run; the last of its bytes are spaces.
# awk -v kind=KIND -v rows=24 -v cols=80 -v bytes=1048576 -f stream.awk, where KIND is
#   mixed      text, moves, colors, erasures and scrolling
#   text       lines of plain text
#   scrolling  short lines of a log, most of the time on the last row
#   painting   a move and some cells, all over the screen
#   sequences  control sequences with many parameters, long and private ones, and hardly any text
#   colours    cells each in another color
function next_number(below) {
    state = (state * 16807) % 2147483647
    return state % below
}
function words(count, text) {
    text = ""
    while (length(text) < count)
        text = text word[next_number(12)] " "
    return substr(text, 1, count)
}
function send(text) {
    if (sent + length(text) > bytes)
        text = ""
    sent += length(text)
    printf "%s", text
    return text != ""
}
function place() {
    return csi (1 + next_number(rows)) ";" (1 + next_number(cols)) "H"
}
function mixed(which) {
    which = next_number(16)
    if (which < 7)
        return words(20 + next_number(70)) "\r\n"
    if (which < 10)
        return place() words(4 + next_number(30))
    if (which < 13)
        return csi (30 + next_number(8)) ";" (40 + next_number(8)) "m" words(6 + next_number(20)) csi "m"
    if (which == 13)
        return csi "K" csi next_number(3) "K" csi (1 + next_number(9)) "A\t"
    if (which == 14)
        return csi (1 + next_number(10)) ";" (12 + next_number(12)) "r" csi "20H" words(30) "\n\n\n" escape "M" csi "r"
    if (next_number(20) == 0)
        return csi "H" csi "2J"
    return csi "1;7m" words(12) csi "0m" csi (1 + next_number(5)) "P" csi (1 + next_number(5)) "@"
}
function sequences(which) {
    which = next_number(6)
    if (which == 0)
        return csi "0;1;4;7;3" next_number(8) ";4" next_number(8) ";22;24;27;39;49;1;4;3" next_number(8) "m"
    if (which == 1)
        return csi "00000000000000000000" (1 + next_number(rows)) ";00000000000000000000" (1 + next_number(cols)) "H"
    if (which == 2)
        return csi "?25l" csi "?25h" csi "?7h"
    if (which == 3)
        return csi "1;4;7m" csi "22;24;27;3" next_number(8) ";4" next_number(8) "m"
    if (which == 4)
        return csi (1 + next_number(9)) "C" csi (1 + next_number(9)) "D" csi (1 + next_number(9)) "B"
    return place() "x"
}
function chunk() {
    if (kind == "text")
        return words(20 + next_number(cols - 20)) "\r\n"
    if (kind == "scrolling")
        return words(5 + next_number(25)) "\r\n"
    if (kind == "painting")
        return place() words(1 + next_number(12))
    if (kind == "sequences")
        return sequences()
    if (kind == "colours")
        return csi "3" next_number(8) ";4" next_number(8) "m" substr("terminal", 1 + next_number(8), 1)
    return mixed()
}
BEGIN {
    state = 4711
    split("ls total make cc1 warning error Makefile src/lib.c 4096 root drwxr-xr-x README", list, " ")
    for (i in list)
        word[i - 1] = list[i]
    escape = sprintf("%c", 27)
    csi = escape "["
    while (send(chunk()))
        ;
    printf "%*s", bytes - sent, ""
}
