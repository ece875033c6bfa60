# A script of curses calls for a screen of rows by cols, the same in each run.
# awk -v kind=KIND -v rows=24 -v cols=80 -f scripts.awk, where KIND is a scene of refresh.sh, which measures the calls
# after the line `# from here`, or
#   calls      100,000 calls in nine windows: short texts, moves, cells deleted, 2,000 refreshes
#   texts      42,000 calls: texts of 20 to 30 characters all over the screen, 2,000 refreshes
# or, each with 2,000 refreshes after the screen was filled,
#   cells      one cell somewhere
#   typing     one character after the last one
#   log        a line at the bottom, after a scroll by one line
function next_number(below) {
    state = (state * 16807) % 2147483647
    return state % below
}
function words(count, text) {
    text = ""
    while (length(text) < count)
        text = text word[next_number(12)] " "
    return substr(text, 1, count)
}
function move(w, row, col) {
    print "move " w " " row " " col
}
function text_at(w, row, col, text) {
    move(w, row, col)
    print "addstr " w " " text
}
# the window full of text, but the first and the last `margin` rows and columns
function fill(w, height, width, margin, row) {
    for (row = margin; row < height - margin; row++)
        text_at(w, row, margin, words(width - 2 * margin - (w == 0 && row == rows - 1)))
}
# a screen of text that the terminal shows, with the cursor at the place, without the last cell of the last row, which
# ncurses can't write on a terminal like `vt`
function shown_text(row, col) {
    fill(0, rows, cols, 0)
    move(0, row, col)
    print "refresh 0\n# from here"
}
function full() {
    print "# from here"
    fill(0, rows, cols, 0)
    print "refresh 0"
}
function blank() {
    print "# from here"
    text_at(0, 1, 4, "ticurses")
    text_at(0, 3, 4, "Press any key to go on.")
    text_at(0, rows - 1, 0, "ready")
    print "refresh 0"
}
function cell() {
    shown_text(2, 3)
    move(0, middle_row, middle_col)
    print "addch 0 58\nrefresh 0"
}
function one_word() {
    shown_text(2, 3)
    text_at(0, middle_row, middle_col, "certain")
    print "refresh 0"
}
# right, down, left, up, to the start of the line, of the next one, far away, home
function cursor(n, steps, place) {
    shown_text(2, 3)
    n = split("2,4 3,4 3,3 2,3 2,0 3,0 " middle_row "," middle_col " 0,0", steps, " ")
    for (step = 1; step <= n; step++) {
        split(steps[step], place, ",")
        move(0, place[1], place[2])
        print "refresh 0"
    }
}
# forty characters, a refresh after each
function typed(line, i) {
    for (i = 0; i < middle_row; i++)
        text_at(0, i, 0, words(cols - 10))
    move(0, middle_row, 0)
    print "refresh 0\n# from here"
    line = words(40)
    for (i = 1; i <= 40; i++)
        print "addstr 0 " substr(line, i, 1) "\nrefresh 0"
}
function boxed() {
    print "refresh 0\n# from here"
    print "newwin 1 " middle_row " " middle_col " 4 8"
    print "box 1 - -\nrefresh 1"
}
function status() {
    shown_text(2, 3)
    move(0, rows - 1, 0)
    print "attrset 0 R\naddstr 0 " words(cols - 1)
    print "attrset 0 -\nrefresh 0"
}
# eight by eight cells of four characters, a foreground in each column and a background in each row
function colours(pair) {
    for (pair = 1; pair < 64; pair++)
        print "init_pair " pair " " pair % 8 " " int(pair / 8)
    print "refresh 0\n# from here"
    for (pair = 0; pair < 64; pair++) {
        print "color_set 0 " pair
        text_at(0, 4 + int(pair / 8), 8 + 4 * (pair % 8), " " pair % 8 int(pair / 8) " ")
    }
    print "refresh 0"
}
function scrolled() {
    print "scrollok 0 1\nidlok 0 1"
    fill(0, rows, cols, 0)
    print "refresh 0\n# from here\nscroll 0 1"
    text_at(0, rows - 1, 0, words(cols - 1))
    print "refresh 0"
}
# the lines but for two at the top and three at the bottom
function region() {
    print "scrollok 0 1\nidlok 0 1\nsetscrreg 0 2 " rows - 4
    fill(0, rows, cols, 0)
    print "refresh 0\n# from here\nscroll 0 1"
    text_at(0, rows - 4, 0, words(cols - 1))
    print "refresh 0"
}
# as wide as the screen and twice as high
function pad() {
    print "newpad 1 " 2 * rows " " cols
    fill(1, 2 * rows, cols, 0)
    print "prefresh 1 0 0 0 0 " rows - 1 " " cols - 1
    print "# from here\nprefresh 1 1 0 0 0 " rows - 1 " " cols - 1
}
# fifty lines at the bottom, a refresh after each
function lines(count) {
    print "scrollok 0 1\nidlok 0 1"
    fill(0, rows, cols, 0)
    print "refresh 0\n# from here"
    for (count = 0; count < 50; count++) {
        print "addch 0 0a"
        print "addstr 0 " words(20 + next_number(cols - 20))
        print "refresh 0"
    }
}
# the window moves over the text by one row and two columns
function moved() {
    fill(0, rows, cols, 0)
    print "newwin 1 9 32 4 8\nbox 1 - -"
    fill(1, 9, 32, 1)
    print "noutrefresh 0\nnoutrefresh 1\ndoupdate\n# from here"
    print "mvwin 1 5 10\ntouchwin 0\nnoutrefresh 0\nnoutrefresh 1\ndoupdate"
}
function nothing() {
    shown_text(2, 3)
    print "touchwin 0\nrefresh 0"
}
# the rows from `top` up to, but not including, `end`: the lines of a text from the line `first` on
function page(top, end, first, row) {
    for (row = top; row < end; row++)
        text_at(0, row, 0, text_line[first + row - top])
}
# a page of a text between rows that say where it is: it moves by so many lines
function paged(above, below, by, row) {
    for (row = 0; row < 3 * rows; row++)
        text_line[row] = words(cols - 1)
    if (above) text_at(0, 0, 0, "-- a title: line " 100 + rows)
    page(above, rows - below, rows)
    if (below) text_at(0, rows - 1, 0, "-- line " 100 + rows)
    print "refresh 0\n# from here"
    if (above) text_at(0, 0, 0, "-- a title: line " 100 + rows + by)
    page(above, rows - below, rows + by)
    if (below) text_at(0, rows - 1, 0, "-- line " 100 + rows + by)
    print "refresh 0"
}
# two panes of half the rows, one above the other, each of which scrolls by a line
function panes(w) {
    for (w = 1; w <= 2; w++) {
        print "newwin " w " " middle_row " " cols " " (w - 1) * middle_row " 0\nscrollok " w " 1\nidlok " w " 1"
        fill(w, middle_row, cols - 1, 0)
        print "noutrefresh " w
    }
    print "doupdate\n# from here"
    for (w = 1; w <= 2; w++) {
        print "scroll " w " 1"
        text_at(w, middle_row - 1, 0, words(cols - 20))
        print "noutrefresh " w
    }
    print "doupdate"
}
# two panes that are drawn anew: the upper one goes on by a line, the lower one goes back
function split_page(row) {
    for (row = 0; row < 3 * rows; row++)
        text_line[row] = words(cols - 1)
    page(0, middle_row, rows)
    page(middle_row, rows, 2 * rows)
    print "refresh 0\n# from here"
    page(0, middle_row, rows + 1)
    page(middle_row, rows, 2 * rows - 1)
    print "refresh 0"
}
# a line comes into the middle, and another one below it changes
function inserted() {
    shown_text(2, 3)
    move(0, int(rows / 3), 0)
    print "insertln 0\naddstr 0 " words(cols - 1)
    text_at(0, 2 * int(rows / 3), 0, words(cols - 1))
    print "refresh 0"
}
# fifty calls in one of nine windows of 8 by 26, at most 524 bytes
function frame(w, count) {
    for (count = 0; count < 6; count++) {
        text_at(w, next_number(8), next_number(10), words(4))
        move(w, next_number(8), next_number(10))
        print "addch " w " " 61 + next_number(9) "\naddch " w " " 61 + next_number(9)
    }
    move(w, next_number(8), next_number(10))
    for (count = 0; count < 15; count++)
        print "delch " w
    count = next_number(4)
    print "attrset " w " " (count == 0 ? "R" : "B")
    print count == 0 ? "erase " w : count == 1 ? "box " w " - -" : count == 2 ? "clrtoeol " w : "scroll " w " 1"
    print "attrset " w " -\nrefresh " w
}
function many_calls(w, count) {
    for (w = 1; w <= 9; w++) {
        print "newwin " w " 8 26 " 8 * int((w - 1) / 3) " " 26 * ((w - 1) % 3)
        print "scrollok " w " 1"
    }
    for (count = 0; count < 2000; count++)
        frame(1 + next_number(9))
}
function many_texts(count, line) {
    for (count = 0; count < 2000; count++) {
        for (line = 0; line < 10; line++)
            text_at(0, next_number(rows), next_number(cols - 30), words(20 + next_number(11)))
        print "refresh 0"
    }
}
function many(what, at, count) {
    print "scrollok 0 1\nidlok 0 1"
    fill(0, rows, cols, 0)
    print "refresh 0"
    for (count = 0; count < 2000; count++) {
        if (what == "log") {
            print "scroll 0 1"
            text_at(0, rows - 1, 0, words(cols - 1 - next_number(int(cols / 2))))
        } else {
            at = what == "typing" ? count % (rows * (cols - 1)) : next_number(rows * (cols - 1))
            move(0, int(at / (cols - 1)), at % (cols - 1))
            printf "addch 0 %02x\n", 97 + count % 26
        }
        print "refresh 0"
    }
}
BEGIN {
    state = 4711
    split("ls total make cc1 warning error Makefile src/lib.c 4096 root drwxr-xr-x README", list, " ")
    for (i in list)
        word[i - 1] = list[i]
    middle_row = int(rows / 2)
    middle_col = int(cols / 2)
    if (kind == "full") full()
    else if (kind == "blank") blank()
    else if (kind == "cell") cell()
    else if (kind == "word") one_word()
    else if (kind == "cursor") cursor()
    else if (kind == "typed") typed()
    else if (kind == "box") boxed()
    else if (kind == "status") status()
    else if (kind == "colours") colours()
    else if (kind == "scroll") scrolled()
    else if (kind == "region") region()
    else if (kind == "pad") pad()
    else if (kind == "lines") lines()
    else if (kind == "window") moved()
    else if (kind == "nothing") nothing()
    else if (kind == "on") paged(0, 1, 1)
    else if (kind == "back") paged(0, 1, -1)
    else if (kind == "title") paged(1, 0, 1)
    else if (kind == "both") paged(1, 1, -2)
    else if (kind == "half") paged(0, 1, middle_row)
    else if (kind == "panes") panes()
    else if (kind == "split") split_page()
    else if (kind == "insert") inserted()
    else if (kind == "calls") many_calls()
    else if (kind == "texts") many_texts()
    else if (kind == "cells" || kind == "typing" || kind == "log") many(kind)
    else exit 2
}
