/* The calls of curses_scenes.c as a script for `ticurses play`, which the program writes to OUTPUT. */

static FILE *script;

static void begin(void) {}
static void finish(void) {}
static void make_window(int w, int l, int c, int y, int x) {
    fprintf(script, "newwin %d %d %d %d %d\n", w, l, c, y, x);
}
static void make_pad(int w, int l, int c) {
    fprintf(script, "newpad %d %d %d\n", w, l, c);
}
static void move_window(int w, int y, int x) {
    fprintf(script, "mvwin %d %d %d\n", w, y, x);
}
static void draw_box(int w) {
    fprintf(script, "box %d - -\n", w);
}
static void go(int w, int y, int x) {
    fprintf(script, "move %d %d %d\n", w, y, x);
}
static void put(int w, int byte) {
    fprintf(script, "addch %d %02x\n", w, (unsigned)byte);
}
static void put_by_line(int w, int byte) {
    put(w, byte);
}
static void text(int w, const char *bytes, int len) {
    fprintf(script, "addstr %d %.*s\n", w, len, bytes);
}
static void bold(int w, int is_on) {
    fprintf(script, "%s %d B\n", is_on ? "attron" : "attroff", w);
}
static void set_colors(int w, int pair) {
    fprintf(script, "color_set %d %d\n", w, pair);
}
static void make_pair(int pair, int fore, int back) {
    fprintf(script, "init_pair %d %d %d\n", pair, fore, back);
}
static void set_scroll(int w) {
    fprintf(script, "scrollok %d 1\nidlok %d 1\n", w, w);
}
static void scroll_up(int w) {
    fprintf(script, "scroll %d 1\n", w);
}
static void insert_line(int w) {
    fprintf(script, "insertln %d\n", w);
}
static void delete_line(int w) {
    fprintf(script, "deleteln %d\n", w);
}
static void copy(int w) {
    fprintf(script, "noutrefresh %d\n", w);
}
static void show(int w) {
    fprintf(script, "refresh %d\n", w);
}
static void show_all(void) {
    fprintf(script, "doupdate\n");
}
static void show_pad(int w, int y, int x) {
    fprintf(script, "prefresh %d %d %d 0 0 %d %d\n", w, y, x, rows - 1, cols - 1);
}
/* Does nothing: the windows of the script keep their content. */
static void keep_page(void) {}
static long position(void) {
    return ftell(script);
}
static void prepare(const char *entry, const char *output) {
    (void)entry;
    script = fopen(output, "w");
    if (!script) exit(3);
}
