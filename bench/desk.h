/* Windows, pads and logs for libraries that have one screen of cells and nothing above it: the program keeps
 * the characters of each, and draws a window by writing its rows over the screen. The peer's file includes
 * this one, and defines paint_text, paint_border, paint_cursor and paint_done. Window 0 is the library's
 * screen itself, without a copy here, until a scene that draws the page again or moves it calls keep_page.
 * A border is a letter of the line drawing set, with a bit that no other character has. */
enum { BORDER = 0x80 };

static void paint_text(int row, int col, const char *bytes, int len);
static void paint_border(int row, int col, int letter);
static void paint_cursor(int row, int col);
static void paint_done(void);

static struct desk {
    int height, width, top, left, row, col;
    unsigned char *cells;
} desks[8];
static int is_page_kept, shown_last;

static void make_window(int w, int l, int c, int y, int x) {
    size_t count = (size_t)l * (size_t)c;
    desks[w] = (struct desk){.height = l, .width = c, .top = y, .left = x, .cells = malloc(count)};
    if (!desks[w].cells) exit(3);
    memset(desks[w].cells, ' ', count);
}

static void make_pad(int w, int l, int c) {
    make_window(w, l, c, 0, 0);
}

static void keep_page(void) {
    is_page_kept = 1;
    make_window(0, rows, cols, 0, 0);
}

static unsigned char *row_of(const struct desk *desk, int row) {
    return desk->cells + row * desk->width;
}

static void draw_edge(unsigned char *cells, int width, int left, int right) {
    memset(cells, 'q' | BORDER, (size_t)width);
    cells[0] = (unsigned char)(left | BORDER);
    cells[width - 1] = (unsigned char)(right | BORDER);
}

static void draw_box(int w) {
    struct desk *desk = &desks[w];
    draw_edge(row_of(desk, 0), desk->width, 'l', 'k');
    for (int row = 1; row < desk->height - 1; row++) {
        unsigned char *cells = row_of(desk, row);
        cells[0] = cells[desk->width - 1] = 'x' | BORDER;
    }
    draw_edge(row_of(desk, desk->height - 1), desk->width, 'm', 'j');
}

static void move_window(int w, int y, int x) {
    desks[w].top = y;
    desks[w].left = x;
}

static void go(int w, int y, int x) {
    desks[w].row = y;
    desks[w].col = x;
}

static void text(int w, const char *bytes, int len) {
    struct desk *desk = &desks[w];
    if (w == 0 && !is_page_kept) {
        paint_text(desk->row, desk->col, bytes, len);
    } else {
        memcpy(row_of(desk, desk->row) + desk->col, bytes, (size_t)len);
    }
    desk->col += len;
}

static void put(int w, int byte) {
    char one = (char)byte;
    text(w, &one, 1);
}

static void put_by_line(int w, int byte) {
    put(w, byte);
}

/* Paints cells of a row: runs of characters, and each border cell. */
static void paint_cells(const unsigned char *cells, int row, int col, int count) {
    int at = 0;
    while (at < count) {
        int from = at;
        if (cells[at] & BORDER) {
            paint_border(row, col + at, cells[at] & ~BORDER);
            at++;
            continue;
        }
        while (at < count && !(cells[at] & BORDER)) at++;
        paint_text(row, col + from, (const char *)cells + from, at - from);
    }
}

static void copy(int w) {
    struct desk *desk = &desks[w];
    for (int row = 0; row < desk->height; row++) {
        int is_corner = w == 0 && row == rows - 1;
        paint_cells(row_of(desk, row), desk->top + row, desk->left, desk->width - is_corner);
    }
    shown_last = w;
}

static void set_scroll(int w) {
    (void)w;
}

static void scroll_up(int w) {
    struct desk *desk = &desks[w];
    memmove(desk->cells, row_of(desk, 1), (size_t)((desk->height - 1) * desk->width));
    memset(row_of(desk, desk->height - 1), ' ', (size_t)desk->width);
}

/* Moves the rows from the cursor's row on down by one, and the rows below it up by one. */
static void insert_line(int w) {
    struct desk *desk = &desks[w];
    unsigned char *row = row_of(desk, desk->row);
    memmove(row + desk->width, row, (size_t)((desk->height - 1 - desk->row) * desk->width));
    memset(row, ' ', (size_t)desk->width);
}

static void delete_line(int w) {
    struct desk *desk = &desks[w];
    unsigned char *row = row_of(desk, desk->row);
    memmove(row, row + desk->width, (size_t)((desk->height - 1 - desk->row) * desk->width));
    memset(row_of(desk, desk->height - 1), ' ', (size_t)desk->width);
}

static void show_all(void) {
    struct desk *desk = &desks[shown_last];
    paint_cursor(desk->top + desk->row, desk->left + desk->col);
    paint_done();
}

static void show(int w) {
    if (w == 0 && is_page_kept) copy(w);
    shown_last = w;
    show_all();
}

static void show_pad(int w, int y, int x) {
    for (int row = 0; row < rows; row++) paint_cells(row_of(&desks[w], y + row) + x, row, 0, cols);
    paint_done();
}
