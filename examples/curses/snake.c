/* snake: a game for any curses. Arrows steer, p stops it for a while, q ends it.
 *
 *     cc snake.c $(pkg-config --cflags --libs ticurses-curses) -o snake */
#include <curses.h>

#include <stdlib.h>
#include <time.h>

enum { LONGEST = 1000, PAUSE = 120, BODY = 1, FOOD, FRAME };

struct place {
    int y, x;
};

struct game {
    WINDOW *field;
    int lines, columns;
    /* the head is the last of `length` places, which begin at `tail` and go round */
    struct place body[LONGEST], food, step;
    int tail, length, score;
    bool is_over;
};

static struct place *part(struct game *game, int at) {
    return &game->body[(game->tail + at) % LONGEST];
}

static bool is_body(struct game *game, int y, int x) {
    for (int at = 0; at < game->length; at++)
        if (part(game, at)->y == y && part(game, at)->x == x) return true;
    return false;
}

static void draw(WINDOW *window, struct place at, chtype ch, int pair) {
    wattron(window, (int)COLOR_PAIR(pair));
    mvwaddch(window, at.y, at.x, ch);
    wattroff(window, (int)COLOR_PAIR(pair));
}

static void place_food(struct game *game) {
    do {
        game->food.y = 1 + rand() % (game->lines - 2);
        game->food.x = 1 + rand() % (game->columns - 2);
    } while (is_body(game, game->food.y, game->food.x));
    draw(game->field, game->food, ACS_DIAMOND, FOOD);
}

static void show_score(const struct game *game) {
    mvprintw(0, 2, " snake: %d points, %s ", game->score, game->is_over ? "over" : "q to quit");
    clrtoeol();
    wnoutrefresh(stdscr);
}

static void begin(struct game *game) {
    getmaxyx(stdscr, game->lines, game->columns);
    game->lines--;
    game->field = newwin(game->lines, game->columns, 1, 0);
    if (has_colors()) {
        start_color();
        init_pair(BODY, COLOR_GREEN, COLOR_BLACK);
        init_pair(FOOD, COLOR_RED, COLOR_BLACK);
        init_pair(FRAME, COLOR_CYAN, COLOR_BLACK);
    }
    wattron(game->field, (int)COLOR_PAIR(FRAME));
    box(game->field, 0, 0);
    wattroff(game->field, (int)COLOR_PAIR(FRAME));
    keypad(game->field, TRUE);
    game->step.x = 1;
    game->length = 4;
    for (int at = 0; at < game->length; at++) {
        part(game, at)->y = game->lines / 2;
        part(game, at)->x = game->columns / 4 + at;
        draw(game->field, *part(game, at), 'o' | A_BOLD, BODY);
    }
    place_food(game);
}

static void advance(struct game *game) {
    struct place head = *part(game, game->length - 1);
    head.y += game->step.y;
    head.x += game->step.x;
    game->is_over = head.y < 1 || head.x < 1 || head.y >= game->lines - 1 || head.x >= game->columns - 1 ||
                    is_body(game, head.y, head.x);
    if (game->is_over) {
        flash();
        return;
    }
    *part(game, game->length) = head;
    draw(game->field, head, 'o' | A_BOLD, BODY);
    if (head.y == game->food.y && head.x == game->food.x && game->length < LONGEST - 1) {
        game->length++;
        game->score += 10;
        beep();
        place_food(game);
    } else {
        draw(game->field, *part(game, 0), ' ', 0);
        game->tail = (game->tail + 1) % LONGEST;
    }
}

/* Turns the snake, but not back. Returns whether the game continues. */
static bool steer(struct game *game, int key) {
    struct place turn = game->step;
    if (key == 'p') {
        wtimeout(game->field, -1);
        wgetch(game->field);
    }
    if (key == KEY_UP || key == KEY_DOWN) turn.y = key == KEY_UP ? -1 : 1, turn.x = 0;
    if (key == KEY_LEFT || key == KEY_RIGHT) turn.x = key == KEY_LEFT ? -1 : 1, turn.y = 0;
    if (turn.y != -game->step.y || turn.x != -game->step.x) game->step = turn;
    wtimeout(game->field, PAUSE);
    return key != 'q' && key != KEY_RESIZE;
}

int main(void) {
    static struct game game;
    initscr();
    cbreak();
    noecho();
    curs_set(0);
    srand((unsigned)time(NULL));
    begin(&game);
    wtimeout(game.field, PAUSE);
    while (!game.is_over) {
        show_score(&game);
        wnoutrefresh(game.field);
        doupdate();
        if (!steer(&game, wgetch(game.field))) break;
        advance(&game);
    }
    endwin();
    printf("%d points\n", game.score);
    return 0;
}
