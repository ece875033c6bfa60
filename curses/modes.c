/* The terminal's modes of the program and of the shell, and the calls that change them. */
#define _POSIX_C_SOURCE 200809L
#include "private.h"

#include <errno.h>
#include <stdlib.h>
#include <string.h>
#include <termios.h>
#include <unistd.h>

struct tcu_modes tcu_modes;

static struct termios program_modes, shell_modes, saved_modes;
static bool are_known, are_saved;

/* Sets modes once the terminal has received all output; a signal doesn't end the wait. */
static int set(const struct termios *like) {
    int result;
    if (!are_known) return ERR;
    do {
        result = tcsetattr(tcu.input, TCSADRAIN, like);
    } while (result != 0 && errno == EINTR);
    return result == 0 ? OK : ERR;
}

static void read_at_once(void) {
    program_modes.c_lflag &= ~(tcflag_t)ICANON;
    program_modes.c_cc[VMIN] = 1;
    program_modes.c_cc[VTIME] = 0;
}

static void read_lines(void) {
    program_modes.c_lflag |= ICANON;
    program_modes.c_cc[VMIN] = shell_modes.c_cc[VMIN];
    program_modes.c_cc[VTIME] = shell_modes.c_cc[VTIME];
}

/* The process that set the modes; a child of it leaves them. */
static pid_t owner;

/* At the end of a program that didn't call endwin, has the system alter output as before, so that the shell's lines
 * begin in the first column. All other modes stay, as in ncurses. A program in the background leaves all of them. */
static void alter_output(void) {
    struct termios now;
    if (!tcu.is_open || tcu.is_ended || !are_known || getpid() != owner) return;
    if (tcgetpgrp(tcu.input) != getpgrp() || tcgetattr(tcu.input, &now) != 0) return;
    now.c_oflag |= shell_modes.c_oflag & (tcflag_t)OPOST;
    tcsetattr(tcu.input, TCSANOW, &now);
}

/* Records the terminal's present modes as the shell's. In the program's modes the terminal passes output on unaltered,
 * returns keys as they are pressed, as the standard has it at the beginning, and doesn't echo. */
void modes_begin(void) {
    static bool ends_so;
    if (!ends_so) ends_so = atexit(alter_output) == 0;
    owner = getpid();
    memset(&tcu_modes, 0, sizeof tcu_modes);
    tcu_modes.echoes = tcu_modes.reads_newlines = true;
    memset(&shell_modes, 0, sizeof shell_modes);
    are_known = tcgetattr(tcu.input, &shell_modes) == 0;
    saved_modes = program_modes = shell_modes;
    program_modes.c_oflag &= ~(tcflag_t)OPOST;
    program_modes.c_lflag &= ~(tcflag_t)(ECHO | ECHONL);
    program_modes.c_iflag &= ~(tcflag_t)(ICRNL | INLCR | IGNCR);
    read_at_once();
    tcu_modes.is_cbreak = true;
    set(&program_modes);
}

bool modes_are_known(void) {
    return are_known;
}

int modes_program(void) {
    return set(&program_modes);
}

int modes_shell(void) {
    return set(&shell_modes);
}

/* Whether all eight bits of a typed byte count, as in the shell's modes. */
bool modes_keep_meta(void) {
    return !are_known || !(shell_modes.c_iflag & ISTRIP);
}

static int changed(void) {
    if (!tcu.is_open) return ERR;
    /* after endwin the next refresh sets them */
    return tcu.is_ended || !are_known ? OK : set(&program_modes);
}

int cbreak(void) {
    read_at_once();
    program_modes.c_lflag |= ISIG;
    tcu_modes.is_cbreak = true;
    tcu_modes.half_delay = 0;
    return changed();
}

int nocbreak(void) {
    read_lines();
    tcu_modes.is_cbreak = false;
    tcu_modes.half_delay = 0;
    return changed();
}

int raw(void) {
    read_at_once();
    program_modes.c_lflag &= ~(tcflag_t)(ISIG | IEXTEN);
    program_modes.c_iflag &= ~(tcflag_t)(IXON | BRKINT | PARMRK);
    tcu_modes.is_raw = tcu_modes.is_cbreak = true;
    return changed();
}

int noraw(void) {
    tcflag_t input = IXON | BRKINT | PARMRK;
    read_lines();
    program_modes.c_lflag |= shell_modes.c_lflag & (tcflag_t)(ISIG | IEXTEN);
    program_modes.c_iflag |= shell_modes.c_iflag & input;
    tcu_modes.is_raw = tcu_modes.is_cbreak = false;
    tcu_modes.half_delay = 0;
    return changed();
}

int halfdelay(int tenths) {
    if (tenths < 1 || tenths > 255 || cbreak() != OK) return ERR;
    tcu_modes.half_delay = tenths;
    return OK;
}

int echo(void) {
    if (!tcu.is_open) return ERR;
    tcu_modes.echoes = true;
    return OK;
}

int noecho(void) {
    if (!tcu.is_open) return ERR;
    tcu_modes.echoes = false;
    return OK;
}

/* Has getch translate newlines; on output a newline is a call of the session. */
int nl(void) {
    if (!tcu.is_open) return ERR;
    tcu_modes.reads_newlines = true;
    return OK;
}

int nonl(void) {
    if (!tcu.is_open) return ERR;
    tcu_modes.reads_newlines = false;
    return OK;
}

static int set_flushing(bool is_on) {
    if (is_on) program_modes.c_lflag &= ~(tcflag_t)NOFLSH;
    else program_modes.c_lflag |= NOFLSH;
    return changed();
}

int intrflush(WINDOW *window, bool is_on) {
    (void)window;
    return set_flushing(is_on);
}

void qiflush(void) {
    set_flushing(true);
}

void noqiflush(void) {
    set_flushing(false);
}

int def_prog_mode(void) {
    if (!tcu.is_open || !are_known) return ERR;
    return tcgetattr(tcu.input, &program_modes) == 0 ? OK : ERR;
}

int def_shell_mode(void) {
    if (!tcu.is_open || !are_known) return ERR;
    return tcgetattr(tcu.input, &shell_modes) == 0 ? OK : ERR;
}

int reset_prog_mode(void) {
    return tcu.is_open ? modes_program() : ERR;
}

int reset_shell_mode(void) {
    return tcu.is_open ? modes_shell() : ERR;
}

int savetty(void) {
    if (!tcu.is_open || !are_known) return ERR;
    are_saved = tcgetattr(tcu.input, &saved_modes) == 0;
    return are_saved ? OK : ERR;
}

int resetty(void) {
    return tcu.is_open && are_saved ? set(&saved_modes) : ERR;
}

/* A control character of the terminal, 0 if it has none. */
static char key_of(size_t place) {
    return !are_known || shell_modes.c_cc[place] == _POSIX_VDISABLE ? 0 : (char)shell_modes.c_cc[place];
}

char erasechar(void) {
    return key_of(VERASE);
}

char killchar(void) {
    return key_of(VKILL);
}

int baudrate(void) {
    static const struct {
        speed_t code;
        int rate;
    } rates[] = {{B50, 50},     {B75, 75},     {B110, 110},   {B134, 134},   {B150, 150},    {B200, 200},
                 {B300, 300},   {B600, 600},   {B1200, 1200}, {B1800, 1800}, {B2400, 2400},  {B4800, 4800},
                 {B9600, 9600}, {B19200, 19200}, {B38400, 38400}};
    struct termios now;
    if (!tcu.is_open || tcgetattr(tcu.output, &now) != 0) return ERR;
    for (size_t at = 0; at < sizeof rates / sizeof *rates; at++)
        if (rates[at].code == cfgetospeed(&now)) return rates[at].rate;
    return rates[sizeof rates / sizeof *rates - 1].rate;
}
