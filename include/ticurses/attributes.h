/* Characters with attributes, and the answers of calls, as <curses.h> and <term.h> of this library have them. */
#ifndef TICURSES_ATTRIBUTES_H
#define TICURSES_ATTRIBUTES_H

#include <stdint.h>

/* A character with attributes and a color pair: the byte in bits 0 to 7, the pair in 8 to 15, attributes from 16 on. */
typedef uint32_t chtype;
typedef chtype attr_t;

#undef OK
#undef ERR
#define OK 0
#define ERR (-1)

/* Attributes. A_PROTECT is 0, since no terminal with protected characters is known here. */
#define A_NORMAL 0u
#define A_CHARTEXT 0x000000ffu
#define A_COLOR 0x0000ff00u
#define A_ATTRIBUTES 0xffffff00u
#define A_STANDOUT 0x00010000u
#define A_UNDERLINE 0x00020000u
#define A_REVERSE 0x00040000u
#define A_BLINK 0x00080000u
#define A_DIM 0x00100000u
#define A_BOLD 0x00200000u
#define A_INVIS 0x00400000u
#define A_ALTCHARSET 0x00800000u
#define A_PROTECT 0u

#define WA_NORMAL A_NORMAL
#define WA_ATTRIBUTES A_ATTRIBUTES
#define WA_STANDOUT A_STANDOUT
#define WA_UNDERLINE A_UNDERLINE
#define WA_REVERSE A_REVERSE
#define WA_BLINK A_BLINK
#define WA_DIM A_DIM
#define WA_BOLD A_BOLD
#define WA_INVIS A_INVIS
#define WA_ALTCHARSET A_ALTCHARSET
#define WA_PROTECT A_PROTECT

#endif
