/* The capability and the code of each key, and the names of the codes. */
#include "private.h"

const struct tcu_key tcu_keys[] = {
    {"kbs", KEY_BACKSPACE}, {"ktbc", KEY_CATAB}, {"kclr", KEY_CLEAR}, {"kctab", KEY_CTAB}, {"kdch1", KEY_DC},
    {"kdl1", KEY_DL}, {"kcud1", KEY_DOWN}, {"krmir", KEY_EIC}, {"kel", KEY_EOL}, {"ked", KEY_EOS}, {"kf0", KEY_F(0)},
    {"kf1", KEY_F(1)}, {"kf10", KEY_F(10)}, {"kf2", KEY_F(2)}, {"kf3", KEY_F(3)}, {"kf4", KEY_F(4)},
    {"kf5", KEY_F(5)}, {"kf6", KEY_F(6)}, {"kf7", KEY_F(7)}, {"kf8", KEY_F(8)}, {"kf9", KEY_F(9)},
    {"khome", KEY_HOME}, {"kich1", KEY_IC}, {"kil1", KEY_IL}, {"kcub1", KEY_LEFT}, {"kll", KEY_LL},
    {"knp", KEY_NPAGE}, {"kpp", KEY_PPAGE}, {"kcuf1", KEY_RIGHT}, {"kind", KEY_SF}, {"kri", KEY_SR},
    {"khts", KEY_STAB}, {"kcuu1", KEY_UP}, {"ka1", KEY_A1}, {"ka3", KEY_A3}, {"kb2", KEY_B2}, {"kc1", KEY_C1},
    {"kc3", KEY_C3}, {"kcbt", KEY_BTAB}, {"kbeg", KEY_BEG}, {"kcan", KEY_CANCEL}, {"kclo", KEY_CLOSE},
    {"kcmd", KEY_COMMAND}, {"kcpy", KEY_COPY}, {"kcrt", KEY_CREATE}, {"kend", KEY_END}, {"kent", KEY_ENTER},
    {"kext", KEY_EXIT}, {"kfnd", KEY_FIND}, {"khlp", KEY_HELP}, {"kmrk", KEY_MARK}, {"kmsg", KEY_MESSAGE},
    {"kmov", KEY_MOVE}, {"knxt", KEY_NEXT}, {"kopn", KEY_OPEN}, {"kopt", KEY_OPTIONS}, {"kprv", KEY_PREVIOUS},
    {"kprt", KEY_PRINT}, {"krdo", KEY_REDO}, {"kref", KEY_REFERENCE}, {"krfr", KEY_REFRESH}, {"krpl", KEY_REPLACE},
    {"krst", KEY_RESTART}, {"kres", KEY_RESUME}, {"ksav", KEY_SAVE}, {"kspd", KEY_SUSPEND}, {"kund", KEY_UNDO},
    {"kBEG", KEY_SBEG}, {"kCAN", KEY_SCANCEL}, {"kCMD", KEY_SCOMMAND}, {"kCPY", KEY_SCOPY}, {"kCRT", KEY_SCREATE},
    {"kDC", KEY_SDC}, {"kDL", KEY_SDL}, {"kslt", KEY_SELECT}, {"kEND", KEY_SEND}, {"kEOL", KEY_SEOL},
    {"kEXT", KEY_SEXIT}, {"kFND", KEY_SFIND}, {"kHLP", KEY_SHELP}, {"kHOM", KEY_SHOME}, {"kIC", KEY_SIC},
    {"kLFT", KEY_SLEFT}, {"kMSG", KEY_SMESSAGE}, {"kMOV", KEY_SMOVE}, {"kNXT", KEY_SNEXT}, {"kOPT", KEY_SOPTIONS},
    {"kPRV", KEY_SPREVIOUS}, {"kPRT", KEY_SPRINT}, {"kRDO", KEY_SREDO}, {"kRPL", KEY_SREPLACE}, {"kRIT", KEY_SRIGHT},
    {"kRES", KEY_SRSUME}, {"kSAV", KEY_SSAVE}, {"kSPD", KEY_SSUSPEND}, {"kUND", KEY_SUNDO}, {"kf11", KEY_F(11)},
    {"kf12", KEY_F(12)}, {"kf13", KEY_F(13)}, {"kf14", KEY_F(14)}, {"kf15", KEY_F(15)}, {"kf16", KEY_F(16)},
    {"kf17", KEY_F(17)}, {"kf18", KEY_F(18)}, {"kf19", KEY_F(19)}, {"kf20", KEY_F(20)}, {"kf21", KEY_F(21)},
    {"kf22", KEY_F(22)}, {"kf23", KEY_F(23)}, {"kf24", KEY_F(24)}, {"kf25", KEY_F(25)}, {"kf26", KEY_F(26)},
    {"kf27", KEY_F(27)}, {"kf28", KEY_F(28)}, {"kf29", KEY_F(29)}, {"kf30", KEY_F(30)}, {"kf31", KEY_F(31)},
    {"kf32", KEY_F(32)}, {"kf33", KEY_F(33)}, {"kf34", KEY_F(34)}, {"kf35", KEY_F(35)}, {"kf36", KEY_F(36)},
    {"kf37", KEY_F(37)}, {"kf38", KEY_F(38)}, {"kf39", KEY_F(39)}, {"kf40", KEY_F(40)}, {"kf41", KEY_F(41)},
    {"kf42", KEY_F(42)}, {"kf43", KEY_F(43)}, {"kf44", KEY_F(44)}, {"kf45", KEY_F(45)}, {"kf46", KEY_F(46)},
    {"kf47", KEY_F(47)}, {"kf48", KEY_F(48)}, {"kf49", KEY_F(49)}, {"kf50", KEY_F(50)}, {"kf51", KEY_F(51)},
    {"kf52", KEY_F(52)}, {"kf53", KEY_F(53)}, {"kf54", KEY_F(54)}, {"kf55", KEY_F(55)}, {"kf56", KEY_F(56)},
    {"kf57", KEY_F(57)}, {"kf58", KEY_F(58)}, {"kf59", KEY_F(59)}, {"kf60", KEY_F(60)}, {"kf61", KEY_F(61)},
    {"kf62", KEY_F(62)}, {"kf63", KEY_F(63)}, {"kmous", KEY_MOUSE},
};
const size_t tcu_key_count = sizeof tcu_keys / sizeof *tcu_keys;

/* The names of the codes of all keys but the numbered function keys. */
static const struct tcu_key names[] = {
    {"KEY_BREAK", KEY_BREAK}, {"KEY_RESET", KEY_RESET}, {"KEY_SRESET", KEY_SRESET}, {"KEY_RESIZE", KEY_RESIZE},
    {"KEY_BACKSPACE", KEY_BACKSPACE}, {"KEY_CATAB", KEY_CATAB}, {"KEY_CLEAR", KEY_CLEAR}, {"KEY_CTAB", KEY_CTAB},
    {"KEY_DC", KEY_DC}, {"KEY_DL", KEY_DL}, {"KEY_DOWN", KEY_DOWN}, {"KEY_EIC", KEY_EIC}, {"KEY_EOL", KEY_EOL},
    {"KEY_EOS", KEY_EOS}, {"KEY_HOME", KEY_HOME}, {"KEY_IC", KEY_IC}, {"KEY_IL", KEY_IL}, {"KEY_LEFT", KEY_LEFT},
    {"KEY_LL", KEY_LL}, {"KEY_NPAGE", KEY_NPAGE}, {"KEY_PPAGE", KEY_PPAGE}, {"KEY_RIGHT", KEY_RIGHT},
    {"KEY_SF", KEY_SF}, {"KEY_SR", KEY_SR}, {"KEY_STAB", KEY_STAB}, {"KEY_UP", KEY_UP}, {"KEY_A1", KEY_A1},
    {"KEY_A3", KEY_A3}, {"KEY_B2", KEY_B2}, {"KEY_C1", KEY_C1}, {"KEY_C3", KEY_C3}, {"KEY_BTAB", KEY_BTAB},
    {"KEY_BEG", KEY_BEG}, {"KEY_CANCEL", KEY_CANCEL}, {"KEY_CLOSE", KEY_CLOSE}, {"KEY_COMMAND", KEY_COMMAND},
    {"KEY_COPY", KEY_COPY}, {"KEY_CREATE", KEY_CREATE}, {"KEY_END", KEY_END}, {"KEY_ENTER", KEY_ENTER},
    {"KEY_EXIT", KEY_EXIT}, {"KEY_FIND", KEY_FIND}, {"KEY_HELP", KEY_HELP}, {"KEY_MARK", KEY_MARK},
    {"KEY_MESSAGE", KEY_MESSAGE}, {"KEY_MOVE", KEY_MOVE}, {"KEY_NEXT", KEY_NEXT}, {"KEY_OPEN", KEY_OPEN},
    {"KEY_OPTIONS", KEY_OPTIONS}, {"KEY_PREVIOUS", KEY_PREVIOUS}, {"KEY_PRINT", KEY_PRINT}, {"KEY_REDO", KEY_REDO},
    {"KEY_REFERENCE", KEY_REFERENCE}, {"KEY_REFRESH", KEY_REFRESH}, {"KEY_REPLACE", KEY_REPLACE},
    {"KEY_RESTART", KEY_RESTART}, {"KEY_RESUME", KEY_RESUME}, {"KEY_SAVE", KEY_SAVE}, {"KEY_SUSPEND", KEY_SUSPEND},
    {"KEY_UNDO", KEY_UNDO}, {"KEY_SBEG", KEY_SBEG}, {"KEY_SCANCEL", KEY_SCANCEL}, {"KEY_SCOMMAND", KEY_SCOMMAND},
    {"KEY_SCOPY", KEY_SCOPY}, {"KEY_SCREATE", KEY_SCREATE}, {"KEY_SDC", KEY_SDC}, {"KEY_SDL", KEY_SDL},
    {"KEY_SELECT", KEY_SELECT}, {"KEY_SEND", KEY_SEND}, {"KEY_SEOL", KEY_SEOL}, {"KEY_SEXIT", KEY_SEXIT},
    {"KEY_SFIND", KEY_SFIND}, {"KEY_SHELP", KEY_SHELP}, {"KEY_SHOME", KEY_SHOME}, {"KEY_SIC", KEY_SIC},
    {"KEY_SLEFT", KEY_SLEFT}, {"KEY_SMESSAGE", KEY_SMESSAGE}, {"KEY_SMOVE", KEY_SMOVE}, {"KEY_SNEXT", KEY_SNEXT},
    {"KEY_SOPTIONS", KEY_SOPTIONS}, {"KEY_SPREVIOUS", KEY_SPREVIOUS}, {"KEY_SPRINT", KEY_SPRINT},
    {"KEY_SREDO", KEY_SREDO}, {"KEY_SREPLACE", KEY_SREPLACE}, {"KEY_SRIGHT", KEY_SRIGHT}, {"KEY_SRSUME", KEY_SRSUME},
    {"KEY_SSAVE", KEY_SSAVE}, {"KEY_SSUSPEND", KEY_SSUSPEND}, {"KEY_SUNDO", KEY_SUNDO}, {"KEY_MOUSE", KEY_MOUSE},
};

static const char *name_of_key(int key) {
    static char room[16];
    if (key >= KEY_F(0) && key < KEY_F(64)) {
        snprintf(room, sizeof room, "KEY_F(%d)", key - KEY_F0);
        return room;
    }
    for (size_t at = 0; at < sizeof names / sizeof *names; at++)
        if (names[at].key == key) return names[at].name;
    return NULL;
}

const char *keyname(int key) {
    static char rooms[128][5];
    char *at;
    if (key == -1) return "-1";
    if (key < 0) return NULL;
    if (key > 255) return name_of_key(key);
    if (key < 128 || !modes_keep_meta()) return unctrl((chtype)key & 127);
    at = rooms[key - 128];
    snprintf(at, sizeof rooms[0], "M-%s", unctrl((chtype)key & 127));
    return at;
}
