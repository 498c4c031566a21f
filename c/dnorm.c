/* dnorm: the commands of the program over the library for C, for systems that the proved program does not run on. The
   reader, which is the library, is proved. This file is tested: it prints the lines of the program, with its statuses.

       cc -O2 -o dnorm dnorm.c libdnorm.c

   It needs POSIX, or Windows, where MinGW wants -municode. */
#include "dnorm.h"
#include "dnorm_tools.h"
#include <signal.h>
#include <stdarg.h>
#include <string.h>
#ifdef _WIN32
#include <wchar.h>
#include <windows.h>
#endif

static const char version[] =
    "dnorm @VERSION@\nThe reader is proved, as libdnorm, and made into C; the commands around it are tested.\n";
static const char help[] =
    "Canonicalises, checks and compares DIMACS network instances: min, max and sp\n"
    "problems, and ss, p2p and co companions of sp graphs.\n\n"
    "Usage: dnorm canon [--form 1|2] FILE        Writes the canonical form of a file\n"
    "       dnorm check FILE [--with COMPANION]  Checks a file, perhaps with a companion\n"
    "       dnorm compare LEFT RIGHT             Prints the first difference\n"
    "       dnorm show FILE                      Shows what a file contains\n\n"
    "FILE may be -, standard input, once. Without arguments: dnorm canon -\n\n"
    "Exit statuses: 0, or 1 if compare finds a difference; 2 if a file is refused\n"
    "(1 to 21, 34 to 36), 3 if the command line is, 4 for other failures (30 to 33).\n\n"
#define DNORM_ROW(number, name, sentence) #number " " name ": " sentence "\n"
    DNORM_CODES(DNORM_ROW);
#undef DNORM_ROW
/* Statuses, how many bytes are read and written at a time, and how many arcs are copied at a time. */
enum { DIFFERS = 1, REFUSED = 2, BAD_LINE = 3, FAILED = 4, PIECE = 65536, ARCS = 1000, WRITE = 33 };

/* What is to be written to standard output, and whether that failed. A word of a command line fits as well. */
static char out[3 * PIECE];
static size_t filled;
static bool has_failed;

/* Writes all bytes, or returns false. */
static bool write_all(int fd, const char *bytes, size_t count) {
    for (int64_t some; count > 0; bytes += some, count -= (size_t)some) {
        while ((some = write(fd, bytes, (unsigned)count)) < 0 && errno == EINTR) {}
        if (some <= 0) return false;
    }
    return true;
}

static void flush(void) {
    has_failed = has_failed || !write_all(1, out, filled);
    filled = 0;
}

/* Writes at most PIECE bytes. */
static void say(const char *format, ...) {
    va_list given;
    va_start(given, format);
    filled += (size_t)vsnprintf(out + filled, PIECE, format, given);
    va_end(given);
    if (filled >= PIECE) flush();
}

/* Returns the digits of a number of 128 bits, which are written to `text`. */
static const char *digits(int64_t high, uint64_t low, char text[48]) {
    uint64_t parts[] = {(uint64_t)high >> 32, (uint64_t)high & UINT32_MAX, low >> 32, low & UINT32_MAX};
    char *at = text + 47;
    *at = 0;
    for (int i = 3, carry = 1; high < 0 && i >= 0; i--) {
        parts[i] = (~parts[i] & UINT32_MAX) + (uint64_t)carry;
        carry = parts[i] > UINT32_MAX;
        parts[i] &= UINT32_MAX;
    }
    do {
        uint64_t rest = 0;
        for (int i = 0; i < 4; i++) {
            rest = rest << 32 | parts[i];
            parts[i] = rest / 10;
            rest %= 10;
        }
        *--at = (char)('0' + rest);
    } while (parts[0] | parts[1] | parts[2] | parts[3]);
    if (high < 0) *--at = '-';
    return at;
}

static const char *value_text(dnorm_value it, char text[48]) {
    return it.known ? digits(it.high, it.low, text) : "none";
}

/* Adds units times a cost to a number of 128 bits. */
static void add_cost(uint64_t *high, uint64_t *low, int64_t units, int64_t cost) {
    uint64_t more = (uint64_t)cost, above = cost < 0 ? UINT64_MAX : 0;
    for (; units > 0; units >>= 1, above = above << 1 | more >> 63, more <<= 1) {
        if (!(units & 1)) continue;
        *low += more;
        *high += above + (*low < more);
    }
}

/* Says in a line why there is no answer, before anything is put on standard output, and returns the status. A failure
   of standard error is ignored. */
static int complain(const char *name, const char *why, int status) {
    const int length = snprintf(out, sizeof out, "%s:%s\n", name, why);
    if (length > 0 && length < (int)sizeof out) write_all(2, out, (size_t)length);
    return status;
}

static int refuse(const char *name, dnorm_status status, const char *more) {
    char place[32] = "", why[128];
    if (status.place == DNORM_AT_LINE) snprintf(place, sizeof place, "%" PRIu64 ":", status.line);
    if (status.place == DNORM_AT_END) strcpy(place, "end:");
    snprintf(why, sizeof why, "%s %d %s%s", place, status.code, dnorm_code_name(status.code), more);
    return complain(name, why, status.code >= DNORM_MEMORY && status.code <= WRITE ? FAILED : REFUSED);
}

static int refuse_by(const char *name, uint8_t code) {
    const dnorm_status status = {code, DNORM_NO_PLACE, 0};
    return refuse(name, status, "");
}

/* Opens the file of this name. */
static int open_file(const char *name) {
#ifdef _WIN32
    /* A long path is found by its whole name, behind a prefix: \\?\C:\.. or \\?\UNC\SERVER\.. */
    static wchar_t given[32768], whole[8 + 32768];
    wchar_t *path = given;
    if (!MultiByteToWideChar(CP_UTF8, MB_ERR_INVALID_CHARS, name, -1, given, 32768)) return -1;
    if (wcslen(given) >= 240 && wcsncmp(given, L"\\\\?\\", 4) && GetFullPathNameW(given, 32768, whole + 8, NULL)) {
        const bool is_share = whole[8] == L'\\' && whole[9] == L'\\';
        path = whole + (is_share ? 2 : 4);
        wmemcpy(path, L"\\\\?\\UNC", is_share ? 7 : 4);
    }
    return _wopen(path, DNORM_OPEN);
#else
    int fd;
    do fd = open(name, DNORM_OPEN);
    while (fd < 0 && errno == EINTR);
    return fd;
#endif
}

/* What a line of words asks for, and what is read for it; `kept` has the bytes of the first text, for check. */
static struct {
    const char *names[2], *value;
    dnorm texts[2];
    uint8_t *kept;
    size_t length, room;
} own;

static bool keep(const uint8_t *bytes, size_t count) {
    if (own.room - own.length < count) {
        void *const more = realloc(own.kept, 2 * own.room + count);
        if (!more) return false;
        own.kept = more;
        own.room = 2 * own.room + count;
    }
    memcpy(own.kept + own.length, bytes, count);
    own.length += count;
    return true;
}

/* Reads a text, and returns the exit status. */
static int read_text(const char *name, dnorm *text, bool is_kept) {
    static uint8_t bytes[PIECE];
    const int fd = strcmp(name, "-") ? open_file(name) : 0;
    int64_t some = 1;
    dnorm_status status = dnorm_begin(text);
    if (fd < 0 && status.code == DNORM_FINE) status.code = DNORM_READ;
    for (uint64_t reads = 0; status.code == DNORM_FINE && some != 0;) {
        some = read(fd, bytes, PIECE);
        if (some < 0 && errno == EINTR) continue;
        if (some > 0) status = dnorm_feed(text, bytes, (size_t)some);
        else if (some < 0) status.code = DNORM_READ;
        if (status.code == DNORM_FINE && is_kept && some > 0 && !keep(bytes, (size_t)some)) status.code = DNORM_MEMORY;
        if (status.code == DNORM_FINE && ++reads >= DNORM_READS) status.code = DNORM_ENDLESS;
    }
    if (status.code == DNORM_FINE) status = dnorm_finish(text);
    if (fd >= 0 && strcmp(name, "-")) close(fd);
    return status.code == DNORM_FINE ? 0 : refuse(name, status, "");
}

static int canon(void) {
    const int status = read_text(own.names[0], &own.texts[0], false);
    const uint8_t form = own.value && own.value[0] == '2' ? 2 : 1;
    dnorm_status made;
    if (status) return status;
    made = dnorm_canon(&own.texts[0], form, &own.texts[1]);
    if (made.code != DNORM_FINE) return refuse(own.names[0], made, "");
    for (size_t from = 0; !has_failed; from += PIECE) {
        filled = dnorm_text(&own.texts[1], from, (uint8_t *)out, PIECE).count;
        if (filled < PIECE) break;
        flush();
    }
    return 0;
}

/* Finds whether the text that was read is its canonical one in this form. Returns the code of dnorm_canon. */
static uint8_t find_form(uint8_t form, bool *is_canonical) {
    static uint8_t bytes[PIECE];
    dnorm text = DNORM_NONE;
    const uint8_t code = dnorm_canon(&own.texts[0], form, &text).code;
    size_t from = 0, some = PIECE;
    *is_canonical = code == DNORM_FINE;
    for (; *is_canonical && some == PIECE; from += some) {
        some = dnorm_text(&text, from, bytes, PIECE).count;
        *is_canonical = some <= own.length - from && !memcmp(bytes, own.kept + from, some);
    }
    *is_canonical = *is_canonical && from == own.length;
    dnorm_free(&text);
    return code == DNORM_COUNT_TOO_LARGE ? DNORM_FINE : code;
}

static int check(void) {
    const int status = read_text(own.names[0], &own.texts[0], true);
    const int other = status || !own.value ? status : read_text(own.value, &own.texts[1], false);
    bool forms[2];
    if (other) return other;
    if (own.value) {
        const dnorm_fit fit = dnorm_fits(&own.texts[0], &own.texts[1]);
        const dnorm_status why = {fit.code, DNORM_NO_PLACE, 0};
        char node[32] = "";
        if (fit.code == DNORM_NOT_IN_GRAPH) snprintf(node, sizeof node, " %" PRId64, fit.node);
        if (fit.code != DNORM_FITS) return refuse(own.value, why, node);
    }
    for (uint8_t i = 0; i < 2; i++)
        if (find_form(i + 1, &forms[i]) != DNORM_FINE) return refuse_by(own.names[0], DNORM_MEMORY);
    say("accepted %s\n", dnorm_kind_name(dnorm_facts(&own.texts[0]).kind));
    if (own.value) say("fits %s\n", dnorm_kind_name(dnorm_facts(&own.texts[1]).kind));
    say("forms%s%s\n", forms[0] ? " 1" : forms[1] ? "" : " none", forms[1] ? " 2" : "");
    return 0;
}

static int compare(void) {
    static const char *const whats[] = {"same", "differ kind", "differ nodes", "differ supply", "differ source",
                                        "differ sink", "differ pair", "differ length", "differ item", "differ point"};
    const int status = read_text(own.names[0], &own.texts[0], false);
    const int other = status ? status : read_text(own.names[1], &own.texts[1], false);
    const dnorm_difference it = dnorm_compare(&own.texts[0], &own.texts[1]);
    const uint8_t kind = dnorm_facts(&own.texts[0]).kind;
    const bool is_pair = it.what == DNORM_PAIR_DIFFERS;
    char left[48], right[48];
    if (other) return other;
    say("%s", whats[it.what]);
    if (is_pair || it.what == DNORM_SUPPLY_DIFFERS || it.what == DNORM_POINT_DIFFERS) say(" %" PRId64, it.at);
    if (is_pair) say(" %" PRId64 " %s", it.to, kind == DNORM_MIN ? "amount" : kind == DNORM_SP ? "length" : "capacity");
    if (is_pair && kind == DNORM_MIN) say(" %" PRId64 " cost", it.amount);
    if (it.what == DNORM_ITEM_DIFFERS) say(" %" PRIu64, it.index);
    else if (it.what == DNORM_KINDS_DIFFER)
        say(" %s %s", dnorm_kind_name(kind), dnorm_kind_name(dnorm_facts(&own.texts[1]).kind));
    else if (it.what != DNORM_SAME && it.what != DNORM_POINT_DIFFERS)
        say(" %s %s", value_text(it.left, left), value_text(it.right, right));
    say("\n");
    return it.what == DNORM_SAME ? 0 : DIFFERS;
}

/* Shows the pairs of a `min` text: in form 1 its arcs are forced units, LOW is CAP, or free capacity. */
static void show_costs(void) {
    dnorm_arc arcs[ARCS + 1], last = {0, 0, 0, 0, 0};
    dnorm_place place = DNORM_FIRST;
    uint64_t high = 0, low = 0;
    int64_t forced = 0, steps = 0;
    char cost[48];
    for (size_t count = ARCS; count == ARCS && !has_failed;) {
        count = dnorm_next(&own.texts[0], 1, &place, arcs, ARCS).count;
        memset(&arcs[count], 0, sizeof *arcs);
        /* Behind the last arc, one of no node ends the line of its pair. */
        for (const dnorm_arc *it = arcs; it < arcs + count + (count < ARCS); last = *it++) {
            if (last.tail && (it->tail != last.tail || it->head != last.head)) {
                say("pair %" PRId64 " %" PRId64 " forced %" PRId64, last.tail, last.head, forced);
                say(" cost %s steps %" PRId64 "\n", digits((int64_t)high, low, cost), steps);
                high = low = 0;
                forced = steps = 0;
            }
            forced += it->a;
            add_cost(&high, &low, it->a, it->c);
            steps += it->b > it->a;
        }
    }
}

static int show(void) {
    const int status = read_text(own.names[0], &own.texts[0], false);
    const dnorm_summary facts = dnorm_facts(&own.texts[0]);
    dnorm_arc arcs[ARCS];
    dnorm_item ends;
    dnorm_place place = DNORM_FIRST, first = DNORM_FIRST;
    if (status) return status;
    say("kind %s\n", dnorm_kind_name(facts.kind));
    if (facts.kind < DNORM_SS) say("nodes %" PRId64 "\n", facts.nodes);
    say("lines %" PRId64 "\n", facts.lines);
    if (facts.kind == DNORM_MIN) say("supplies %" PRIu64 "\n", facts.items);
    if (facts.kind == DNORM_MAX && dnorm_items(&own.texts[0], &first, &ends, 1).count)
        say("source %" PRId64 "\nsink %" PRId64 "\n", ends.id, ends.a);
    if (facts.kind < DNORM_SS) say("pairs %" PRIu64 "\n", facts.pairs);
    if (facts.kind == DNORM_MIN) show_costs();
    for (size_t count = facts.kind == DNORM_SP || facts.kind == DNORM_MAX ? ARCS : 0; count == ARCS && !has_failed;) {
        count = dnorm_next(&own.texts[0], 1, &place, arcs, ARCS).count;
        for (const dnorm_arc *it = arcs; it < arcs + count; it++)
            say("pair %" PRId64 " %" PRId64 " %s %" PRId64 "\n", it->tail, it->head,
                facts.kind == DNORM_SP ? "length" : "total", it->a);
    }
    return 0;
}

static int print_help(void) { return say("%s", help), 0; }
static int print_version(void) { return say("%s", version), 0; }

/* The commands, each with the number of its files and its option. */
typedef struct {
    const char *name;
    int files;
    const char *option;
    int (*perform)(void);
} command;
static const command commands[] = {
    {"canon", 1, "--form", canon}, {"check", 1, "--with", check}, {"compare", 2, "", compare}, {"show", 1, "", show}};

static const command *command_of(const char *name) {
    for (const command *it = commands; it < commands + 4; it++)
        if (!strcmp(it->name, name)) return it;
    return NULL;
}

static bool is_utf8(const char *word) {
    static const uint32_t least[] = {0, 0x80, 0x800, 0x10000};
    for (const uint8_t *at = (const uint8_t *)word; *at;) {
        uint32_t code = *at++;
        const int more = code < 0xC0 ? 0 : code < 0xE0 ? 1 : code < 0xF0 ? 2 : 3;
        if ((code >= 0x80 && code < 0xC0) || code > 0xF4) return false;
        if (more) code &= 0x3Fu >> more;
        for (int i = 0; i < more; i++, at++) {
            if (*at >> 6 != 2) return false;
            code = code << 6 | (*at & 0x3F);
        }
        if (code < least[more] || code > 0x10FFFF || code >> 11 == 0xD800 >> 11) return false;
    }
    return true;
}

/* Understands the words behind a command, as the program does. Returns what to do, or null for a bad line. */
static int (*understood(const command *it, int count, char **words))(void) {
    const size_t length = strlen(it->option);
    bool is_over = false;
    int files = 0;
    for (int i = 0; i < count; i++) {
        if (is_over || words[i][0] != '-' || !words[i][1]) {
            if (files == it->files) return NULL;
            own.names[files++] = words[i];
        } else if (!strcmp(words[i], "--")) is_over = true;
        else if (words[i][1] == 'h' || !strcmp(words[i], "--help")) return print_help;
        else if (own.value || !length || strncmp(words[i], it->option, length)) return NULL;
        else if (words[i][length] == '=') own.value = words[i] + length + 1;
        else if (words[i][length] || ++i == count || (words[i][0] == '-' && words[i][1])) return NULL;
        else own.value = words[i];
        if (it->perform == canon && own.value && strcmp(own.value, "1") && strcmp(own.value, "2")) return NULL;
    }
    return files == it->files ? it->perform : NULL;
}

/* Understands a line of words. */
static int (*asked(int count, char **words))(void) {
    const command *const found = count > 0 ? command_of(words[0]) : NULL;
    for (int i = 0; i < count; i++)
        if (!is_utf8(words[i])) return NULL;
    own.names[0] = "-";
    if (count == 0) return canon;
    if (found) return understood(found, count - 1, words + 1);
    if (!strncmp(words[0], "-h", 2) || !strcmp(words[0], "--help")) return print_help;
    if (!strncmp(words[0], "-V", 2) || !strcmp(words[0], "--version")) return print_version;
    if (strcmp(words[0], "help") || count > 2) return NULL;
    return count == 1 || command_of(words[1]) || !strcmp(words[1], "help") ? print_help : NULL;
}

static int run(int count, char **words) {
    int (*const perform)(void) = asked(count, words);
    const char *const other = perform == check ? own.value : own.names[1];
    int status;
    if (!perform) return complain("dnorm", " bad command line", BAD_LINE);
    if (other && !strcmp(own.names[0], "-") && !strcmp(other, "-"))
        return complain("dnorm", " standard input named twice", BAD_LINE);
    status = perform();
    flush();
    return has_failed ? refuse_by("out", WRITE) : status;
}

#ifdef _WIN32
int wmain(int count, wchar_t **given) {
    char **const words = calloc((size_t)count + 1, sizeof *words);
    for (int i = 0; i < 3; i++) _setmode(i, _O_BINARY);
    for (int i = 1; words && i < count; i++) {
        const int room = WideCharToMultiByte(CP_UTF8, WC_ERR_INVALID_CHARS, given[i], -1, NULL, 0, NULL, NULL);
        if (room == 0) return complain("dnorm", " bad command line", BAD_LINE);
        if (!(words[i] = malloc((size_t)room))) return refuse_by("dnorm", DNORM_MEMORY);
        WideCharToMultiByte(CP_UTF8, 0, given[i], -1, words[i], room, NULL, NULL);
    }
    return words ? run(count > 0 ? count - 1 : 0, words + 1) : refuse_by("dnorm", DNORM_MEMORY);
}
#else
int main(int count, char **words) {
    /* A write to a pipe that nobody reads fails, and ends nothing. */
    signal(SIGPIPE, SIG_IGN);
    return run(count > 0 ? count - 1 : 0, words + 1);
}
#endif
