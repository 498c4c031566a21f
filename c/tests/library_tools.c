/* Uses the functions of dnorm_tools.h, as c/tests says.

       tools codes               the name and the sentence of each number of 8 bits
       tools read HOW [PATH]     reads a text by HOW: path, lines (a path, with the arc lines), or fd and file, of
                                 standard input without PATH. Prints what the status means, and if it is none, the
                                 canonical text by dnorm_write. A file that is read by its name is closed again
       tools signals             reads a text whose bytes come one by one, while signals interrupt the reads
       tools broken              reads two texts from a stream that fails after its first bytes, and a fault from a pipe
                                 that stays open, and writes texts to streams that fail
       tools star FORM           prints where the arcs of each node of standard input begin, and the columns, by stars
                                 of 64 and 32 bits, with the arcs into each node
       tools narrow FORM ROOM    prints the columns of 32 bits of standard input, copied in ranges of ROOM arcs, and the
                                 first arc that does not fit them */
#define _GNU_SOURCE
#include "dnorm_tools.h"
#include <signal.h>
#include <string.h>
#include <sys/time.h>
#include <sys/wait.h>
#include <time.h>

enum { MANY = 4096 };

static int codes(void) {
    for (int code = 0; code < 256; code++)
        printf("%d %s: %s\n", code, dnorm_code_name((uint8_t)code), dnorm_code_sentence((uint8_t)code));
    return 0;
}

/* Prints what a status means. The line also fits a room that is too small, and its length is that of the whole. */
static int say(dnorm_status status) {
    const int cause = errno;
    char line[200], part[8];
    /* The compiler would warn of a room that it knows to be too small. */
    volatile size_t small = sizeof part;
    const int length = dnorm_status_line(status, line, sizeof line);
    if (length != (int)strlen(line) || dnorm_status_line(status, part, small) != length) return 1;
    if (strlen(part) != 7 || strncmp(part, line, 7)) return 1;
    printf("%s%s%s\n", line, status.code == DNORM_READ ? ": " : "", status.code == DNORM_READ ? strerror(cause) : "");
    return 2;
}

/* Prints the text of an instance by dnorm_write. */
static int print(const dnorm *graph) {
    static dnorm_item items[MANY];
    static dnorm_arc arcs[MANY];
    dnorm_place at_arc = DNORM_FIRST, at_item = DNORM_FIRST;
    const dnorm_summary facts = dnorm_facts(graph);
    const size_t arc_count = dnorm_next(graph, 1, &at_arc, arcs, MANY).count;
    const size_t item_count = dnorm_items(graph, &at_item, items, MANY).count;
    return !dnorm_write(stdout, facts.kind, facts.nodes, items, item_count, arcs, arc_count);
}

/* The number that the next open file has. */
static int next_number(void) {
    const int fd = dup(0);
    close(fd);
    return fd;
}

static int read_by(const char *how, const char *path) {
    dnorm graph = DNORM_NONE;
    dnorm_arc_lines lines = DNORM_NO_LINES;
    dnorm_status status = {DNORM_WRONG_CALL, DNORM_NO_PLACE, 0};
    const bool is_named = !strcmp(how, "path") || !strcmp(how, "lines");
    FILE *file = is_named ? NULL : path ? fopen(path, "rb") : stdin;
    const int number = next_number();
    int end;
    if (!strcmp(how, "lines")) status = dnorm_read_lines_path(&graph, &lines, path);
    else if (is_named) status = dnorm_read_path(&graph, path);
    else if (!strcmp(how, "file") && file) status = dnorm_read_file(&graph, file);
    else if (file) status = dnorm_read_fd(&graph, fileno(file));
    end = status.code == DNORM_FINE ? print(&graph) : say(status);
    /* What a handle owns does not change if it is used once more. */
    if (graph.full && dnorm_read_path(&graph, "/dev/null").code != DNORM_WRONG_CALL) return 1;
    if (graph.full != (status.code != DNORM_READ && status.code != DNORM_ENDLESS)) return 1;
    if (next_number() != number) return 1;
    if (file && path) fclose(file);
    dnorm_free(&graph);
    dnorm_arc_lines_free(&lines);
    return end;
}

static volatile sig_atomic_t signals_seen;

static void seen(int number) {
    (void)number;
    signals_seen++;
}

/* Writes a text into a pipe, a byte each millisecond, from another process. Returns the end that is read. */
static int slow_pipe(const char *text) {
    int ends[2];
    if (pipe(ends)) return -1;
    if (fork() == 0) {
        const struct timespec millisecond = {0, 1000000};
        for (; *text && write(ends[1], text, 1) == 1; text++) nanosleep(&millisecond, NULL);
        _exit(0);
    }
    close(ends[1]);
    return ends[0];
}

static int signals(void) {
    struct sigaction action;
    const struct itimerval often = {{0, 300}, {0, 300}}, never = {{0, 0}, {0, 0}};
    memset(&action, 0, sizeof action);
    action.sa_handler = seen;
    sigaction(SIGALRM, &action, NULL);
    for (int by_file = 0; by_file < 2; by_file++) {
        dnorm graph = DNORM_NONE;
        int fd = slow_pipe("c slow\np sp 2 2\na 1 2 7\na 1 2 5\n");
        FILE *file = fdopen(fd, "rb");
        signals_seen = 0;
        setitimer(ITIMER_REAL, &often, NULL);
        dnorm_status status = by_file ? dnorm_read_file(&graph, file) : dnorm_read_fd(&graph, fd);
        setitimer(ITIMER_REAL, &never, NULL);
        if (status.code != DNORM_FINE) return say(status);
        printf("%s %d\n", signals_seen > 5 ? "interrupted" : "quiet", (int)dnorm_facts(&graph).pairs);
        dnorm_free(&graph);
        fclose(file);
        wait(NULL);
    }
    return 0;
}

/* The bytes that are left of a stream, which fails behind them. */
static ssize_t read_broken(void *left, char *bytes, size_t room) {
    char **text = left;
    const size_t length = strlen(*text) < room ? strlen(*text) : room;
    memcpy(bytes, *text, length);
    *text += length;
    errno = EIO;
    return length > 0 ? (ssize_t)length : -1;
}

/* Fails once, and then takes all bytes. */
static ssize_t fail_once(void *failed, const char *bytes, size_t length) {
    bool *has_failed = failed;
    (void)bytes;
    if (*has_failed) return (ssize_t)length;
    *has_failed = true;
    errno = ENOSPC;
    return 0;
}

/* Whether dnorm_write says that a stream has failed, early or at the end, or that there is no text of this kind. */
static bool writes_fail(void) {
    static const dnorm_arc arcs[MANY];
    bool has_failed = false, are_right;
    FILE *once = fopencookie(&has_failed, "wb", (cookie_io_functions_t){.write = fail_once});
    FILE *full = fopen("/dev/full", "wb");
    are_right = !dnorm_write(once, DNORM_SP, 1, NULL, 0, arcs, MANY) && has_failed;
    are_right = are_right && !dnorm_write(full, DNORM_SP, 1, NULL, 0, NULL, 0) && errno == ENOSPC;
    errno = 0;
    are_right = are_right && !dnorm_write(stdout, DNORM_NO_KIND, 1, NULL, 0, NULL, 0) && errno == EINVAL;
    errno = 0;
    are_right = are_right && !dnorm_write(stdout, DNORM_CO + 1, 1, NULL, 0, NULL, 0) && errno == EINVAL;
    fclose(once);
    fclose(full);
    return are_right;
}

/* Whether a fault ends the reading of a pipe that stays open. */
static bool ends_early(void) {
    dnorm graph = DNORM_NONE;
    dnorm_status status;
    int ends[2];
    if (pipe(ends) || write(ends[1], "x\n", 2) != 2) return false;
    alarm(10);
    status = dnorm_read_fd(&graph, ends[0]);
    alarm(0);
    dnorm_free(&graph);
    close(ends[0]), close(ends[1]);
    return status.code == DNORM_BAD_LINE;
}

static int broken(void) {
    char texts[2][12] = {"p sp 1 1\n", "p sp 1 1\nq\n"};
    for (int i = 0; i < 2; i++) {
        char *left = texts[i];
        dnorm graph = DNORM_NONE;
        FILE *file = fopencookie(&left, "rb", (cookie_io_functions_t){.read = read_broken});
        say(dnorm_read_file(&graph, file));
        fclose(file);
        dnorm_free(&graph);
    }
    return writes_fail() && ends_early() ? 0 : 1;
}

/* Prints a star, if its numbers have 64 bits, and returns whether the arcs into each node are right. */
#define PRINT_STAR(type, index) \
    static bool print_##type(const type *made, bool is_printed) { \
        size_t seen = 0; \
        for (int64_t v = 0; is_printed && v <= (int64_t)made->nodes; v++) printf("%zu ", (size_t)made->first[v]); \
        for (size_t i = 0; is_printed && i < (size_t)made->arcs; i++) { \
            printf("\n%" PRId64 " %" PRId64, (int64_t)made->heads[i], (int64_t)made->a[i]); \
            if (made->b) printf(" %" PRId64 " %" PRId64, (int64_t)made->b[i], (int64_t)made->c[i]); \
        } \
        for (int64_t v = 1; v <= (int64_t)made->nodes; v++) { \
            index last = 0; \
            for (size_t i = (size_t)made->into_first[v - 1]; i < (size_t)made->into_first[v]; i++, seen++) { \
                const index arc = made->into[i]; \
                if (made->heads[arc] != v || (i > (size_t)made->into_first[v - 1] && arc <= last)) return false; \
                if (made->first[made->tails[arc] - 1] > arc || made->first[made->tails[arc]] <= arc) return false; \
                last = arc; \
            } \
        } \
        return seen == (size_t)made->arcs && made->into_first[made->nodes] == made->arcs; \
    }
PRINT_STAR(dnorm_star, size_t)
PRINT_STAR(dnorm_star_32, int32_t)

/* Whether a star of 32 bits has the numbers of one of 64 bits, or these do not fit. */
static bool is_narrowed(const dnorm *graph, uint8_t form, const dnorm_star *wide) {
    dnorm_star_32 narrow;
    const uint8_t code = dnorm_star_32_make(graph, form, &narrow).code;
    bool fits = true, is_right = true;
    for (size_t i = 0; i < wide->arcs; i++) {
        const int64_t numbers[] = {wide->a[i], wide->b ? wide->b[i] : 0, wide->c ? wide->c[i] : 0};
        for (int n = 0; n < 3; n++) fits = fits && numbers[n] == (int32_t)numbers[n];
    }
    if (code == DNORM_TOO_WIDE) return !fits && !narrow.first;
    if (!fits || code != DNORM_FINE || dnorm_star_32_reverse(&narrow).code != DNORM_FINE) return false;
    for (size_t i = 0; i < wide->arcs; i++) {
        is_right = is_right && narrow.tails[i] == wide->tails[i] && narrow.heads[i] == wide->heads[i];
        is_right = is_right && narrow.a[i] == wide->a[i] && !narrow.b == !wide->b;
        if (wide->b) is_right = is_right && narrow.b[i] == wide->b[i] && narrow.c[i] == wide->c[i];
    }
    for (int64_t v = 0; v <= wide->nodes; v++) is_right = is_right && (size_t)narrow.first[v] == wide->first[v];
    is_right = is_right && print_dnorm_star_32(&narrow, false);
    dnorm_star_32_free(&narrow);
    return is_right && !narrow.into;
}

static int star(uint8_t form) {
    dnorm graph = DNORM_NONE;
    dnorm_star made;
    bool is_right;
    size_t three[3] = {9, 9, 9};
    dnorm_status status = dnorm_read_fd(&graph, 0);
    if (status.code == DNORM_FINE) status = dnorm_star_make(&graph, form, &made);
    if (status.code == DNORM_FINE) status = dnorm_star_reverse(&made);
    if (status.code != DNORM_FINE) {
        dnorm_free(&graph);
        return say(status);
    }
    /* A room for two numbers has the first two. */
    if (dnorm_first_arcs(&graph, form, three, 2).count != (made.nodes ? 2 : 1) || three[2] != 9) return 1;
    if (made.nodes && three[1] != made.first[1]) return 1;
    is_right = is_narrowed(&graph, form, &made);
    dnorm_free(&graph);
    is_right = print_dnorm_star(&made, true) && is_right;
    puts("");
    dnorm_star_free(&made);
    return !is_right || made.first || made.heads;
}

static int narrow(uint8_t form, size_t room) {
    dnorm graph = DNORM_NONE;
    dnorm_place place = DNORM_FIRST;
    static int32_t columns[4][MANY];
    const dnorm_arc_columns_32 out = {columns[0], columns[1], columns[2], NULL, columns[3]};
    dnorm_status status = dnorm_read_fd(&graph, 0);
    dnorm_count some = {room, DNORM_FINE};
    while (status.code == DNORM_FINE && some.count == room) {
        some = dnorm_columns_32(&graph, form, &place, out, room);
        status.code = some.code;
        for (size_t i = 0; i < some.count; i++) {
            printf("%d %d %d %d\n", columns[0][i], columns[1][i], columns[2][i], columns[3][i]);
        }
    }
    if (status.code == DNORM_TOO_WIDE) {
        /* The place is before the arc that does not fit. */
        dnorm_arc arc;
        if (dnorm_next(&graph, form, &place, &arc, 1).count != 1) return 1;
        printf("%" PRId64 " %" PRId64 " %" PRId64 ": ", arc.tail, arc.head, arc.a);
    }
    dnorm_free(&graph);
    return status.code == DNORM_FINE ? 0 : say(status);
}

int main(int count, char **words) {
    const char *mode = count > 1 ? words[1] : "";
    if (!strcmp(mode, "codes")) return codes();
    if (!strcmp(mode, "read") && count > 2) return read_by(words[2], count > 3 ? words[3] : NULL);
    if (!strcmp(mode, "signals")) return signals();
    if (!strcmp(mode, "broken")) return broken();
    if (!strcmp(mode, "star") && count > 2) return star((uint8_t)atoi(words[2]));
    if (!strcmp(mode, "narrow") && count > 3) return narrow((uint8_t)atoi(words[2]), (size_t)atoi(words[3]));
    return 2;
}
