/* baxhiso.c: asks an index file for keys and values, and writes new ones, through the C interface and nothing else (./baxhiso --help).
 *
 * A file is read whole, and admitted before it is asked: from then on each answer is exact (include/baxhiso.h). The keys of a range
 * come in pages, and the next page starts after the last key of the one before; so do the items of several files.
 */
#define _POSIX_C_SOURCE 200809L
#include <errno.h>
#include <signal.h>
#include <stdio.h>
#include <stdlib.h>
#include <string.h>
#include <sys/stat.h>
#include <unistd.h>

#include "baxhiso.h"

/* The exit status. A reader that has read enough ends a listing as SIGPIPE does. */
enum { FOUND = 0, NONE = 1, TROUBLE = 2, REFUSED = 3, READER_GONE = 141 };

/* How many keys are asked for at a time. */
enum { PAGE = 256 };

static const char usage_line[] =
    "usage: baxhiso get FILE KEY | key FILE NUMBER | range FILE [BOUNDS] [--limit N] | find FILE PATTERN [BOUNDS] [--limit N] | list FILE | count FILE [BOUNDS] | check FILE | info FILE | convert OLD NEW | pack LIST NEW | union|intersection|difference|symmetric-difference FILE... [BOUNDS] [--limit N]\n";

static const char help_text[] =
    "\n"
    "    get FILE KEY       the value of a key\n"
    "    key FILE NUMBER    a key with this value, decimal, at most 18446744073709551615\n"
    "    range FILE         the keys between two bounds with their values, the least first\n"
    "        --from KEY       from this key on          --after KEY    from behind it\n"
    "        --to KEY         up to this key            --below KEY    up to before it\n"
    "        --limit N        at most so many\n"
    "    find FILE PATTERN  the keys that fit, between bounds and up to a limit as for range: ? is any byte, a last * any rest, \\ takes the\n"
    "                       next character as it is; with --hex, ?? is any byte, and a last * any rest\n"
    "    list FILE          all keys with their values, the least first\n"
    "    count FILE         how many keys lie between the bounds, given as for range; all keys where none is given\n"
    "    check FILE         whether the file is admitted, or why not\n"
    "    info FILE          what header and trailer say: size, version, type, keys, root, checksum; read, not judged\n"
    "    convert OLD NEW    a file of version 1 brought to version 2: the same keys and values, and an index in wide nodes\n"
    "    pack LIST NEW      a file of your own: each line of LIST has a key, a tab and a number, in any order, no key twice\n"
    "    union FILE...      of one to eight files the keys that one holds; intersection: that all hold; difference: that the first\n"
    "                       holds and no other; symmetric-difference: that an odd number hold; bounds and --limit as for range\n"
    "\n"
    "FILE, OLD and LIST may be -, for standard input. It is admitted first, whole; only info opens it and looks no further. A file has at most\n"
    "4294967295 bytes; admission takes 10 bytes of memory for each, counting 18, converting 14 and two for the new file.\n"
    "NEW is written beside its place and put there when it is whole, also over a file that stands there; a refusal writes nothing.\n"
    "\n"
    "Options, after the command's name, in any order:\n"
    "\n"
    "    --hex     keys are given and written in hexadecimal, two digits a byte; the empty key is '' or -, and is written -\n"
    "    --json    one object a line; numbers that may pass 2^53 are strings\n"
    "\n"
    "Standard output has a line for each answer:\n"
    "\n"
    "    3              a value, or a number of keys\n"
    "    at             a key, if each byte prints (20 to 7e) and it does not begin with --\n"
    "    --hex 00ff     any other key, as it may be given back; the empty key is --hex ''\n"
    "    at 3           a key and its value, of range, find and list\n"
    "    at 3@0 7@2     a key and its value in each file that holds it, the files counted from 0, by value and then by file\n"
    "    none           no such key or value, no key between the bounds, or none of them fits or belongs to the operation\n"
    "    size 41        the bytes of the new file\n"
    "    refused 5      the file is not admitted; the refusal's name is on standard error (docs/FORMAT.md, \"Refusals\"), for check beside it\n"
    "\n"
    "A KEY may not begin with --: give it by --hex; nor a PATTERN, of which the first - may be written \\-. By value, final outputs are not counted: in a file that is not numbered (docs/FORMAT.md,\n"
    "\"Lookup\") a key that has the value may be missed, and one that has a final output may be answered.\n"
    "\n"
    "Exit status: 0 found or listed, 1 none, 2 usage, input or output, 3 refused.\n";

static int usage(void)
{
    fputs(usage_line, stderr);
    return TROUBLE;
}

/* ---- progress, once a second, where standard error is a terminal */

static const char *volatile doing = "";
static volatile sig_atomic_t seconds;

static void say(int signal)
{
    const char *what = doing;
    char digits[12];
    size_t n = sizeof digits;
    unsigned int left;
    (void)signal;
    seconds++;
    left = (unsigned int)seconds;
    digits[--n] = 's';
    digits[--n] = ' ';
    do {
        digits[--n] = (char)('0' + left % 10);
        left /= 10;
    } while (left > 0 && n > 0);
    if (*what != '\0') {
        int kept = errno;
        ssize_t ignored = write(STDERR_FILENO, "\r\033[K", 4);
        ignored += write(STDERR_FILENO, what, strlen(what));
        ignored += write(STDERR_FILENO, digits + n, sizeof digits - n);
        (void)ignored;
        errno = kept;
    }
    alarm(1);
}

static void show_progress(void)
{
    struct sigaction act;
    if (!isatty(STDERR_FILENO)) {
        return;
    }
    memset(&act, 0, sizeof act);
    act.sa_handler = say;
    act.sa_flags = SA_RESTART;
    sigaction(SIGALRM, &act, NULL);
    alarm(1);
}

static void now_doing(const char *what)
{
    doing = what;
}

/* The line is taken back before anything else is written. */
static void hide_progress(void)
{
    now_doing("");
    if (seconds > 0) {
        seconds = 0;
        fputs("\r\033[K", stderr);
    }
}

static int trouble(const char *what)
{
    int why = errno;
    hide_progress();
    fprintf(stderr, "baxhiso: %s: %s\n", what, strerror(why));
    return TROUBLE;
}

/* ---- standard output, in pieces of 64 KiB */

static char out[65536];
static size_t out_len;

/* Ends the program where nothing more can be written. */
static void flush_out(void)
{
    size_t n = out_len;
    out_len = 0;
    if (fwrite(out, 1, n, stdout) == n && fflush(stdout) == 0) {
        return;
    }
    exit(errno == EPIPE ? READER_GONE : trouble("standard output"));
}

static void put_bytes(const void *bytes, size_t len)
{
    const char *from = bytes;
    while (len > 0) {
        size_t n = sizeof out - out_len < len ? sizeof out - out_len : len;
        memcpy(out + out_len, from, n);
        out_len += n;
        from += n;
        len -= n;
        if (out_len == sizeof out) {
            flush_out();
        }
    }
}

static void put_text(const char *text)
{
    put_bytes(text, strlen(text));
}

static void put_number(uint64_t n)
{
    char digits[20];
    size_t at = sizeof digits;
    do {
        digits[--at] = (char)('0' + n % 10);
        n /= 10;
    } while (n > 0);
    put_bytes(digits + at, sizeof digits - at);
}

static void put_hex(const uint8_t *key, size_t len)
{
    static const char digits[] = "0123456789abcdef";
    for (size_t i = 0; i < len; i++) {
        const char two[] = { digits[key[i] >> 4], digits[key[i] & 15] };
        put_bytes(two, 2);
    }
}

static int prints(const uint8_t *key, size_t len)
{
    for (size_t i = 0; i < len; i++) {
        if (key[i] < 0x20 || key[i] > 0x7e) {
            return 0;
        }
    }
    return 1;
}

/* ---- what was asked */

typedef struct options {
    int hex, json;
    const fst_bound *lower, *upper;
    uint64_t limit; /* 0 where none is given */
    const uint16_t *positions; /* a pattern, of find alone */
    size_t positions_len;
    int rest;
} options;

/* A key: no two keys are written alike. */
static void put_key(const options *o, const uint8_t *key, size_t len)
{
    if (o->hex) {
        put_hex(key, len);
        put_text(len == 0 ? "-" : "");
    } else if (len > 0 && prints(key, len) && !(len >= 2 && key[0] == '-' && key[1] == '-')) {
        put_bytes(key, len);
    } else {
        put_text(len == 0 ? "--hex ''" : "--hex ");
        put_hex(key, len);
    }
}

/* "key":"at", or "hex":"00ff" where it is asked for or a byte does not print. */
static void put_json_key(const options *o, const uint8_t *key, size_t len)
{
    if (o->hex || !prints(key, len)) {
        put_text("\"hex\":\"");
        put_hex(key, len);
    } else {
        put_text("\"key\":\"");
        for (size_t i = 0; i < len; i++) {
            put_text(key[i] == '"' || key[i] == '\\' ? "\\" : "");
            put_bytes(key + i, 1);
        }
    }
    put_text("\"");
}

/* A key with its value, as range and list have it; get and key leave out what was given. */
static void put_pair(const options *o, const uint8_t *key, size_t len, uint64_t value, int with_key, int with_value)
{
    if (o->json) {
        put_text("{");
        put_json_key(o, key, len);
        put_text(",\"value\":\"");
        put_number(value);
        put_text("\"}\n");
        return;
    }
    if (with_key) {
        put_key(o, key, len);
    }
    put_text(with_key && with_value ? " " : "");
    if (with_value) {
        put_number(value);
    }
    put_text("\n");
}

/* ---- refusals */

static const char *meaning(int32_t refusal)
{
    switch (refusal) {
    case FST_ERR_SHORT:   return "the file has 1 to 31 bytes, or under 36 in version 3";
    case FST_ERR_VERSION: return "the version is not 1, 2 or 3";
    case FST_ERR_ROOT:    return "the root address does not fit the version and the length";
    case FST_ERR_LARGE:   return "the file is over 4294967295 bytes";
    case FST_ERR_NODE:    return "a node is not sound, the chain of nodes is broken, or a target is no node";
    case FST_ERR_DEEP:    return "a path has 256 bytes";
    case FST_ERR_SUM:     return "a sum passes 2^64 - 1";
    case FST_ERR_SPACE:   return "a buffer is too short";
    case FST_ERR_BOUND:   return "a bound is over 255 bytes";
    case FST_ERR_PATTERN: return "the pattern has over 255 positions";
    case FST_ERR_LIST:    return "the list of keys breaks a rule";
    case FST_ERR_EDITION: return "the file is not of version 1";
    case FST_ERR_COUNT:   return "the file has more than 2^64 - 1 keys";
    default:              return "the file changed, or memory is at fault";
    }
}

static int refused(const options *o, int32_t refusal, int name_it)
{
    hide_progress();
    if (o->json) {
        put_text("{\"refused\":");
        put_number((uint64_t)refusal);
        put_text(",\"name\":\"");
        put_text(fst_result_name(refusal));
        put_text("\",\"meaning\":\"");
        put_text(meaning(refusal));
        put_text("\"}\n");
        flush_out();
        return REFUSED;
    }
    put_text("refused ");
    put_number((uint64_t)refusal);
    if (name_it) {
        put_text(" ");
        put_text(fst_result_name(refusal));
        put_text(": ");
        put_text(meaning(refusal));
    }
    put_text("\n");
    flush_out();
    if (!name_it) {
        fprintf(stderr, "baxhiso: refused %d %s: %s\n", (int)refusal, fst_result_name(refusal), meaning(refusal));
    }
    return REFUSED;
}

static int none(const options *o, const char *json)
{
    hide_progress();
    put_text(o->json ? json : "none\n");
    flush_out();
    return NONE;
}

/* ---- the file */

typedef struct card {
    uint8_t *bytes;
    size_t len;
    uint64_t *counts; /* the table of keys, where it was asked for */
} card;

/* Whether a file has more to be read than the longest file has; what is no file on a disk, as a pipe, does not say. */
static int says_too_long(FILE *in)
{
    struct stat about;
    long here = ftell(in);
    return here >= 0 && fstat(fileno(in), &about) == 0 && S_ISREG(about.st_mode) && about.st_size > here &&
           (uint64_t)about.st_size - (uint64_t)here > FST_MAX_LEN;
}

/* Reads what a file has, and at most one byte more than the longest file has, so that a longer one is refused and not cut. The
 * buffer is doubled as it fills. NULL where memory does not suffice. */
static uint8_t *read_whole(FILE *in, size_t *len)
{
    const uint64_t most = FST_MAX_LEN + 1;
    uint64_t space = 65536;
    uint8_t *file = malloc(space);
    *len = file == NULL ? 0 : fread(file, 1, space, in);
    while (file != NULL && *len == space && space < most) {
        uint8_t *larger;
        space = space < most / 2 ? space * 2 : most;
        larger = realloc(file, space);
        if (larger == NULL) {
            free(file);
        } else {
            *len += fread(larger + *len, 1, space - *len, in);
        }
        file = larger;
    }
    return file;
}

/* The file's bytes, or FST_ERR_LARGE; the program ends where it cannot be read. A file that says so is refused unread: LARGE is
 * judged by the length alone. */
static int32_t load(const char *path, card *c)
{
    int standard = strcmp(path, "-") == 0;
    FILE *in = standard ? stdin : fopen(path, "rb");
    if (in == NULL) {
        exit(trouble(path));
    }
    if (says_too_long(in)) {
        return FST_ERR_LARGE;
    }
    now_doing("reading the file, ");
    c->bytes = read_whole(in, &c->len);
    if (c->bytes == NULL) {
        exit(trouble("no memory for the file"));
    }
    if (ferror(in)) {
        exit(trouble(standard ? "standard input" : path));
    }
    fclose(in);
    return FST_OK;
}

/* Admits a file that opens, and counts its keys where asked. The tables have an entry for each byte. */
static int32_t admit(card *c, int with_counts)
{
    fst_meta meta;
    int32_t result = fst_open(c->bytes, c->len, &meta);
    if (result != FST_OK) {
        return result;
    }
    /* a blank card has no bytes, and malloc may give NULL for none */
    const size_t entries = c->len > 0 ? c->len : 1;
    uint16_t *depths = malloc(entries * sizeof *depths);
    uint64_t *sums = malloc(entries * sizeof *sums);
    uint64_t *counts = with_counts ? malloc(entries * sizeof *counts) : NULL;
    if (depths == NULL || sums == NULL || (with_counts && counts == NULL)) {
        exit(trouble("no memory for the work tables"));
    }
    now_doing("admitting the file, ");
    result = with_counts ? fst_count(c->bytes, c->len, depths, c->len, sums, c->len, counts, c->len)
                         : fst_admit(c->bytes, c->len, depths, c->len, sums, c->len);
    free(depths);
    free(sums);
    c->counts = counts;
    return result;
}

/* ---- the commands, each on an admitted file */

static int do_get(const options *o, const card *c, const uint8_t *key, size_t len)
{
    uint64_t value;
    int32_t result = fst_get(c->bytes, c->len, key, len, &value);
    if (result == FST_OK) {
        hide_progress();
        put_pair(o, key, len, value, 0, 1);
        flush_out();
        return FOUND;
    }
    return result == FST_NONE ? none(o, "{\"value\":null}\n") : refused(o, result, 0);
}

static int do_key(const options *o, const card *c, uint64_t value)
{
    uint8_t key[FST_KEY_SPACE];
    size_t len;
    int32_t result = fst_get_key(c->bytes, c->len, value, key, sizeof key, &len);
    if (result == FST_OK) {
        hide_progress();
        put_pair(o, key, len, value, 1, 0);
        flush_out();
        return FOUND;
    }
    return result == FST_NONE ? none(o, "{\"key\":null}\n") : refused(o, result, 0);
}

static int do_count(const options *o, const card *c)
{
    fst_reading reading;
    int32_t result = fst_start(c->bytes, c->len, o->lower, o->upper, c->counts, c->len, &reading);
    if (result != FST_OK) {
        return refused(o, result, 0);
    }
    hide_progress();
    put_text(o->json ? "{\"count\":\"" : "");
    put_number(fst_to_come(&reading));
    put_text(o->json ? "\"}\n" : "\n");
    flush_out();
    return FOUND;
}

static int do_check(const options *o)
{
    hide_progress();
    put_text(o->json ? "{\"admitted\":true}\n" : "admitted\n");
    flush_out();
    return FOUND;
}

static void put_fact(const options *o, const char *name, uint64_t n, int large, int known)
{
    put_text(o->json ? ",\"" : "");
    put_text(name);
    put_text(o->json ? (large ? "\":\"" : "\":") : " ");
    if (known) {
        put_number(n);
    } else {
        put_text(o->json ? "null" : "none");
    }
    put_text(o->json ? (large ? "\"" : "") : "\n");
}

static int do_info(const options *o, const card *c)
{
    fst_meta meta;
    int32_t result = fst_open(c->bytes, c->len, &meta);
    if (result != FST_OK) {
        return refused(o, result, 0);
    }
    hide_progress();
    put_text(o->json ? "{\"size\":" : "size ");
    put_number(c->len);
    put_text(o->json ? "" : "\n");
    put_fact(o, "version", meta.version, 0, 1);
    put_fact(o, "type", meta.type, 1, 1);
    put_fact(o, "keys", meta.keys, 1, 1);
    put_fact(o, "root", meta.root, 0, 1);
    put_fact(o, "checksum", meta.checksum, 0, meta.checksum != FST_NO_CHECKSUM);
    put_text(o->json ? "}\n" : "");
    flush_out();
    return FOUND;
}

/* ---- files written */

/* The mode of a new file: that of the one in its place, or what the umask leaves. A place that is no regular file is not written over. */
static mode_t mode_for(const char *path)
{
    struct stat about;
    mode_t mask;
    if (stat(path, &about) == 0) {
        if (!S_ISREG(about.st_mode)) {
            errno = S_ISDIR(about.st_mode) ? EISDIR : EEXIST;
            exit(trouble(path));
        }
        return about.st_mode & 0777;
    }
    mask = umask(0);
    umask(mask);
    return 0666 & ~mask;
}

/* Writes the bytes beside the path, and renames them into place when they are on the disk. The program ends where that cannot be done, and what
 * stood in the place stays. */
static void put_in_place(const char *path, const uint8_t *bytes, size_t len)
{
    static const char tail[] = ".XXXXXX";
    size_t n = strlen(path);
    char *beside = malloc(n + sizeof tail);
    mode_t mode = mode_for(path);
    FILE *to;
    int fd;
    if (beside == NULL) {
        exit(trouble("no memory for a name"));
    }
    memcpy(beside, path, n);
    memcpy(beside + n, tail, sizeof tail);
    fd = mkstemp(beside);
    if (fd < 0) {
        exit(trouble(path));
    }
    now_doing("writing the file, ");
    to = fdopen(fd, "wb");
    if (to == NULL || fwrite(bytes, 1, len, to) != len || fflush(to) != 0 || fchmod(fd, mode) != 0 || fsync(fd) != 0 || fclose(to) != 0 ||
        rename(beside, path) != 0) {
        int why = errno;
        unlink(beside);
        errno = why;
        exit(trouble(path));
    }
    free(beside);
}

static int do_written(const options *o, const char *path, const uint8_t *bytes, size_t len)
{
    put_in_place(path, bytes, len);
    hide_progress();
    put_text(o->json ? "{\"size\":" : "size ");
    put_number(len);
    put_text(o->json ? "}\n" : "\n");
    flush_out();
    return FOUND;
}

/* Doubles a buffer, up to the longest file. The bytes need not be kept. 0 where it cannot grow. */
static int grow(uint8_t **buffer, size_t *space)
{
    if (*space >= FST_MAX_LEN) {
        return 0;
    }
    *space = *space < FST_MAX_LEN / 2 ? *space * 2 : FST_MAX_LEN;
    free(*buffer);
    *buffer = malloc(*space);
    if (*buffer == NULL) {
        exit(trouble("no memory for the new file"));
    }
    return 1;
}

static int do_convert(const options *o, const card *c, const char *path)
{
    const size_t entries = c->len > 0 ? c->len : 1;
    uint16_t *depths = malloc(entries * sizeof *depths);
    uint64_t *sums = malloc(entries * sizeof *sums);
    uint32_t *table = malloc(entries * sizeof *table);
    /* an index is 256 bytes more for a node of at least 33 transitions, so twice the length is seldom too little */
    size_t space = entries, len = 0;
    uint8_t *bytes = NULL;
    int32_t result;
    if (depths == NULL || sums == NULL || table == NULL) {
        exit(trouble("no memory for the work tables"));
    }
    grow(&bytes, &space);
    now_doing("converting the file, ");
    do {
        result = fst_convert(c->bytes, c->len, depths, c->len, sums, c->len, bytes, space, table, c->len, &len);
    } while (result == FST_ERR_SPACE && grow(&bytes, &space));
    return result == FST_OK ? do_written(o, path, bytes, len) : refused(o, result, 0);
}

/* ---- a list of lines packed */

typedef struct line {
    const uint8_t *key;
    size_t len, number; /* the line's number, from 1 */
    uint64_t value;
} line;

static int by_key(const void *a, const void *b)
{
    const line *x = a, *y = b;
    int order = memcmp(x->key, y->key, x->len < y->len ? x->len : y->len);
    return order != 0 ? order : (x->len > y->len) - (x->len < y->len);
}

/* Lines of one key stay in their order. */
static int by_key_and_number(const void *a, const void *b)
{
    const line *x = a, *y = b;
    int order = by_key(a, b);
    return order != 0 ? order : (x->number > y->number) - (x->number < y->number);
}

static void bad_line(size_t number, const char *why)
{
    hide_progress();
    fprintf(stderr, "baxhiso: line %llu: %s\n", (unsigned long long)number, why);
    exit(TROUBLE);
}

static int number(const char *digits, uint64_t *value);
static int key_bytes(char *word, int hex, const uint8_t **key, size_t *len);

/* The lines of the text, whose last byte is a newline. Each is cut at its newline and its last tab, so that a key may have tabs. */
static line *lines_of(const options *o, char *text, size_t len, size_t *count)
{
    size_t n = 0, at = 0;
    line *lines;
    for (size_t i = 0; i < len; i++) {
        n += text[i] == '\n';
    }
    lines = malloc((n > 0 ? n : 1) * sizeof *lines);
    if (lines == NULL) {
        exit(trouble("no memory for the lines"));
    }
    for (size_t i = 0; i < n; i++) {
        char *from = text + at, *end = memchr(from, '\n', len - at), *tab = end;
        line *l = &lines[i];
        at = (size_t)(end - text) + 1;
        while (tab > from && tab[-1] != '\t') {
            tab--;
        }
        if (tab == from) {
            bad_line(i + 1, "no tab between a key and a number");
        }
        *end = '\0';
        tab[-1] = '\0';
        if (strlen(tab) != (size_t)(end - tab) || !number(tab, &l->value)) {
            bad_line(i + 1, "what follows the tab is no number from 0 to 18446744073709551615");
        }
        l->key = (const uint8_t *)from;
        l->len = (size_t)(tab - 1 - from);
        l->number = i + 1;
        if (o->hex && (strlen(from) != l->len || !key_bytes(from, 1, &l->key, &l->len))) {
            bad_line(i + 1, "the key is not hexadecimal, two digits a byte");
        }
        if (l->len > FST_KEY_SPACE) {
            bad_line(i + 1, "the key is over 255 bytes");
        }
    }
    *count = n;
    return lines;
}

/* The lines as fst_pack takes them, their keys ascending. */
static uint8_t *list_of(const line *lines, size_t n, size_t *len)
{
    size_t total = 0, end = 0;
    uint8_t *list, *ends, *values, *keys;
    for (size_t i = 0; i < n; i++) {
        if (i > 0 && by_key(&lines[i - 1], &lines[i]) == 0) {
            char why[64];
            snprintf(why, sizeof why, "the key stands twice, first in line %llu", (unsigned long long)lines[i - 1].number);
            bad_line(lines[i].number, why);
        }
        total += lines[i].len;
    }
    if (n > UINT32_MAX || total > UINT32_MAX) {
        errno = EFBIG;
        exit(trouble("the list"));
    }
    *len = FST_LIST_LEN(n, total);
    list = malloc(*len);
    if (list == NULL) {
        exit(trouble("no memory for the list"));
    }
    ends = list + 8;
    values = ends + 4 * n;
    keys = values + 8 * n;
    for (int b = 0; b < 4; b++) {
        list[b] = (uint8_t)(n >> (8 * b));
        list[4 + b] = (uint8_t)(total >> (8 * b));
    }
    for (size_t i = 0; i < n; i++) {
        memcpy(keys + end, lines[i].key, lines[i].len);
        end += lines[i].len;
        for (int b = 0; b < 8; b++) {
            values[8 * i + (size_t)b] = (uint8_t)(lines[i].value >> (8 * b));
        }
        for (int b = 0; b < 4; b++) {
            ends[4 * i + (size_t)b] = (uint8_t)(end >> (8 * b));
        }
    }
    return list;
}

static int do_pack(const options *o, card *c, const char *path)
{
    const size_t most_cells = (size_t)1 << 22;
    size_t n, list_len, space, len = 0, cells_len;
    char *text = (char *)c->bytes;
    line *lines;
    uint8_t *list, *bytes = NULL, *inputs = malloc(FST_PACK_TABLE);
    uint64_t *leasts = malloc(FST_PACK_TABLE * sizeof *leasts);
    size_t *targets = malloc(FST_PACK_TABLE * sizeof *targets);
    fst_cell *cells;
    int32_t result;
    if (c->len > 0 && text[c->len - 1] != '\n') {
        text = realloc(text, c->len + 1);
        if (text == NULL) {
            exit(trouble("no memory for the list"));
        }
        text[c->len++] = '\n';
    }
    now_doing("sorting the list, ");
    lines = lines_of(o, text, c->len, &n);
    qsort(lines, n, sizeof *lines, by_key_and_number);
    list = list_of(lines, n, &list_len);
    /* with a row for each key, hardly a node is stored twice */
    cells_len = 2 * n < FST_PACK_CELLS ? FST_PACK_CELLS : 2 * n > most_cells ? most_cells : 2 * n;
    cells = malloc(cells_len * sizeof *cells);
    if (inputs == NULL || leasts == NULL || targets == NULL || cells == NULL) {
        exit(trouble("no memory for the work tables"));
    }
    space = list_len / 2 + 32;
    grow(&bytes, &space);
    now_doing("packing the list, ");
    do {
        result = fst_pack(list, list_len, bytes, space, cells, cells_len, inputs, FST_PACK_TABLE, leasts, FST_PACK_TABLE, targets, FST_PACK_TABLE, &len);
    } while (result == FST_ERR_SPACE && grow(&bytes, &space));
    if (result == FST_OK) {
        /* proved, and checked all the same: the file is read by others for years */
        card made = { bytes, len, NULL };
        result = admit(&made, 0);
    }
    return result == FST_OK ? do_written(o, path, bytes, len) : refused(o, result, 0);
}

/* ---- a range, of keys that fit a pattern or of all, by pages */

static int do_range(const options *o, const card *c)
{
    static fst_row rows[PAGE];
    static uint64_t values[PAGE];
    size_t count;
    fst_bound lower = o->lower == NULL ? (fst_bound){ FST_UNBOUNDED, NULL, 0 } : *o->lower;
    uint8_t last[FST_KEY_SPACE];
    uint64_t left = o->limit == 0 ? UINT64_MAX : o->limit;
    int found = 0, to_screen = isatty(STDOUT_FILENO);
    int32_t result = FST_MORE;
    now_doing(to_screen ? "" : "listing, ");
    while (result == FST_MORE && left > 0) {
        size_t most = left < PAGE ? (size_t)left : PAGE;
        result = o->positions == NULL ? fst_range(c->bytes, c->len, &lower, o->upper, most, rows, values, &count)
                                      : fst_find(c->bytes, c->len, o->positions, o->positions_len, o->rest, &lower, o->upper, most, rows, values, &count);
        if (to_screen || !found) {
            hide_progress();
            now_doing(to_screen ? "" : "listing, ");
        }
        for (size_t i = 0; i < count; i++) {
            put_pair(o, rows[i].key, rows[i].len, values[i], 1, 1);
        }
        if (to_screen) {
            flush_out();
        }
        if (count > 0) {
            /* the next page starts after the last key of this one */
            found = 1;
            memcpy(last, rows[count - 1].key, rows[count - 1].len);
            lower = (fst_bound){ FST_EXCLUDED, last, rows[count - 1].len };
        }
        left -= count;
    }
    if (result > 0) {
        return refused(o, result, 0);
    }
    if (!found) {
        return none(o, "");
    }
    flush_out();
    hide_progress();
    return FOUND;
}

/* ---- several files as one, by pages */

/* A key with its value in each file that holds it. */
static void put_item(const options *o, const fst_row *row, size_t count, const uint8_t *numbers, const uint64_t *values)
{
    put_text(o->json ? "{" : "");
    if (o->json) {
        put_json_key(o, row->key, row->len);
    } else {
        put_key(o, row->key, row->len);
    }
    put_text(o->json ? ",\"values\":[" : "");
    for (size_t i = 0; i < count; i++) {
        put_text(!o->json ? " " : i == 0 ? "{\"value\":\"" : ",{\"value\":\"");
        put_number(values[i]);
        put_text(o->json ? "\",\"file\":" : "@");
        put_number(numbers[i]);
        put_text(o->json ? "}" : "");
    }
    put_text(o->json ? "]}\n" : "\n");
}

static int do_items(const options *o, uint64_t op, const fst_file *files, size_t n)
{
    static fst_row rows[PAGE];
    static uint8_t counts[PAGE], numbers[PAGE][FST_FILES];
    static uint64_t values[PAGE][FST_FILES];
    size_t count;
    fst_bound lower = o->lower == NULL ? (fst_bound){ FST_UNBOUNDED, NULL, 0 } : *o->lower;
    uint8_t last[FST_KEY_SPACE];
    uint64_t left = o->limit == 0 ? UINT64_MAX : o->limit;
    int found = 0, to_screen = isatty(STDOUT_FILENO);
    int32_t result = FST_MORE;
    now_doing(to_screen ? "" : "listing, ");
    while (result == FST_MORE && left > 0) {
        size_t most = left < PAGE ? (size_t)left : PAGE;
        result = fst_items(op, files, n, &lower, o->upper, most, rows, counts, numbers, values, &count);
        if (to_screen || !found) {
            hide_progress();
            now_doing(to_screen ? "" : "listing, ");
        }
        for (size_t i = 0; i < count; i++) {
            put_item(o, &rows[i], counts[i], numbers[i], values[i]);
        }
        if (to_screen) {
            flush_out();
        }
        if (count > 0) {
            /* the next page starts after the last key of this one */
            found = 1;
            memcpy(last, rows[count - 1].key, rows[count - 1].len);
            lower = (fst_bound){ FST_EXCLUDED, last, rows[count - 1].len };
        }
        left -= count;
    }
    if (result > 0) {
        return refused(o, result, 0);
    }
    if (!found) {
        return none(o, "");
    }
    flush_out();
    hide_progress();
    return FOUND;
}

/* ---- arguments */

/* Reads a decimal number; 0 where it is none, or passes 2^64 - 1. strtoull would take a sign, blanks and a tail. */
static int number(const char *digits, uint64_t *value)
{
    *value = 0;
    for (const char *d = digits; *d != '\0'; d++) {
        uint64_t digit = (uint64_t)(*d - '0');
        if (*d < '0' || *d > '9' || *value > (UINT64_MAX - digit) / 10) {
            return 0;
        }
        *value = *value * 10 + digit;
    }
    return *digits != '\0';
}

static int hex_digit(char c)
{
    const char *digits = "0123456789abcdef";
    const char *at = c == '\0' ? NULL : strchr(digits, c >= 'A' && c <= 'F' ? c - 'A' + 'a' : c);
    return at == NULL ? -1 : (int)(at - digits);
}

/* A key's bytes, hexadecimal digits turned into bytes where they stand; 0 where it cannot be one. */
static int key_bytes(char *word, int hex, const uint8_t **key, size_t *len)
{
    size_t n = strlen(word);
    *key = (const uint8_t *)word;
    *len = n;
    if (!hex) {
        return strncmp(word, "--", 2) != 0;
    }
    *len = n / 2;
    if (strcmp(word, "-") == 0) {
        return 1;
    }
    for (size_t i = 0; i < *len; i++) {
        int high = hex_digit(word[2 * i]), low = hex_digit(word[2 * i + 1]);
        if (high < 0 || low < 0) {
            return 0;
        }
        ((uint8_t *)word)[i] = (uint8_t)(high * 16 + low);
    }
    return n % 2 == 0;
}

/* A pattern's positions; 0 where it cannot be one. A * is any rest where it stands last, and nothing else: one that was meant otherwise is not taken for
 * a byte in silence. */
static int pattern(const char *word, options *o)
{
    size_t n = strlen(word);
    uint16_t *positions = malloc((n > 0 ? n : 1) * sizeof *positions);
    if (positions == NULL) {
        exit(trouble("no memory for the pattern"));
    }
    o->positions = positions;
    if (o->hex && strcmp(word, "-") == 0) {
        return 1;
    }
    for (const char *at = word; *at != '\0'; at++) {
        uint16_t *next = &positions[o->positions_len];
        if (*at == '*') {
            o->rest = 1;
            return at[1] == '\0';
        }
        if (o->hex) {
            int high = hex_digit(at[0]), low = hex_digit(at[1]);
            if (at[0] == '?' && at[1] == '?') {
                *next = FST_ANY_BYTE;
            } else if (high < 0 || low < 0) {
                return 0;
            } else {
                *next = (uint16_t)(high * 16 + low);
            }
            at++;
        } else if (*at == '?') {
            *next = FST_ANY_BYTE;
        } else {
            at += *at == '\\';
            if (*at == '\0') {
                return 0;
            }
            *next = (uint8_t)*at;
        }
        o->positions_len++;
    }
    return 1;
}

/* The last four stand in the order of FST_UNION to FST_SYMMETRIC_DIFFERENCE. */
enum { GET, KEY, RANGE, FIND, LIST, COUNT, CHECK, INFO, CONVERT, PACK, UNION, INTERSECTION, DIFFERENCE, SYMMETRIC_DIFFERENCE, COMMANDS };

static const struct {
    const char *name;
    int least, most; /* words after the name */
    int bounds, limit, keys;
} commands[COMMANDS] = {
    { "get", 2, 2, 0, 0, 1 },   { "key", 2, 2, 0, 0, 1 },   { "range", 1, 1, 1, 1, 1 }, { "find", 2, 2, 1, 1, 1 },
    { "list", 1, 1, 0, 0, 1 },
    { "count", 1, 1, 1, 0, 1 }, { "check", 1, 1, 0, 0, 0 }, { "info", 1, 1, 0, 0, 0 },  { "convert", 2, 2, 0, 0, 0 },
    { "pack", 2, 2, 0, 0, 1 },  { "union", 1, FST_FILES, 1, 1, 1 },      { "intersection", 1, FST_FILES, 1, 1, 1 },
    { "difference", 1, FST_FILES, 1, 1, 1 },                { "symmetric-difference", 1, FST_FILES, 1, 1, 1 },
};

/* Loads and admits each file, then merges them. A refusal names its file on standard error, where there are several. */
static int load_and_merge(const options *o, uint64_t op, char **paths, size_t n)
{
    fst_file files[FST_FILES];
    for (size_t i = 0; i < n; i++) {
        card c = { NULL, 0, NULL };
        int32_t result = load(paths[i], &c);
        if (result == FST_OK) {
            result = admit(&c, 0);
        }
        if (result != FST_OK) {
            hide_progress();
            if (n > 1) {
                fprintf(stderr, "baxhiso: %s:\n", paths[i]);
            }
            return refused(o, result, 0);
        }
        files[i] = (fst_file){ c.bytes, c.len };
    }
    return do_items(o, op, files, n);
}

/* What follows an option; NULL where nothing does, or another option. */
static char *after(int argc, char **argv, int *i)
{
    return *i + 1 < argc && strncmp(argv[*i + 1], "--", 2) != 0 ? argv[++*i] : NULL;
}

int main(int argc, char **argv)
{
    static const struct {
        const char *name;
        int upper, kind;
    } bounds[] = { { "--from", 0, FST_INCLUDED }, { "--after", 0, FST_EXCLUDED }, { "--to", 1, FST_INCLUDED }, { "--below", 1, FST_EXCLUDED } };
    options o = { 0, 0, NULL, NULL, 0, NULL, 0, 0 };
    fst_bound given[2];
    char *bound_words[2] = { NULL, NULL }, *words[FST_FILES] = { NULL };
    int command = 0, found = 0;
    const uint8_t *key = NULL;
    size_t key_len = 0;
    uint64_t value = 0;
    card c = { NULL, 0, NULL };
    int32_t result;

    if (argc == 2 && strcmp(argv[1], "--help") == 0) {
        put_text(usage_line);
        put_text(help_text);
        flush_out();
        return FOUND;
    }
    if (argc == 2 && strcmp(argv[1], "--version") == 0) {
        put_text("baxhiso " BAXHISO_VERSION "\n");
        flush_out();
        return FOUND;
    }
    while (argc > 1 && command < COMMANDS && strcmp(argv[1], commands[command].name) != 0) {
        command++;
    }
    if (argc < 2 || command == COMMANDS) {
        return usage();
    }
    for (int i = 2; i < argc; i++) {
        char *word = argv[i];
        if (strncmp(word, "--", 2) != 0) {
            if (found == commands[command].most) {
                return usage();
            }
            words[found++] = word;
        } else if (strcmp(word, "--json") == 0) {
            o.json = 1;
        } else if (strcmp(word, "--hex") == 0 && commands[command].keys) {
            o.hex = 1;
        } else if (strcmp(word, "--limit") == 0 && commands[command].limit) {
            char *n = after(argc, argv, &i);
            if (n == NULL || o.limit > 0 || !number(n, &o.limit) || o.limit == 0) {
                return usage();
            }
        } else {
            size_t b = 0;
            while (b < 4 && strcmp(word, bounds[b].name) != 0) {
                b++;
            }
            if (b == 4 || !commands[command].bounds || bound_words[bounds[b].upper] != NULL ||
                (bound_words[bounds[b].upper] = after(argc, argv, &i)) == NULL) {
                return usage();
            }
            given[bounds[b].upper].kind = bounds[b].kind;
        }
    }
    /* options may stand behind what they apply to, so keys are read last */
    if (found < commands[command].least || (command == GET && !key_bytes(words[1], o.hex, &key, &key_len)) ||
        (command == KEY && !number(words[1], &value)) || (command == FIND && !pattern(words[1], &o)) || ((command == CONVERT || command == PACK) && (words[1][0] == '\0' || strcmp(words[1], "-") == 0))) {
        return usage();
    }
    for (int side = 0; side < 2; side++) {
        if (bound_words[side] != NULL) {
            if (!key_bytes(bound_words[side], o.hex, &given[side].key, &given[side].len)) {
                return usage();
            }
            *(side == 0 ? &o.lower : &o.upper) = &given[side];
        }
    }

    show_progress();
    if (command >= UNION) {
        return load_and_merge(&o, (uint64_t)(command - UNION), words, (size_t)found);
    }
    result = load(words[0], &c);
    if (result == FST_OK && command != INFO && command != CONVERT && command != PACK) {
        result = admit(&c, command == COUNT);
    }
    if (result != FST_OK) {
        return refused(&o, result, command == CHECK);
    }
    switch (command) {
    case GET:   return do_get(&o, &c, key, key_len);
    case KEY:   return do_key(&o, &c, value);
    case COUNT: return do_count(&o, &c);
    case CHECK: return do_check(&o);
    case INFO:  return do_info(&o, &c);
    case CONVERT: return do_convert(&o, &c, words[1]);
    case PACK:  return do_pack(&o, &c, words[1]);
    default:    return do_range(&o, &c);
    }
}
