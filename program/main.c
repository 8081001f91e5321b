/* What stands around the one proved call, voltamar_verb (crates/voltamar_cli): arguments become a verb, files become
 * bytes, and the call's bytes and status go out. No rule on sheets stands here, and nothing here is proved. */
#define _DEFAULT_SOURCE /* getentropy; everything else is POSIX.1-2008 */
#include <errno.h>
#include <fcntl.h>
#include <limits.h>
#include <signal.h>
#include <stdint.h>
#include <stdio.h>
#include <string.h>
#include <sys/stat.h>
#include <unistd.h>

#include "../include/voltamar.h"
#include "help.h"
#include "sha256.h"

/* Crate voltamar_cli. A slice is a pointer and a length; the answer is the exit status. */
uint8_t voltamar_verb(uint8_t verb, const uint8_t *first_name, size_t first_name_length, const uint8_t *first,
                      size_t first_length, const uint8_t *second_name, size_t second_name_length, const uint8_t *second,
                      size_t second_length, const uint8_t *first_digest, size_t first_digits,
                      const uint8_t *second_digest, size_t second_digits, uint8_t *out, size_t out_room, uint8_t *err,
                      size_t err_room, size_t *out_length, size_t *err_length);

enum status { DONE = 0, REFUSED = 1, TROUBLE = 2 };
enum number { NO_CALL = 0, CHECK, SECTION, COMPILE, READ, NOTICE, PAGE, SHOW, SHOW_COMMANDS, BENCH };
enum option { OUTPUT = 1, FORCE = 2, REPORT = 4, NO_DIGEST = 8, COMMANDS = 16, HELP = 32 };

/* One sample more than a run takes, which is also longer than any sheet or stream: the first bytes of a longer file
 * decide, as they do for the whole file. */
enum { WORD = 4, ROOM = WORD * (VOLTAMAR_MOST_SAMPLES + 1), NAME_ROOM = PATH_MAX, CUT = 60, TAG_ROOM = 24 };

static struct input {
    char name[NAME_ROOM]; /* as it is shown */
    const uint8_t *bytes;
    size_t length;
    dev_t device; /* 0 where the input is no file */
    ino_t inode;
} first, second;
static uint8_t first_room[ROOM], second_room[ROOM], out[65536 + 2 * NAME_ROOM], err[4096 + 2 * NAME_ROOM];

static const struct verb {
    const char *name;
    enum number number;
    int operands, options;
    const char *twice, *usage, *more;
} verbs[] = {
    {"check", CHECK, 1, 0, NULL, USAGE_CHECK, MORE_CHECK}, /* one or more */
    {"section", SECTION, 2, OUTPUT | FORCE, NULL, USAGE_SECTION, MORE_SECTION},
    {"compile", COMPILE, 1, OUTPUT | FORCE, NULL, USAGE_COMPILE, MORE_COMPILE},
    {"read", READ, 1, OUTPUT | FORCE, NULL, USAGE_READ, MORE_READ},
    {"notice", NOTICE, 2, OUTPUT | REPORT | NO_DIGEST, "cannot be both sheets", USAGE_NOTICE, MORE_NOTICE},
    {"show", SHOW, 1, COMMANDS, NULL, USAGE_SHOW, MORE_SHOW},
    {"bench", BENCH, 2, OUTPUT | FORCE, "cannot be both the sheet and the words", USAGE_BENCH, MORE_BENCH},
    {"help", NO_CALL, 0, 0, NULL, USAGE_HELP, MORE_HELP},
};
enum { VERBS = sizeof verbs / sizeof *verbs };

/* ---- what is said */

static int write_all(int fd, const void *bytes, size_t n) {
    for (size_t done = 0; done < n;) {
        ssize_t k = write(fd, (const char *)bytes + done, n - done);
        if (k == 0) errno = EIO;
        if (k <= 0 && errno != EINTR) return 0;
        if (k > 0) done += (size_t)k;
    }
    return 1;
}

static int complain(const char *name, const char *what) {
    dprintf(STDERR_FILENO, "%s: %s\n", name, what);
    return TROUBLE;
}

/* What the system said of a file, where that is plain, and otherwise `what`. */
static int trouble(const char *name, int error, const char *what) {
    return complain(name, error == ENOENT         ? "no such file"
                          : error == EISDIR       ? "is a directory"
                          : error == EACCES       ? "permission denied"
                          : error == ENAMETOOLONG ? "name too long"
                                                  : what);
}

static int write_result(const void *bytes, size_t n) {
    return write_all(STDOUT_FILENO, bytes, n) ? DONE : complain("standard output", "cannot be written");
}

static int to_standard_output(const char *text) { return write_result(text, strlen(text)); }

/* The UTF-8 character at s: how many bytes it has, and its code; 0 where there is none. */
static size_t character(const char *s, uint32_t *code) {
    static const uint32_t least[] = {0, 0x80, 0x800, 0x10000};
    const unsigned char *b = (const unsigned char *)s;
    size_t more = b[0] < 0x80 ? 0 : b[0] >> 5 == 6 ? 1 : b[0] >> 4 == 14 ? 2 : b[0] >> 3 == 30 ? 3 : 4;
    if (more == 4) return 0;
    *code = more == 0 ? b[0] : b[0] & 0x3fu >> more;
    for (size_t i = 1; i <= more; i++) {
        if (b[i] >> 6 != 2) return 0;
        *code = *code << 6 | (b[i] & 0x3fu);
    }
    return *code < least[more] || *code > 0x10ffff || (*code >= 0xd800 && *code <= 0xdfff) ? 0 : more + 1;
}

/* Not a control character, nor one that ends a line or turns the direction of the text around. */
static int is_plain(uint32_t c) {
    return c >= 0x20 && !(c >= 0x7f && c <= 0x9f) && c != 0x61c && c != 0x200e && c != 0x200f &&
           !(c >= 0x2028 && c <= 0x202e) && !(c >= 0x2066 && c <= 0x2069);
}

/* How the file that an argument names is shown: what is not plain as question marks, a name too long for the system
 * without its end. */
static void show_name(char shown[NAME_ROOM], char **argv, int at) {
    size_t most = strlen(argv[at]) < NAME_ROOM ? NAME_ROOM - 1 : CUT, n = 0, size;
    for (const char *s = argv[at]; *s != '\0' && n < most; s += size) {
        uint32_t code = 0;
        size = character(s, &code);
        if (size > 0 && is_plain(code)) {
            memcpy(shown + n, s, size);
            n += size;
        } else {
            shown[n++] = '?';
            if (size == 0) size = 1;
        }
    }
    memcpy(shown + n, most == CUT ? ".." : "", most == CUT ? 3 : 1);
    if (n == 0) snprintf(shown, NAME_ROOM, "argument %d", at);
    if (strcmp(argv[at], "-") == 0) snprintf(shown, NAME_ROOM, "standard input");
}

/* ---- files */

/* A descriptor below 3 that is closed would be given to the first file that is opened. Here it is taken by one that
 * fails to write. */
static int hold_standard_descriptors(void) {
    for (int fd = 0; fd < 3; fd++) {
        if (fcntl(fd, F_GETFD) < 0 && open("/dev/null", O_RDONLY) != fd) return 0;
    }
    return 1;
}

/* Reads to the end of the file, or until the room is full. */
static ssize_t read_all(int fd, uint8_t room[ROOM]) {
    size_t n = 0;
    while (n < ROOM) {
        ssize_t k = read(fd, room + n, ROOM - n);
        if (k == 0) break;
        if (k < 0 && errno != EINTR) return -1;
        if (k > 0) n += (size_t)k;
    }
    return (ssize_t)n;
}

static int load(struct input *in, uint8_t room[ROOM], char **argv, int at) {
    struct stat about;
    int is_standard = strcmp(argv[at], "-") == 0;
    int fd = is_standard ? STDIN_FILENO : open(argv[at], O_RDONLY | O_NOCTTY);
    ssize_t n = fd < 0 || fstat(fd, &about) < 0 ? -1 : read_all(fd, room);
    int error = errno;
    if (fd >= 0 && !is_standard) close(fd);
    show_name(in->name, argv, at);
    if (n < 0) return trouble(in->name, error, "cannot be read");
    in->bytes = room;
    in->length = (size_t)n;
    in->device = about.st_dev;
    in->inode = about.st_ino;
    return DONE;
}

static int is_input(const struct stat *file) {
    return (file->st_dev == first.device && file->st_ino == first.inode) ||
           (file->st_dev == second.device && file->st_ino == second.inode);
}

static int onto_input(const char *name) { return complain(name, "is an input too, and would be replaced"); }

/* A new file in the folder whose name the first bytes of `beside` are. */
static int create(char *beside, size_t folder, mode_t mode) {
    uint32_t tag;
    if (getentropy(&tag, sizeof tag) < 0) tag = (uint32_t)getpid();
    int fd = -1;
    for (int tries = 0; tries < 100; tries++, tag++) {
        snprintf(beside + folder, TAG_ROOM, ".voltamar-%08X", (unsigned)tag);
        fd = open(beside, O_WRONLY | O_CREAT | O_EXCL, mode);
        if (fd >= 0 || errno != EEXIST) break;
    }
    return fd;
}

/* Writes the file beside, whole, with the mode of the one that it replaces, if there is one, and gives it the name; or
 * removes it. Answers 0, or the system's error. */
static int replace(const char *path, char *beside, size_t folder, const struct stat *old, size_t n) {
    mode_t mode = old == NULL ? 0666 : old->st_mode & 0777;
    int fd = create(beside, folder, mode), error = 0;
    if (fd < 0) return errno;
    if (!write_all(fd, out, n) || (old != NULL && fchmod(fd, mode) < 0) || fsync(fd) < 0) error = errno;
    if (close(fd) < 0 && error == 0) error = errno;
    if (error == 0 && rename(beside, path) < 0) error = errno;
    if (error != 0) unlink(beside);
    return error;
}

/* Whether the folder keeps the new name through a power cut, as far as one can ask: a folder may be one that can be
 * written and not read, or of a kind that cannot be synced. */
static int is_synced(char *beside, size_t folder) {
    beside[folder] = '\0';
    int fd = open(folder == 0 ? "." : beside, O_RDONLY | O_DIRECTORY);
    if (fd < 0) return errno == EACCES;
    int synced = fsync(fd) == 0 || errno == EINVAL;
    close(fd);
    return synced;
}

/* The result goes to the file that -o names, whole or not at all. Signals wait meanwhile, so that none leaves a file
 * behind. */
static int write_file(const char *path, const char *name, size_t n) {
    static char beside[NAME_ROOM + TAG_ROOM];
    struct stat old;
    sigset_t every, before;
    int is_there = stat(path, &old) == 0;
    if (strlen(path) >= NAME_ROOM) return trouble(name, ENAMETOOLONG, "");
    if (!is_there && errno != ENOENT) return trouble(name, errno, "cannot be written");
    if (is_there && is_input(&old)) return onto_input(name);
    if (is_there && (!S_ISREG(old.st_mode) || faccessat(AT_FDCWD, path, W_OK, AT_EACCESS) < 0))
        return complain(name, "not a regular file that can be written");
    const char *slash = strrchr(path, '/');
    size_t folder = slash == NULL ? 0 : (size_t)(slash - path) + 1;
    memcpy(beside, path, folder);
    sigfillset(&every);
    sigprocmask(SIG_SETMASK, &every, &before);
    int error = replace(path, beside, folder, is_there ? &old : NULL, n);
    int synced = error != 0 || is_synced(beside, folder);
    sigprocmask(SIG_SETMASK, &before, NULL); /* a signal that has come ends the program here */
    if (error != 0) return trouble(name, error, "cannot be written");
    return synced ? DONE : complain(name, "is written, but its folder could not be synced");
}

/* ---- the command line */

/* What is known of the arguments behind the verb; an index of 0 is none. */
struct line {
    int options, operands, first, second, output, unknown, is_output_due, is_ended;
};

static void take_option(struct line *line, const char *word, int at) {
    static const struct { const char *word; int option; } options[] = {
        {"-o", OUTPUT}, {"--force", FORCE}, {"--report", REPORT}, {"--no-digest", NO_DIGEST}, {"--commands", COMMANDS},
        {"-h", HELP}, {"--help", HELP}, {"--", 0},
    };
    for (size_t i = 0; i < sizeof options / sizeof *options; i++) {
        if (strcmp(word, options[i].word) != 0) continue;
        line->options |= options[i].option;
        if (options[i].option == OUTPUT) line->is_output_due = 1;
        if (options[i].option == 0) line->is_ended = 1;
        return;
    }
    if (line->unknown == 0) line->unknown = at;
}

/* One argument more; answers whether it is a file or a number, and no option. */
static int take(struct line *line, const char *word, int at) {
    if (line->is_output_due) {
        line->is_output_due = 0;
        line->output = at;
        return 0;
    }
    if (!line->is_ended && word[0] == '-' && word[1] != '\0') {
        take_option(line, word, at);
        return 0;
    }
    if (line->operands == 0) line->first = at;
    if (line->operands == 1) line->second = at;
    line->operands++;
    return 1;
}

static int is_sound(const struct verb *verb, const struct line *line) {
    if (line->unknown != 0 || line->is_output_due || (line->options & ~verb->options) != 0) return 0;
    if (line->options & NO_DIGEST && !(line->options & REPORT)) return 0;
    return verb->number == CHECK ? line->operands > 0 : line->operands == verb->operands;
}

static int misused(const struct verb *verb, const struct line *line, char **argv) {
    char name[NAME_ROOM];
    if (line->unknown != 0) show_name(name, argv, line->unknown), complain(name, "no such option");
    write_all(STDERR_FILENO, verb->usage, strlen(verb->usage));
    return TROUBLE;
}

static const struct verb *verb_of(const char *word) {
    for (int i = 0; i < VERBS; i++) {
        if (strcmp(word, verbs[i].name) == 0) return &verbs[i];
    }
    return NULL;
}

static int write_help(const struct verb *verb) {
    char text[4096];
    const char *last = verb->options & OUTPUT ? ON_OUTPUT : "";
    snprintf(text, sizeof text, "%s%s%s", verb->usage, verb->more, last);
    return to_standard_output(text);
}

static uint32_t letters(const char *word) {
    uint32_t found = 0;
    for (; *word != '\0'; word++) {
        if (*word >= 'a' && *word <= 'z') found |= (uint32_t)1 << (*word - 'a');
    }
    return found;
}

/* Names the verb that shares most letters with the word, in any order. */
static int wrong_verb(char **argv, int at) {
    char name[NAME_ROOM];
    int nearest = 0, least = 32;
    for (int i = 0; i < VERBS; i++) {
        int distance = 0;
        for (uint32_t other = letters(argv[at]) ^ letters(verbs[i].name); other != 0; other &= other - 1) distance++;
        if (distance < least) least = distance, nearest = i;
    }
    show_name(name, argv, at);
    dprintf(STDERR_FILENO, "%s: no such verb; the nearest is %s, and `voltamar help` lists them all\n", name,
            verbs[nearest].name);
    return TROUBLE;
}

static int run_without_verb(char **argv) {
    if (strcmp(argv[1], "--version") == 0) return to_standard_output("voltamar " VOLTAMAR_VERSION "\n");
    if (strcmp(argv[1], "-h") == 0 || strcmp(argv[1], "--help") == 0) return to_standard_output(OVERVIEW);
    return wrong_verb(argv, 1);
}

static int run_help(const struct line *line, char **argv) {
    if (line->operands == 0) return to_standard_output(OVERVIEW);
    const struct verb *verb = verb_of(argv[line->first]);
    return verb == NULL ? wrong_verb(argv, line->first) : write_help(verb);
}

/* ---- the call */

static int part_of_word(size_t left) {
    dprintf(STDERR_FILENO, "%s: %d byte%s left over behind the last whole word, where a word has four bytes\n",
            second.name, (int)left, left == 1 ? "" : "s");
    return REFUSED;
}

/* Makes the call on what was read, and hands on what it says. A part of a word at the end is run as a word, so that
 * more bytes than a run takes are too many samples; it is complained of where nothing is refused. */
static int call(enum number number, int has_digests, const char *target, const char *target_name) {
    uint8_t digest[2][SHA256_DIGITS];
    size_t digits = has_digests ? SHA256_DIGITS : 0, out_length = 0, err_length = 0;
    size_t left = number == BENCH ? second.length % WORD : 0, padded = second.length + (left == 0 ? 0 : WORD - left);
    if (has_digests) sha256(first.bytes, first.length, digest[0]);
    if (has_digests) sha256(second.bytes, second.length, digest[1]);
    int status = voltamar_verb((uint8_t)number, (const uint8_t *)first.name, strlen(first.name), first.bytes,
                               first.length, (const uint8_t *)second.name, strlen(second.name), second.bytes, padded,
                               digest[0], digits, digest[1], digits, out, sizeof out, err, sizeof err, &out_length,
                               &err_length);
    if (status == DONE && left != 0) return part_of_word(left);
    int written = DONE;
    if (status == DONE || out_length > 0) {
        written = target != NULL ? write_file(target, target_name, out_length) : write_result(out, out_length);
    }
    write_all(STDERR_FILENO, err, err_length);
    return written > status ? written : status;
}

static int run(const struct verb *verb, const struct line *line, char **argv) {
    char name[NAME_ROOM];
    struct stat there;
    const char *target = line->output == 0 || strcmp(argv[line->output], "-") == 0 ? NULL : argv[line->output];
    if (verb->options & FORCE && !(line->options & FORCE) && target == NULL && isatty(STDOUT_FILENO))
        return complain("standard output",
                        "is a terminal, and the result is bytes; -o FILE keeps them, --force shows them");
    if (verb->twice != NULL && strcmp(argv[line->first], "-") == 0 && strcmp(argv[line->second], "-") == 0)
        return complain("standard input", verb->twice);
    if (load(&first, first_room, argv, line->first) != DONE) return TROUBLE;
    if (verb->number == SECTION) {
        show_name(second.name, argv, line->second);
        second.bytes = (const uint8_t *)argv[line->second];
        second.length = strlen(argv[line->second]);
    } else if (verb->operands == 2) {
        if (load(&second, second_room, argv, line->second) != DONE) return TROUBLE;
    }
    if (target != NULL) show_name(name, argv, line->output);
    if (target != NULL && stat(target, &there) == 0 && is_input(&there)) return onto_input(name);
    int is_page = line->options & REPORT, is_stream = line->options & COMMANDS;
    enum number number = is_page ? PAGE : is_stream ? SHOW_COMMANDS : verb->number;
    return call(number, is_page && !(line->options & NO_DIGEST), target, name);
}

/* Each file is judged; the status is the worst of all. */
static int check_all(const struct verb *verb, int argc, char **argv) {
    struct line seen = {0}, one = {0};
    int worst = DONE;
    for (one.first = 2; one.first < argc; one.first++) {
        if (!take(&seen, argv[one.first], one.first)) continue;
        int status = run(verb, &one, argv);
        if (status > worst) worst = status;
    }
    return worst;
}

int main(int argc, char **argv) {
    struct line line = {0};
    if (!hold_standard_descriptors()) return TROUBLE;
    signal(SIGXFSZ, SIG_IGN); /* a file that may not grow is a failed write */
    if (argc < 2) {
        write_all(STDERR_FILENO, OVERVIEW, strlen(OVERVIEW));
        return TROUBLE;
    }
    const struct verb *verb = verb_of(argv[1]);
    if (verb == NULL) return run_without_verb(argv);
    for (int i = 2; i < argc; i++) take(&line, argv[i], i);
    if (line.options & HELP) return write_help(verb);
    if (verb->number == NO_CALL) return run_help(&line, argv);
    if (!is_sound(verb, &line)) return misused(verb, &line, argv);
    return verb->number == CHECK ? check_all(verb, argc, argv) : run(verb, &line, argv);
}
