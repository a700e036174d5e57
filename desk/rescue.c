/* rescue.c: copies the records of a damaged file that read well to a new file, and prints what is left out; ./rescue builds it,
 * and ./rescue --help tells how. The new file gets its name when all of it is on the disk, and never takes another's. */
#define _GNU_SOURCE
#include <errno.h>
#include <fcntl.h>
#include <inttypes.h>
#include <signal.h>
#include <stdarg.h>
#include <stdio.h>
#include <stdlib.h>
#include <string.h>
#include <sys/stat.h>
#include <unistd.h>

#include "desk.h"
#include "pistonwool.h"

enum { TRIES = 100 };

/* what each number is given for, in the header's words */
static const char *const meanings[] = {
#include "meanings.h"
};

static uint8_t *copy;
static uint64_t *offsets, *numbers;
static uint64_t copied, listed, records;

/* the file that is written beside the new name, and whether it is there */
static char *beside;
static volatile sig_atomic_t begun;

/* the signals that end the program, and those that were held back before */
static sigset_t endings, before;

static void hold(void) { sigprocmask(SIG_BLOCK, &endings, &before); }

static void release(void) { sigprocmask(SIG_SETMASK, &before, NULL); }

/* Says in one line why there is no new file, or what became of it, and ends. */
_Noreturn void stop(const char *format, ...) {
    va_list words;
    hold();
    va_start(words, format);
    fputs("rescue: ", stderr);
    vfprintf(stderr, format, words);
    va_end(words);
    if (begun && unlink(beside) != 0)
        fprintf(stderr, "; %s is left", beside);
    fputc('\n', stderr);
    exit(2);
}

/* A signal that ends the program takes the half-written file with it. */
static void end(int number) {
    const char *words[] = {"rescue: ", beside, " is left\n"};
    ssize_t said = 0;
    if (begun && unlink(beside) != 0)
        for (size_t i = 0; i < sizeof words / sizeof *words; i++)
            said += write(STDERR_FILENO, words[i], strlen(words[i]));
    (void)said;
    raise(number);
}

static void watch(void) {
    static const int ends[] = {SIGHUP, SIGINT, SIGQUIT, SIGTERM};
    struct sigaction action = {.sa_handler = end, .sa_flags = SA_RESETHAND};
    sigfillset(&action.sa_mask);
    sigemptyset(&endings);
    for (size_t i = 0; i < sizeof ends / sizeof *ends; i++) {
        sigaddset(&endings, ends[i]);
        /* one that the caller has ignored, as nohup does, stays so */
        if (signal(ends[i], SIG_IGN) != SIG_IGN)
            sigaction(ends[i], &action, NULL);
    }
    outlive();
}

static const char already[] = "%s is there already; a new name is asked for";

/* A link that leads nowhere is there too. */
static void ask_new(const char *sound) {
    struct stat there;
    if (lstat(sound, &there) == 0)
        stop(already, sound);
    if (errno != ENOENT)
        stop("%s cannot be written: %s", sound, strerror(errno));
}

/* Copies what reads well, and counts its records by drawing them on a sheet of one cell. */
static void rescue(size_t n) {
    uint8_t cell = 0;
    uint32_t box[4] = {0};
    copy = lent(n, sizeof *copy);
    offsets = lent(n, sizeof *offsets);
    numbers = lent(n, sizeof *numbers);
    uint32_t reply = pw_rescue(file, n, copy, n, offsets, n, numbers, n, &copied, &listed);
    if (reply == PW_DONE)
        reply = pw_file(&cell, 1, 1, 1, 1, copy, copied, &records, box);
    if (reply != PW_DONE)
        stop("the library refuses the rescue with %" PRIu32 "; nothing is written", reply);
}

/* Begins a file in the folder of the new one, under a name that no other has. */
static int begin(const char *sound) {
    const char *slash = strrchr(sound, '/');
    int folder = slash ? (int)(slash + 1 - sound) : 0, to = -1;
    size_t most = (size_t)folder + 64;
    beside = lent(most, 1);
    errno = EEXIST;
    hold();
    for (int i = 0; i < TRIES && to < 0 && errno == EEXIST; i++) {
        snprintf(beside, most, "%.*s.rescue.%ld.%d", folder, sound, (long)getpid(), i);
        to = open(beside, O_WRONLY | O_CREAT | O_EXCL | O_CLOEXEC, 0666);
    }
    begun = to >= 0;
    release();
    return to;
}

/* Writes the copy to the disk, beside the new name. */
static void write_beside(const char *sound) {
    int to = begin(sound);
    if (to < 0 || !write_bytes(to, copy, copied) || fsync(to) != 0 || close(to) != 0)
        stop("%s cannot be written: %s", sound, strerror(errno));
}

/* Gives the file its name, unless something has it; by a second name where the file system cannot rename so. */
static int named(const char *sound) {
    if (renameat2(AT_FDCWD, beside, AT_FDCWD, sound, RENAME_NOREPLACE) == 0)
        return 1;
    if ((errno != EINVAL && errno != ENOSYS && errno != ENOTSUP) || link(beside, sound) != 0)
        return 0;
    if (unlink(beside) != 0)
        fprintf(stderr, "rescue: %s is left\n", beside);
    return 1;
}

static void give_name(const char *sound) {
    hold();
    if (!named(sound)) {
        if (errno == EEXIST)
            stop(already, sound);
        stop("%s cannot be written: %s", sound, strerror(errno));
    }
    begun = 0;
    release();
    /* the name too is to outlast a power cut; where a folder cannot be synced, nothing more can be done */
    char *slash = strrchr(beside, '/');
    if (slash)
        slash[1] = '\0';
    int folder = open(slash ? beside : ".", O_RDONLY | O_DIRECTORY | O_CLOEXEC);
    if (folder >= 0) {
        fsync(folder);
        close(folder);
    }
}

/* a count with its unit */
static void tell(uint64_t count, const char *unit, const char *after) {
    printf("%" PRIu64 " %s%s%s", count, unit, count == 1 ? "" : "s", after);
}

static void print(size_t n, const char *sound) {
    uint64_t rest = 0;
    for (uint64_t i = 0; i < listed; i++) {
        int stopped = numbers[i] == PW_SHORT;
        const char *what = stopped ? "stopped" : "left out";
        printf("%s at %" PRIu64 ": %" PRIu64 ", %s", what, offsets[i], numbers[i], meanings[numbers[i]]);
        if (stopped) {
            rest = n - offsets[i];
            fputs("; ", stdout);
            tell(rest, "byte", " from there on not copied");
        }
        putchar('\n');
    }
    tell(records, "record", " in ");
    tell(copied, "byte", " copied, ");
    tell(listed - (rest != 0), "record", " in ");
    tell(n - copied - rest, "byte", " left out, ");
    tell(rest, "byte", " after a stop\n");
    if (ferror(stdout) || fclose(stdout) != 0)
        stop("%s has the sound records, but what was left out cannot be printed", sound);
}

int main(int argc, char **argv) {
    if (argc != 3)
        stop("it takes two words, DAMAGED and SOUND");
    watch();
    ask_new(argv[2]);
    size_t n = read_file(argv[1]);
    rescue(n);
    write_beside(argv[2]);
    give_name(argv[2]);
    print(n, argv[2]);
    return listed != 0;
}
