/*
 * Loaded before the C library, this makes things go wrong that a test cannot time from outside.
 * FAULT says what, one or more of these with commas between them:
 *
 *   full          the disk is full after the first byte of a file
 *   signal:N      signal N comes while the file is written, and has only its temporary name
 *   race:F        someone else makes the file F at that moment
 *   late-race:F   someone else makes the file F while the second file is written
 *   no-link       the file system has no links
 *   no-noreplace  the file system cannot rename without replacing
 *   no-rename:N   the Nth rename fails
 *   no-mode       the file system has no modes
 *   no-owner      nobody may give a file away
 *   directory:N   synchronising a directory fails with error N
 *   no-random     there are no random bytes
 *   count         random bytes are 1, 2, 3 .. and come one at a time
 *   digits        random bytes are 16 times the digit 7, and then as with count
 *   mark          writing leaves 12 KiB of a5 a4 .. 96 on the stack, again and again
 *   early-mark    so does reading
 *   malloc-mark:N so does asking for N bytes of memory
 *   scan          at the very end, the memory is looked through for the bytes that SCAN names in
 * hexadecimal, or for several such with commas between them early-scan    the same while the file
 * is written malloc-scan:N the same when N bytes of memory are asked for no-memory:N   there are no
 * N bytes of memory
 */
#define _GNU_SOURCE
#include <dlfcn.h>
#include <errno.h>
#include <fcntl.h>
#include <signal.h>
#include <stdio.h>
#include <stdlib.h>
#include <string.h>
#include <sys/stat.h>
#include <ucontext.h>
#include <unistd.h>

/* What is after the kind of fault, up to the comma; null where FAULT does not name it. */
static const char *fault(const char *kind)
{
    static char rest[4096];
    const char *at = getenv("FAULT");
    while (at != NULL && strncmp(at, kind, strlen(kind)) != 0) {
        at = strchr(at, ',');
        at += at != NULL;
    }
    if (at == NULL)
        return NULL;
    snprintf(rest, sizeof rest, "%s", at + strlen(kind));
    rest[strcspn(rest, ",")] = '\0';
    return rest;
}

static void scan(void);

static int failed(int why)
{
    errno = why;
    return -1;
}

static __attribute__((noinline)) void leave_mark(void)
{
    volatile unsigned char marks[12288];
    for (size_t i = 0; i < sizeof marks; i++)
        marks[i] = (unsigned char)(0xa5 - i % 16);
}

ssize_t write(int fd, const void *bytes, size_t len)
{
    static ssize_t (*real)(int, const void *, size_t);
    static int calls;
    if (real == NULL)
        *(void **)&real = dlsym(RTLD_NEXT, "write");
    if (fault("mark") != NULL)
        leave_mark();
    if (fd <= 2 || fault("full") == NULL)
        return real(fd, bytes, len);
    return calls++ == 0 ? real(fd, bytes, 1) : failed(ENOSPC);
}

ssize_t read(int fd, void *bytes, size_t len)
{
    static ssize_t (*real)(int, void *, size_t);
    if (real == NULL)
        *(void **)&real = dlsym(RTLD_NEXT, "read");
    if (fault("early-mark") != NULL)
        leave_mark();
    return real(fd, bytes, len);
}

static int asked_for(const char *kind, size_t len)
{
    const char *wanted = fault(kind);
    return wanted != NULL && (size_t)atoi(wanted) == len;
}

void *malloc(size_t len)
{
    static void *(*real)(size_t);
    if (real == NULL)
        *(void **)&real = dlsym(RTLD_NEXT, "malloc");
    if (asked_for("malloc-scan:", len))
        scan();
    if (asked_for("malloc-mark:", len))
        leave_mark();
    return asked_for("no-memory:", len) ? NULL : real(len);
}

static void make_empty(const char *name)
{
    close(open(name, O_CREAT | O_WRONLY | O_EXCL, 0600));
}

int fsync(int fd)
{
    static int files;
    struct stat file;
    if (fstat(fd, &file) == 0 && S_ISDIR(file.st_mode))
        return fault("directory:") != NULL ? failed(atoi(fault("directory:"))) : 0;
    if (fault("early-scan") != NULL)
        scan();
    if (fault("signal:") != NULL)
        raise(atoi(fault("signal:")));
    if (fault("race:") != NULL)
        make_empty(fault("race:"));
    if (++files == 2 && fault("late-race:") != NULL)
        make_empty(fault("late-race:"));
    return 0;
}

int link(const char *from, const char *to)
{
    return fault("no-link") != NULL ? failed(EPERM) : linkat(AT_FDCWD, from, AT_FDCWD, to, 0);
}

int renameat2(int from_directory, const char *from, int to_directory, const char *to,
              unsigned flags)
{
    static int (*real)(int, const char *, int, const char *, unsigned);
    if (real == NULL)
        *(void **)&real = dlsym(RTLD_NEXT, "renameat2");
    return fault("no-noreplace") != NULL ? failed(EINVAL)
                                         : real(from_directory, from, to_directory, to, flags);
}

int rename(const char *from, const char *to)
{
    static int calls;
    const char *nth = fault("no-rename:");
    return nth != NULL && atoi(nth) == ++calls ? failed(EIO)
                                               : renameat(AT_FDCWD, from, AT_FDCWD, to);
}

int fchmod(int fd, mode_t mode)
{
    static int (*real)(int, mode_t);
    if (real == NULL)
        *(void **)&real = dlsym(RTLD_NEXT, "fchmod");
    return fault("no-mode") != NULL ? failed(EPERM) : real(fd, mode);
}

int fchown(int fd, uid_t owner, gid_t group)
{
    static int (*real)(int, uid_t, gid_t);
    if (real == NULL)
        *(void **)&real = dlsym(RTLD_NEXT, "fchown");
    return fault("no-owner") != NULL ? failed(EPERM) : real(fd, owner, group);
}

ssize_t getrandom(void *bytes, size_t len, unsigned flags)
{
    static ssize_t (*real)(void *, size_t, unsigned);
    static int calls;
    if (real == NULL)
        *(void **)&real = dlsym(RTLD_NEXT, "getrandom");
    if (fault("no-random") != NULL)
        return failed(ENOSYS);
    if (fault("count") == NULL && fault("digits") == NULL)
        return real(bytes, len, flags);
    int drawn = ++calls - (fault("digits") != NULL ? 16 : 0);
    if (len > 0)
        *(char *)bytes = drawn > 0 ? (char)drawn : '7';
    return len > 0;
}

/* Looking through the memory */

static int nibble(char digit)
{
    return digit <= '9' ? digit - '0' : digit - 'a' + 10;
}

/* The bytes wanted are never put together anywhere, lest they be found here. */
static int is_at(const unsigned char *at, const char *hex, size_t len)
{
    for (size_t i = 0; i < len; i++)
        if (at[i] != (nibble(hex[2 * i]) << 4 | nibble(hex[2 * i + 1])))
            return 0;
    return 1;
}

/* How often the bytes are there that are named up to the comma. */
static size_t count_in(const unsigned char *from, const unsigned char *to, const char *hex)
{
    size_t len = strcspn(hex, ",") / 2, found = 0;
    for (const unsigned char *at = from; at + len <= to; at++)
        found += (size_t)is_at(at, hex, len);
    return found;
}

/* Says whether something was found. */
static void scan_here(void)
{
    const char *hex = getenv("SCAN");
    if (hex == NULL)
        return;
    size_t scanned = 0, found = 0;
    char line[512], access[8];
    void *from, *to;
    FILE *maps = fopen("/proc/self/maps", "r");
    while (maps != NULL && fgets(line, sizeof line, maps) != NULL)
        if (sscanf(line, "%p-%p %7s", &from, &to, access) == 3 && strncmp(access, "rw", 2) == 0) {
            for (const char *one = hex; *one != '\0'; one += strcspn(one, ","), one += *one == ',')
                found += count_in(from, to, one);
            scanned += (size_t)((char *)to - (char *)from);
        }
    fprintf(stderr,
            scanned < 65536 ? "nothing scanned\n"
            : found > 0     ? "left %zu times\n"
                            : "nothing was left\n",
            found);
}

/* On a stack of its own, lest it overwrite what it looks for. */
static void scan(void)
{
    static char stack[65536];
    ucontext_t here, there;
    getcontext(&there);
    there.uc_stack.ss_sp = stack;
    there.uc_stack.ss_size = sizeof stack;
    there.uc_link = &here;
    makecontext(&there, scan_here, 0);
    swapcontext(&here, &there);
}

/* Runs when the command's own functions for the exit have run. */
__attribute__((destructor)) static void scan_at_end(void)
{
    if (fault("scan") != NULL)
        scan();
}
