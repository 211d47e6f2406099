/*
 * Outputs.
 *
 * An output file is first written under a temporary name in its own directory (mode 0600) and
 * synchronised, and gets its name only then, so that nobody ever sees a part of it. A temporary
 * file is removed at every exit and by the usual signals.
 */
#define _GNU_SOURCE /* renameat2 */
#include "outputs.h"

#include "inputs.h"
#include "messages.h"

#include <errno.h>
#include <fcntl.h>
#include <signal.h>
#include <stdio.h>
#include <stdlib.h>
#include <string.h>
#include <sys/resource.h>
#include <sys/stat.h>
#include <unistd.h>

/* An output file that is being made. */
struct pending {
    const struct output *output;
    char *temporary;
    volatile sig_atomic_t has_temporary;
    bool exists;     /* a file of this name is to be replaced, which is .. */
    struct stat old; /* .. this one */
    bool named;      /* has its name, but not all outputs have theirs */
};

static struct pending pending[MAX_OUTPUTS];

/* At exit and in signal handlers: only calls that are permitted there. */
static void remove_unfinished(void)
{
    for (size_t i = 0; i < MAX_OUTPUTS; i++) {
        if (pending[i].has_temporary)
            unlink(pending[i].temporary);
        if (pending[i].named && !pending[i].exists)
            unlink(pending[i].output->name);
    }
}

static void end_by_signal(int number)
{
    remove_unfinished();
    raise(number); /* ends the command when this returns: SA_RESETHAND has put the default back */
}

void outputs_prepare(void)
{
    /* A file opened later must not become a standard stream. These stand-ins fail when used. */
    for (int fd = 0; fd <= 2; fd++)
        if (fcntl(fd, F_GETFD) < 0 && open("/dev/null", fd == 0 ? O_WRONLY : O_RDONLY) < 0)
            exit(STATUS_ERROR);
    static const int signals[] = {SIGHUP, SIGINT, SIGQUIT, SIGTERM, SIGPIPE, SIGALRM, SIGXCPU};
    struct sigaction ending = {.sa_handler = end_by_signal, .sa_flags = (int)SA_RESETHAND}, before;
    sigfillset(&ending.sa_mask);
    for (size_t i = 0; i < sizeof signals / sizeof *signals; i++)
        if (sigaction(signals[i], NULL, &before) == 0 && before.sa_handler != SIG_IGN)
            sigaction(signals[i], &ending, NULL);
    signal(SIGXFSZ, SIG_IGN); /* a file size limit then shows as an error of write */
    setrlimit(RLIMIT_CORE,
              &(struct rlimit){0, 0}); /* the key or its words would be in a core dump */
    atexit(remove_unfinished);
}

static void block_signals(sigset_t *before)
{
    sigset_t all;
    sigfillset(&all);
    sigprocmask(SIG_BLOCK, &all, before);
}

static void write_all(int fd, const char *title, struct bytes bytes)
{
    for (size_t done = 0; done < bytes.len;) {
        ssize_t put = write(fd, bytes.at + done, bytes.len - done);
        if (put < 0 && errno == EINTR)
            continue;
        if (put < 0)
            fail("cannot write %s: %s", title, strerror(errno));
        done += (size_t)put;
    }
}

/* Answers whether a file of this name exists and may be replaced. */
static bool look_at_output(const struct output *output, struct stat *old)
{
    if (stat(output->name, old) == 0 && is_input(old))
        fail("%s is an input as well: an output needs a name of its own", shown(output->name));
    if (lstat(output->name, old) != 0) {
        if (errno != ENOENT)
            fail("cannot make %s: %s", shown(output->name), strerror(errno));
        return false;
    }
    if (!S_ISREG(old->st_mode))
        fail("%s exists and is not a regular file", shown(output->name));
    if (output->existing == KEEP_KEY)
        fail("%s exists, and no key is ever replaced: name another file", shown(output->name));
    if (output->existing == KEEP)
        fail("%s exists: name another output, or replace it with --force", shown(output->name));
    return true;
}

/* The length of the directory of a name, with its slash; 0 for the current one. */
static size_t directory_length(const char *name)
{
    const char *slash = strrchr(name, '/');
    return slash == NULL ? 0 : (size_t)(slash - name) + 1;
}

/* Another name in the directory of this one. Not in the wiped memory: needed until the very end. */
static char *beside(const char *name, const char *other)
{
    size_t directory = directory_length(name);
    char *path = malloc(directory + strlen(other) + 1);
    if (path == NULL)
        fail("no memory for a name");
    memcpy(path, name, directory);
    strcpy(path + directory, other);
    return path;
}

static bool same_file(const struct stat *x, const struct stat *y)
{
    return x->st_dev == y->st_dev && x->st_ino == y->st_ino;
}

/* Whether two files that are not there yet would be one. */
static bool same_new_file(const char *x, const char *y)
{
    struct stat in_x, in_y;
    char *directory_x = beside(x, "."), *directory_y = beside(y, ".");
    bool same = stat(directory_x, &in_x) == 0 && stat(directory_y, &in_y) == 0 &&
                same_file(&in_x, &in_y) &&
                strcmp(x + directory_length(x), y + directory_length(y)) == 0;
    free(directory_x);
    free(directory_y);
    return same;
}

static void expect_two_files(const struct pending *x, const struct pending *y)
{
    if (x->exists && y->exists ? same_file(&x->old, &y->old)
                               : same_new_file(x->output->name, y->output->name))
        fail("both outputs go to one file, %s: give each a file of its own",
             shown(y->output->name));
}

static int make_temporary(struct pending *p)
{
    sigset_t before;
    p->temporary = beside(p->output->name, ".planbook-XXXXXX");
    block_signals(&before); /* no signal between the file and the note that it is there */
    int fd = mkstemp(p->temporary);
    int why = errno;
    p->has_temporary = fd >= 0;
    sigprocmask(SIG_SETMASK, &before, NULL);
    if (fd < 0)
        fail("cannot make %s: %s", shown(p->output->name), strerror(why));
    return fd;
}

/*
 * A replaced file's owner, group and mode go on. What the group might do is not given to another
 * group.
 */
static mode_t mode_of_replaced(int fd, const struct pending *p)
{
    mode_t mode = p->old.st_mode & 0777;
    struct stat new;
    if (fstat(fd, &new) == 0 && (new.st_uid != p->old.st_uid || new.st_gid != p->old.st_gid) &&
        fchown(fd, p->old.st_uid, p->old.st_gid) != 0)
        mode &= ~(mode_t)S_IRWXG;
    if (p->output->secret && (mode & (S_IRGRP | S_IROTH)) != 0)
        warn("%s keeps its mode %03o, so others may read it", shown(p->output->name),
             (unsigned)mode);
    return mode;
}

/*
 * A file system without modes refuses, and what it has then is no wider than that of the temporary
 * file.
 */
static void set_mode(int fd, const struct pending *p)
{
    mode_t mask = umask(077);
    umask(mask);
    mode_t mode = p->exists ? mode_of_replaced(fd, p) : p->output->secret ? 0600 : 0666 & ~mask;
    if (fchmod(fd, mode) != 0 && errno != EPERM && errno != ENOTSUP && errno != ENOSYS)
        fail("cannot write %s: %s", shown(p->output->name), strerror(errno));
}

static void write_temporary(struct pending *p)
{
    int fd = make_temporary(p);
    write_all(fd, shown(p->output->name), p->output->bytes);
    set_mode(fd, p);
    if (fsync(fd) != 0 || close(fd) != 0)
        fail("cannot write %s: %s", shown(p->output->name), strerror(errno));
}

/* An empty file takes the name, and is replaced at once. */
static int rename_to_reserved(const char *temporary, const char *name)
{
    int fd = open(name, O_WRONLY | O_CREAT | O_EXCL | O_CLOEXEC, 0600);
    if (fd < 0)
        return -1;
    close(fd);
    if (rename(temporary, name) == 0)
        return 0;
    int why = errno;
    unlink(name);
    errno = why;
    return -1;
}

/*
 * A new name, never that of a file that has appeared meanwhile. Not every file system can link
 * (vfat and exFAT cannot), and not every other one can rename without replacing.
 */
static int make_name(const char *temporary, const char *name)
{
    if (link(temporary, name) == 0)
        return unlink(temporary), 0;
    if (errno == EEXIST)
        return -1;
    if (renameat2(AT_FDCWD, temporary, AT_FDCWD, name, RENAME_NOREPLACE) == 0)
        return 0;
    return errno == EEXIST ? -1 : rename_to_reserved(temporary, name);
}

static void give_name(struct pending *p)
{
    const char *name = p->output->name;
    if (p->exists ? rename(p->temporary, name) != 0 : make_name(p->temporary, name) != 0)
        fail("cannot make %s: %s", shown(name), strerror(errno));
    p->named = true;
    p->has_temporary = 0;
}

/*
 * The name itself is safe from a loss of power only when its directory is. Some file systems cannot
 * do this, and say EINVAL.
 */
static void synchronise_directory(const char *name)
{
    char *directory = beside(name, ".");
    int fd = open(directory, O_RDONLY | O_DIRECTORY | O_CLOEXEC);
    free(directory);
    if (fd < 0)
        return; /* a directory may be writable and not readable */
    if (fsync(fd) != 0 && errno != EINVAL && errno != ENOTSUP)
        fail("%s is made, but its directory cannot be synchronised: %s", shown(name),
             strerror(errno));
    close(fd);
}

static void write_standard_output(struct bytes bytes)
{
    struct stat file;
    if (fstat(STDOUT_FILENO, &file) == 0 && is_input(&file))
        fail("standard output is an input as well: an output needs a file of its own");
    write_all(STDOUT_FILENO, "standard output", bytes);
}

static void name_all(size_t count)
{
    sigset_t before;
    block_signals(&before); /* a signal now would leave one name without the other */
    for (size_t i = 0; i < count; i++)
        if (pending[i].has_temporary)
            give_name(&pending[i]);
    for (size_t i = 0; i < count; i++)
        pending[i].named = false;
    sigprocmask(SIG_SETMASK, &before, NULL);
}

void write_outputs(const struct output *outputs, size_t count)
{
    for (size_t i = 0; i < count; i++)
        if (!is_standard(outputs[i].name)) {
            pending[i].exists = look_at_output(&outputs[i], &pending[i].old);
            pending[i].output = &outputs[i];
            for (size_t before = 0; before < i; before++)
                if (pending[before].output != NULL)
                    expect_two_files(&pending[before], &pending[i]);
            write_temporary(&pending[i]);
        }
    for (size_t i = 0; i < count; i++)
        if (is_standard(outputs[i].name))
            write_standard_output(outputs[i].bytes);
    name_all(count);
    for (size_t i = 0; i < count; i++)
        if (!is_standard(outputs[i].name))
            synchronise_directory(outputs[i].name);
}
