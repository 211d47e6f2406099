/* Inputs. Each is remembered, so that no output can take its place. */
#define _POSIX_C_SOURCE 200809L
#include "inputs.h"

#include "messages.h"

#include <errno.h>
#include <fcntl.h>
#include <string.h>
#include <sys/stat.h>
#include <unistd.h>

/* There are at most a key, a plan, book or note, and trials. */
static struct stat inputs[3];
static size_t input_count;
static bool standard_input_read;

bool is_standard(const char *name)
{
    return name == NULL || strcmp(name, "-") == 0;
}

const char *input_title(const char *name)
{
    return is_standard(name) ? "standard input" : shown(name);
}

/* A terminal or pipe may be input and output at once: only a regular file would be lost. */
bool is_input(const struct stat *file)
{
    for (size_t i = 0; i < input_count; i++)
        if (S_ISREG(file->st_mode) && file->st_dev == inputs[i].st_dev &&
            file->st_ino == inputs[i].st_ino)
            return true;
    return false;
}

static int open_input(const char *name)
{
    if (is_standard(name)) {
        if (standard_input_read)
            fail("standard input can be only one of the inputs");
        standard_input_read = true;
        return STDIN_FILENO;
    }
    int fd = open(name, O_RDONLY | O_CLOEXEC);
    if (fd < 0)
        fail("cannot open %s: %s", shown(name), strerror(errno));
    return fd;
}

static struct bytes read_all(int fd, const char *title, size_t limit)
{
    struct bytes bytes = new_bytes(limit + 1);
    bytes.len = 0;
    while (bytes.len <= limit) {
        ssize_t got = read(fd, bytes.at + bytes.len, limit + 1 - bytes.len);
        if (got < 0 && errno == EINTR)
            continue;
        if (got < 0)
            fail("cannot read %s: %s", title, strerror(errno));
        if (got == 0)
            break;
        bytes.len += (size_t)got;
    }
    return bytes;
}

static struct bytes read_and_note(const char *name, size_t limit, struct stat *file)
{
    int fd = open_input(name);
    bool known = fstat(fd, file) == 0;
    if (known)
        inputs[input_count++] = *file;
    else
        memset(file, 0, sizeof *file);
    struct bytes bytes = read_all(fd, input_title(name), limit);
    if (fd != STDIN_FILENO)
        close(fd);
    return bytes;
}

struct bytes read_input(const char *name, size_t limit)
{
    struct stat file;
    return read_and_note(name, limit, &file);
}

struct bytes read_secret_input(const char *name, size_t limit)
{
    struct stat file;
    struct bytes bytes = read_and_note(name, limit, &file);
    if (S_ISREG(file.st_mode) && (file.st_mode & (S_IRGRP | S_IROTH)) != 0)
        warn("%s may be read by others (mode %03o); chmod 600 keeps it to you", input_title(name),
             (unsigned)file.st_mode & 0777);
    return bytes;
}
