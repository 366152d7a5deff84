#define _XOPEN_SOURCE 700
#include "save.h"

#include <errno.h>
#include <fcntl.h>
#include <limits.h>
#include <signal.h>
#include <stdio.h>
#include <stdlib.h>
#include <string.h>
#include <sys/stat.h>
#include <unistd.h>

#include "report.h"

static void refuse_if_read(const struct stat *target, const char *name, const struct file *read, int count)
{
    for (int i = 0; i < count; i++)
        if (read[i].regular && read[i].device == target->st_dev && read[i].inode == target->st_ino)
            fail(MISUSED, "%s: the output would overwrite %s, which was read", name, read[i].name);
}

static bool write_all(int out, const char *bytes, size_t length)
{
    while (length > 0) {
        ssize_t count = write(out, bytes, length);
        if (count < 0 && errno != EINTR)
            return false;
        bytes += count < 0 ? 0 : count;
        length -= count < 0 ? 0 : (size_t)count;
    }
    return true;
}

static void write_standard_output(const char *bytes, size_t length, const struct file *read, int count)
{
    struct stat target;
    if (fstat(STDOUT_FILENO, &target) == 0)
        refuse_if_read(&target, "standard output", read, count);
    if (!write_all(STDOUT_FILENO, bytes, length))
        fail(FAILED, "standard output: %s", strerror(errno));
}

static void write_directly(const char *path, const char *bytes, size_t length)
{
    int out = open(path, O_WRONLY);
    if (out < 0 || !write_all(out, bytes, length) || close(out) != 0)
        fail(FAILED, "%s: %s", path, strerror(errno));
}

/* Fills the temporary file and puts it in place of the path. What goes wrong is left in errno. */
static bool fill_and_rename(int out, const char *temporary, const char *path, mode_t mode, const char *bytes, size_t length)
{
    bool written = fchmod(out, mode) == 0 && write_all(out, bytes, length) && fsync(out) == 0;
    int error = errno;
    if (close(out) != 0 && written) {
        written = false;
        error = errno;
    }
    if (written && rename(temporary, path) == 0)
        return true;
    error = written ? errno : error;
    unlink(temporary);
    errno = error;
    return false;
}

/* Signals that end the program wait until the temporary file is gone; a file that grows too large is an error, no signal. Returns
 * the signals that waited before. */
static sigset_t hold_signals(void)
{
    sigset_t signals, before;
    sigemptyset(&signals);
    sigaddset(&signals, SIGHUP);
    sigaddset(&signals, SIGINT);
    sigaddset(&signals, SIGTERM);
    sigprocmask(SIG_BLOCK, &signals, &before);
    signal(SIGXFSZ, SIG_IGN);
    return before;
}

static void replace(const char *path, const char *name, mode_t mode, const char *bytes, size_t length)
{
    static const char pattern[] = ".pilgodur-XXXXXX";
    const char *slash = strrchr(path, '/');
    size_t folder = slash == NULL ? 0 : (size_t)(slash - path) + 1;
    char *temporary = malloc(folder + sizeof pattern);
    if (temporary == NULL)
        fail(FAILED, "%s: out of memory", name);
    memcpy(temporary, path, folder);
    memcpy(temporary + folder, pattern, sizeof pattern);
    sigset_t before = hold_signals();
    int out = mkstemp(temporary);
    if (out < 0 || !fill_and_rename(out, temporary, path, mode, bytes, length))
        fail(FAILED, "%s: %s", name, strerror(errno));
    sigprocmask(SIG_SETMASK, &before, NULL);
    free(temporary);
}

/* A link is followed, so that the file that it leads to is replaced and not the link. */
static void replace_old(const char *path, mode_t mode, const char *bytes, size_t length)
{
    char *real = realpath(path, NULL);
    if (real == NULL || access(real, W_OK) != 0)
        fail(FAILED, "%s: %s", path, strerror(errno));
    replace(real, path, mode & 0777, bytes, length);
    free(real);
}

static void create_new(const char *path, const char *bytes, size_t length)
{
    struct stat link;
    if (lstat(path, &link) == 0)
        fail(FAILED, "%s: it is a link that leads nowhere", path);
    mode_t mask = umask(0);
    umask(mask);
    replace(path, path, 0666 & ~mask, bytes, length);
}

void save(const char *path, const char *bytes, size_t length, const struct file *read, int count)
{
    struct stat target;
    if (path == NULL || strcmp(path, "-") == 0) {
        write_standard_output(bytes, length, read, count);
    } else if (stat(path, &target) == 0) {
        refuse_if_read(&target, path, read, count);
        if (S_ISREG(target.st_mode))
            replace_old(path, target.st_mode, bytes, length);
        else
            write_directly(path, bytes, length);
    } else if (errno == ENOENT) {
        create_new(path, bytes, length);
    } else {
        fail(FAILED, "%s: %s", path, strerror(errno));
    }
}
