/* Calls of the system that fail by wish, for the programs linked with --wrap: the variable FAIL names one of
 *   mkstemp fchmod write fsync close rename read   each fails with EIO
 *   short_write short_read                         one that takes some bytes, then one that fails
 *   few_bytes interrupted                          each write and read takes at most 7 bytes; every second one is interrupted
 *   terminated                                     a signal that ends the program arrives before the first write */
#define _XOPEN_SOURCE 700
#include <errno.h>
#include <signal.h>
#include <stdbool.h>
#include <stdlib.h>
#include <string.h>
#include <sys/stat.h>
#include <unistd.h>

int __real_mkstemp(char *pattern);
int __real_fchmod(int file, mode_t mode);
ssize_t __real_write(int file, const void *bytes, size_t length);
int __real_fsync(int file);
int __real_close(int file);
int __real_rename(const char *from, const char *to);
ssize_t __real_read(int file, void *bytes, size_t length);

int __wrap_mkstemp(char *pattern);
int __wrap_fchmod(int file, mode_t mode);
ssize_t __wrap_write(int file, const void *bytes, size_t length);
int __wrap_fsync(int file);
int __wrap_close(int file);
int __wrap_rename(const char *from, const char *to);
ssize_t __wrap_read(int file, void *bytes, size_t length);

static bool wished(const char *name)
{
    const char *wish = getenv("FAIL");
    return wish != NULL && strcmp(wish, name) == 0;
}

static bool fails(const char *name)
{
    errno = wished(name) ? EIO : errno;
    return wished(name);
}

int __wrap_mkstemp(char *pattern)
{
    return fails("mkstemp") ? -1 : __real_mkstemp(pattern);
}

int __wrap_fchmod(int file, mode_t mode)
{
    return fails("fchmod") ? -1 : __real_fchmod(file, mode);
}

/* The bytes that a write or a read of this number may take, or -1 if it fails. */
static ssize_t allowed(unsigned number, size_t length, const char *name, const char *short_name)
{
    if (wished("interrupted") && number % 2 == 1) {
        errno = EINTR;
        return -1;
    }
    if (fails(name) || (number > 1 && fails(short_name)))
        return -1;
    bool few = wished("few_bytes") || wished(short_name);
    return (ssize_t)(few && length > 7 ? 7 : length);
}

ssize_t __wrap_write(int file, const void *bytes, size_t length)
{
    static unsigned writes;
    writes++;
    if (wished("terminated") && writes == 1)
        raise(SIGTERM);
    ssize_t some = allowed(writes, length, "write", "short_write");
    return some < 0 ? some : __real_write(file, bytes, (size_t)some);
}

ssize_t __wrap_read(int file, void *bytes, size_t length)
{
    static unsigned reads;
    ssize_t some = allowed(++reads, length, "read", "short_read");
    return some < 0 ? some : __real_read(file, bytes, (size_t)some);
}

int __wrap_fsync(int file)
{
    return fails("fsync") ? -1 : __real_fsync(file);
}

/* The file is closed even so. */
int __wrap_close(int file)
{
    int result = __real_close(file);
    return fails("close") ? -1 : result;
}

int __wrap_rename(const char *from, const char *to)
{
    return fails("rename") ? -1 : __real_rename(from, to);
}
