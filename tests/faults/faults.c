/* Preloaded into the command `ads` (LD_PRELOAD): at the n-th write, sync, truncate, link or unlink in one folder it
   lets the call fail, or somebody else touch the file, or ends the process. It makes the system calls itself (x86-64
   Linux).

   ADS_FAULT_FOLDER  only calls on this folder and on files in it count
   ADS_FAULT_LOG     a file that gets a line with its name for each call that counts
   ADS_FAULTS        "3:eio 4:kill-before": calls, counted from 1, and what happens at each:
       eio, enospc, eintr                    the call does nothing and fails with this error
       half-eio, half-enospc                 a write writes half of its bytes and fails
       short                                 a write writes half of its bytes and says so
       kill-before, kill-half, kill-after    the process is killed; at `half` half of a write's bytes are written
       int, term, hup                        the process gets this signal, then the call is done
       grow, cut                             by another descriptor the file gets a byte more, or is cut to 10 bytes;
                                             then the call is done
       grow-eio, cut-eio                     the same, and the call does nothing and fails */
#define _GNU_SOURCE
#include <errno.h>
#include <fcntl.h>
#include <limits.h>
#include <signal.h>
#include <stdbool.h>
#include <stdio.h>
#include <stdlib.h>
#include <string.h>
#include <sys/syscall.h>
#include <unistd.h>

enum { WORD = 32, CUT_TO = 10 };

static int calls;

static bool is(const char *word, const char *other)
{
    return strcmp(word, other) == 0;
}

static bool begins(const char *word, const char *start)
{
    return strncmp(word, start, strlen(start)) == 0;
}

/* ---- which calls count */

static bool in_folder(const char *path)
{
    const char *folder = getenv("ADS_FAULT_FOLDER");
    return folder && begins(path, folder) && (path[strlen(folder)] == '/' || path[strlen(folder)] == 0);
}

/* The path behind a descriptor; false where it has none. */
static bool path_of(int descriptor, char path[PATH_MAX])
{
    char link[64];
    snprintf(link, sizeof link, "/proc/self/fd/%d", descriptor);
    long length = readlink(link, path, PATH_MAX - 1);
    path[length < 0 ? 0 : length] = 0;
    return length > 0;
}

static bool counts(int descriptor)
{
    char path[PATH_MAX];
    return path_of(descriptor, path) && in_folder(path);
}

static void log_call(const char *name)
{
    const char *log = getenv("ADS_FAULT_LOG");
    int descriptor = log ? open(log, O_WRONLY | O_CREAT | O_APPEND | O_CLOEXEC, 0666) : -1;
    if (descriptor < 0)
        return;
    syscall(SYS_write, descriptor, name, strlen(name));
    syscall(SYS_write, descriptor, "\n", 1);
    close(descriptor);
}

/* Counts a call; `word` is what happens at it, or empty. */
static void count(const char *name, char word[WORD])
{
    const char *entry = getenv("ADS_FAULTS");
    int number, used;
    char found[WORD];
    word[0] = 0;
    calls++;
    log_call(name);
    while (entry && sscanf(entry, "%d:%31s%n", &number, found, &used) == 2) {
        if (number == calls)
            strcpy(word, found);
        entry += used;
    }
}

/* ---- what happens at a call */

static int error_of(const char *word)
{
    const char *last = strrchr(word, '-');
    const char *name = last ? last + 1 : word;
    return is(name, "eio") ? EIO : is(name, "enospc") ? ENOSPC : is(name, "eintr") ? EINTR : 0;
}

static long fail(int error)
{
    errno = error;
    return -1;
}

static void end_process(void)
{
    kill(getpid(), SIGKILL);
}

static void before_call(int descriptor, const char *word)
{
    char path[PATH_MAX];
    if (is(word, "kill-before"))
        end_process();
    if (is(word, "int") || is(word, "term") || is(word, "hup"))
        kill(getpid(), is(word, "int") ? SIGINT : is(word, "term") ? SIGTERM : SIGHUP);
    if (begins(word, "grow") && path_of(descriptor, path)) {
        int other = open(path, O_WRONLY | O_APPEND | O_CLOEXEC);
        syscall(SYS_write, other, "x", 1);
        close(other);
    }
    if (begins(word, "cut") && path_of(descriptor, path))
        syscall(SYS_truncate, path, CUT_TO);
}

static long write_call(const char *name, long number, int descriptor, const void *bytes, size_t length, off_t place)
{
    char word[WORD];
    count(name, word);
    before_call(descriptor, word);
    bool half = begins(word, "half-") || is(word, "short") || is(word, "kill-half");
    if (error_of(word) && !half)
        return fail(error_of(word));
    long result = syscall(number, descriptor, bytes, half ? length / 2 : length, place);
    if (is(word, "kill-half") || is(word, "kill-after"))
        end_process();
    return error_of(word) ? fail(error_of(word)) : result;
}

/* A call that writes no bytes: `descriptor` is that of its file, or -1. */
static long other_call(const char *name, int descriptor, long number, long a, long b, long c, long d, long e)
{
    char word[WORD];
    count(name, word);
    before_call(descriptor, word);
    if (error_of(word))
        return fail(error_of(word));
    long result = syscall(number, a, b, c, d, e);
    if (is(word, "kill-after"))
        end_process();
    return result;
}

/* ---- the calls that stand in the place of the C library's */

ssize_t write(int descriptor, const void *bytes, size_t length)
{
    if (!counts(descriptor))
        return syscall(SYS_write, descriptor, bytes, length);
    return write_call("write", SYS_write, descriptor, bytes, length, 0);
}

ssize_t pwrite64(int descriptor, const void *bytes, size_t length, off64_t place)
{
    if (!counts(descriptor))
        return syscall(SYS_pwrite64, descriptor, bytes, length, place);
    return write_call("pwrite", SYS_pwrite64, descriptor, bytes, length, place);
}

ssize_t pwrite(int descriptor, const void *bytes, size_t length, off_t place)
{
    return pwrite64(descriptor, bytes, length, place);
}

int fsync(int descriptor)
{
    if (!counts(descriptor))
        return syscall(SYS_fsync, descriptor);
    return other_call("fsync", descriptor, SYS_fsync, descriptor, 0, 0, 0, 0);
}

int fdatasync(int descriptor)
{
    if (!counts(descriptor))
        return syscall(SYS_fdatasync, descriptor);
    return other_call("fdatasync", descriptor, SYS_fdatasync, descriptor, 0, 0, 0, 0);
}

int ftruncate64(int descriptor, off64_t length)
{
    if (!counts(descriptor))
        return syscall(SYS_ftruncate, descriptor, length);
    return other_call("ftruncate", descriptor, SYS_ftruncate, descriptor, length, 0, 0, 0);
}

int ftruncate(int descriptor, off_t length)
{
    return ftruncate64(descriptor, length);
}

int linkat(int old_folder, const char *old, int new_folder, const char *new, int flags)
{
    if (!in_folder(new))
        return syscall(SYS_linkat, old_folder, old, new_folder, new, flags);
    return other_call("link", -1, SYS_linkat, old_folder, (long)old, new_folder, (long)new, flags);
}

int link(const char *old, const char *new)
{
    return linkat(AT_FDCWD, old, AT_FDCWD, new, 0);
}

int unlink(const char *path)
{
    if (!in_folder(path))
        return syscall(SYS_unlink, path);
    return other_call("unlink", -1, SYS_unlink, (long)path, 0, 0, 0, 0);
}
