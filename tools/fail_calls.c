/* Lets calls of a program on its files fail: the one whose number stands in FAIL_CALL, counted from 1, and those of the kind
   that FAIL_KIND names, `write` (to open a file to be written), `above` (to open the current folder, or one by `..`) or `lock`.
   A write that fails has written half of its bytes. It is loaded before the C library, and writes to the file FAIL_CALL_TOLD
   a line for each call, with its number, what it was given, and at last what it answered. Calls on the standard streams
   aren't counted; what is written to the output is told as `answer`. */
#define _GNU_SOURCE
#include <dlfcn.h>
#include <errno.h>
#include <fcntl.h>
#include <stdarg.h>
#include <stdio.h>
#include <stdlib.h>
#include <string.h>
#include <sys/stat.h>
#include <unistd.h>

#define NEXT(name) ((__typeof__(&name))dlsym(RTLD_NEXT, #name))

static unsigned long failing, calls;
static const char *kind = "";
static FILE *told;

__attribute__((constructor)) static void begin(void)
{
    const char *number = getenv("FAIL_CALL"), *name = getenv("FAIL_CALL_TOLD"), *word = getenv("FAIL_KIND");

    failing = number ? strtoul(number, NULL, 10) : 0;
    kind = word ? word : "";
    told = name ? fopen(name, "we") : NULL;
}

__attribute__((destructor)) static void end(void)
{
    if (told)
        fclose(told);
}

static void tell_bytes(const unsigned char *bytes, size_t count)
{
    int error = errno;

    for (size_t at = 0; told && at < count; at++)
        fprintf(told, "%02x", bytes[at]);
    errno = error;
}

__attribute__((format(printf, 1, 2))) static void tell(const char *form, ...)
{
    va_list words;
    int error = errno;

    va_start(words, form);
    if (told)
        vfprintf(told, form, words);
    va_end(words);
    errno = error;
}

/* Counts a call, and says whether it is to fail, with this error. */
static int fails(int refused, int error)
{
    calls += 1;
    tell("%lu ", calls);
    errno = refused ? error : ENOSPC;
    return refused || calls == failing;
}

static int is(const char *word)
{
    return strcmp(kind, word) == 0;
}

static int is_above(const char *path)
{
    size_t length = strlen(path);

    return strcmp(path, ".") == 0 || (length >= 3 && strcmp(path + length - 3, "/..") == 0);
}

int open(const char *path, int flags, ...)
{
    mode_t mode = 0;
    int fd, refused = (is("write") && (flags & O_ACCMODE) != O_RDONLY) || (is("above") && is_above(path));

    if (flags & O_CREAT) {
        va_list words;
        va_start(words, flags);
        mode = va_arg(words, mode_t);
        va_end(words);
    }
    fd = fails(refused, EACCES) ? -1 : NEXT(open)(path, flags, mode);
    tell("open %s %s %d\n", flags & O_CREAT ? "make" : "find", path, fd);
    return fd;
}

ssize_t read(int fd, void *buf, size_t count)
{
    ssize_t done;

    if (fd <= 2)
        return NEXT(read)(fd, buf, count);
    done = fails(0, 0) ? -1 : NEXT(read)(fd, buf, count);
    tell("read %d %zd\n", fd, done);
    return done;
}

ssize_t write(int fd, const void *buf, size_t count)
{
    ssize_t done;
    int error, failed;

    if (fd <= 2) {
        done = NEXT(write)(fd, buf, count);
        tell("0 answer ");
        tell_bytes(buf, done < 0 ? 0 : (size_t)done);
        tell(" %zd\n", done);
        return done;
    }
    failed = fails(0, 0);
    error = errno;
    done = NEXT(write)(fd, buf, failed ? count / 2 : count);
    tell("write %d .", fd);
    tell_bytes(buf, done < 0 ? 0 : (size_t)done);
    tell(" %zd\n", failed ? -1 : done);
    if (failed)
        errno = error;
    return failed ? -1 : done;
}

off_t lseek(int fd, off_t offset, int whence)
{
    off_t done;

    if (fd <= 2)
        return NEXT(lseek)(fd, offset, whence);
    done = fails(0, 0) ? -1 : NEXT(lseek)(fd, offset, whence);
    tell("seek %d %lld\n", fd, (long long)done);
    return done;
}

int statx(int fd, const char *restrict path, int flags, unsigned int mask, struct statx *restrict found)
{
    int done = fails(0, 0) ? -1 : NEXT(statx)(fd, path, flags, mask, found);

    tell("look %d\n", done);
    return done;
}

int ftruncate(int fd, off_t length)
{
    int done = fails(0, 0) ? -1 : NEXT(ftruncate)(fd, length);

    tell("cut %d %lld %d\n", fd, (long long)length, done);
    return done;
}

int fsync(int fd)
{
    int done = fails(0, 0) ? -1 : NEXT(fsync)(fd);

    tell("sync %d %d\n", fd, done);
    return done;
}

int fdatasync(int fd)
{
    int done = fails(0, 0) ? -1 : NEXT(fdatasync)(fd);

    tell("sync %d %d\n", fd, done);
    return done;
}

int flock(int fd, int operation)
{
    int (*next)(int, int) = (int (*)(int, int))dlsym(RTLD_NEXT, "flock");
    int done = fails(is("lock"), EOPNOTSUPP) ? -1 : next(fd, operation);

    tell("lock %d %d\n", fd, done);
    return done;
}

int mkdir(const char *path, mode_t mode)
{
    int done = fails(0, 0) ? -1 : NEXT(mkdir)(path, mode);

    tell("mkdir %s %d\n", path, done);
    return done;
}

int rename(const char *from, const char *to)
{
    int done = fails(0, 0) ? -1 : NEXT(rename)(from, to);

    tell("rename %s %s %d\n", from, to, done);
    return done;
}

int unlink(const char *path)
{
    int done = fails(0, 0) ? -1 : NEXT(unlink)(path);

    tell("unlink %s %d\n", path, done);
    return done;
}

int close(int fd)
{
    if (fd > 2)
        tell("0 close %d 0\n", fd);
    return NEXT(close)(fd);
}
