// Preloaded by the scripts of a history's file. It refuses a call that is for the history, kills the program before one, holds it before its lock, or
// writes down its calls, by what the environment says:
//   FAULT_AT=N       the Nth call that is for the history is refused: its path begins with `kept`, or its descriptor is none of the standard streams
//   FAULT_KILLS=1    in place of that the program is killed before it
//   LOCK_ERROR=N     each locking is refused by this error
//   HELD=NAME        before its first locking the program makes NAME.waits, and goes on once NAME.goes is there
//   CALLS=FILE       each call that succeeded for a file `kept..`, or for the folder, is a line of FILE: its name, the file's and the file's new one
#define _GNU_SOURCE
#include <dlfcn.h>
#include <errno.h>
#include <fcntl.h>
#include <signal.h>
#include <stdarg.h>
#include <stdio.h>
#include <stdlib.h>
#include <string.h>
#include <sys/types.h>
#include <unistd.h>
#define NEXT(name) static __typeof__(name) *next; if (!next) *(void **)&next = dlsym(RTLD_NEXT, #name)
static const char *last_of(const char *path) {
    const char *last = strrchr(path, '/');
    return last ? last + 1 : path;
}
static int is_kept(const char *path) { return strncmp(last_of(path), "kept", 4) == 0; }
static int is_refused(int is_for_history, int error) {
    static long calls;
    const char *text = getenv("FAULT_AT");
    if (!is_for_history || !text || ++calls != atol(text)) return 0;
    if (getenv("FAULT_KILLS")) raise(SIGKILL);
    errno = error;
    return 1;
}
static int open_next(const char *path, int flags, mode_t mode) {
    static int (*next)(const char *, int, ...);
    if (!next) *(void **)&next = dlsym(RTLD_NEXT, "open");
    return next(path, flags, mode);
}
static int is_folder(const char *path) {
    char here[4096];
    return getcwd(here, sizeof here) && strcmp(path, here) == 0;
}
// Writes the call down where it succeeded, and leaves `errno` as it was.
static void note(int has_failed, const char *call, const char *path, const char *to) {
    int error = errno, file;
    const char *calls = getenv("CALLS");
    if (has_failed || !calls || !(is_kept(path) || is_folder(path))) return;
    file = open_next(calls, O_WRONLY | O_CREAT | O_APPEND, 0666);
    dprintf(file, "%s %s%s%s\n", call, last_of(path), to ? " " : "", to ? last_of(to) : "");
    close(file);
    errno = error;
}
// The same of a descriptor.
static void note_of(int has_failed, const char *call, int fd) {
    int error = errno;
    char link[32], path[4096];
    ssize_t length;
    snprintf(link, sizeof link, "/proc/self/fd/%d", fd);
    length = readlink(link, path, sizeof path - 1);
    if (length >= 0) {
        path[length] = 0;
        note(has_failed, call, path, NULL);
    }
    errno = error;
}
// Waits for a minute at most, so that a test ends.
static void hold(void) {
    static int is_over;
    const char *name = getenv("HELD");
    char path[4096];
    if (!name || is_over++) return;
    snprintf(path, sizeof path, "%s.waits", name);
    close(open_next(path, O_WRONLY | O_CREAT, 0666));
    snprintf(path, sizeof path, "%s.goes", name);
    for (int i = 0; i < 12000 && access(path, F_OK) != 0; i++) usleep(5000);
}
static mode_t mode_of(int flags, va_list rest) { return flags & O_CREAT ? va_arg(rest, mode_t) : 0; }
#define OPENS(name) \
int name(const char *path, int flags, ...) { \
    NEXT(name); \
    va_list rest; va_start(rest, flags); mode_t mode = mode_of(flags, rest); va_end(rest); \
    int answer = is_refused(is_kept(path), EACCES) ? -1 : next(path, flags, mode); \
    note(answer < 0, #name, path, NULL); \
    return answer; \
}
OPENS(open)
OPENS(open64)
#define OF_FILE(name, error, more, ...) \
int name more { \
    NEXT(name); \
    int answer = is_refused(1, error) ? -1 : next(__VA_ARGS__); \
    note_of(answer < 0, #name, fd); \
    return answer; \
}
OF_FILE(ftruncate, EIO, (int fd, off_t size), fd, size)
OF_FILE(ftruncate64, EIO, (int fd, off64_t size), fd, size)
OF_FILE(fsync, EIO, (int fd), fd)
OF_FILE(fdatasync, EIO, (int fd), fd)
OF_FILE(fchmod, EPERM, (int fd, mode_t mode), fd, mode)
OF_FILE(fchown, EPERM, (int fd, uid_t user, gid_t group), fd, user, group)
int flock(int fd, int how);
int flock(int fd, int how) {
    NEXT(flock);
    const char *error = getenv("LOCK_ERROR");
    hold();
    if (error) { errno = atoi(error); return -1; }
    int answer = is_refused(1, ENOLCK) ? -1 : next(fd, how);
    note_of(answer < 0, "flock", fd);
    return answer;
}
int rename(const char *from, const char *to) {
    NEXT(rename);
    int answer = is_refused(is_kept(from), EIO) ? -1 : next(from, to);
    note(answer < 0, "rename", from, to);
    return answer;
}
int unlink(const char *path) {
    NEXT(unlink);
    int answer = is_refused(is_kept(path), EIO) ? -1 : next(path);
    note(answer < 0, "unlink", path, NULL);
    return answer;
}
ssize_t write(int fd, const void *bytes, size_t size) {
    NEXT(write);
    ssize_t answer = is_refused(fd > 2, ENOSPC) ? -1 : next(fd, bytes, fd > 2 && size > 16 ? 16 : size);
    note_of(answer < 0, "write", fd);
    return answer;
}
