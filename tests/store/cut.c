/* Loaded before a program's libraries (LD_PRELOAD), it ends the program at a chosen moment, as a kill or a power cut
 * would.
 *
 * Steps are counted from 1: each call that opens, locks, writes, shortens, flushes, renames, removes or closes a file
 * of the folder CUT_FOLDER, or the folder itself; each that writes to standard output; and the program's end.
 *   CUT_AT=k             before step k the program is killed
 *   CUT_LOSES=bytes      then half of the bytes of each file that was written after its last flush are lost,
 *   CUT_LOSES=renames    or the last rename, if the folder was not flushed after it,
 *   CUT_LOSES=bytes,renames    or both
 *   CUT_KEPT=path        where a file that a rename replaced is kept; on the same disk and not in the folder
 *   CUT_LOG=path         a line for each step */
#define _GNU_SOURCE
#include <dlfcn.h>
#include <fcntl.h>
#include <signal.h>
#include <stdarg.h>
#include <stdio.h>
#include <stdlib.h>
#include <string.h>
#include <sys/file.h>
#include <sys/stat.h>
#include <sys/uio.h>
#include <unistd.h>

#define REAL(name) ((__typeof__(&name))real(#name))
enum { FILES = 256, LENGTH = 512 };

static char open_path[FILES][LENGTH]; /* by file descriptor; empty: not in the folder */
static char unflushed[FILES][LENGTH]; /* files whose last bytes may be lost */
static char renamed_from[LENGTH], renamed_to[LENGTH]; /* the rename that may be lost */
static int replaced; /* whether it replaced a file, which is kept */
static long steps;

static void *real(const char *name) {
    void *found = dlsym(RTLD_NEXT, name);
    if (!found) abort();
    return found;
}

static const char *setting(const char *name) {
    const char *value = getenv(name);
    return value ? value : "";
}

static int in_folder(const char *path) {
    const char *folder = setting("CUT_FOLDER");
    size_t length = strlen(folder);
    return length > 0 && strncmp(path, folder, length) == 0 && (path[length] == '/' || path[length] == 0);
}

static const char *path_of(int fd) {
    return fd >= 0 && fd < FILES && open_path[fd][0] ? open_path[fd] : NULL;
}

static void keep(char *to, const char *path) {
    if (strlen(path) >= LENGTH) abort();
    strcpy(to, path);
}

/* The place of a path among the unflushed files, or a free one for it. */
static char *place_of(const char *path) {
    char *free_place = NULL;
    for (int i = 0; i < FILES; i++) {
        if (strcmp(unflushed[i], path) == 0) return unflushed[i];
        if (!unflushed[i][0] && !free_place) free_place = unflushed[i];
    }
    if (!free_place) abort();
    return free_place;
}

static void lose_bytes(void) {
    struct stat held;
    for (int i = 0; i < FILES; i++)
        if (unflushed[i][0] && stat(unflushed[i], &held) == 0 && truncate(unflushed[i], held.st_size / 2) != 0) abort();
}

static void lose_rename(void) {
    if (!renamed_to[0]) return;
    if (REAL(rename)(renamed_to, renamed_from) != 0) abort();
    if (replaced && REAL(rename)(setting("CUT_KEPT"), renamed_to) != 0) abort();
}

static void step(const char *what, const char *path) {
    const char *log = setting("CUT_LOG");
    steps++;
    if (log[0]) {
        char line[2 * LENGTH];
        int length = snprintf(line, sizeof line, "%s %s\n", what, path);
        int fd = REAL(open)(log, O_WRONLY | O_CREAT | O_APPEND, 0600);
        if (fd < 0 || REAL(write)(fd, line, length) != length) abort();
        REAL(close)(fd);
    }
    if (steps != atol(setting("CUT_AT"))) return;
    if (strstr(setting("CUT_LOSES"), "bytes")) lose_bytes();
    if (strstr(setting("CUT_LOSES"), "renames")) lose_rename();
    kill(getpid(), SIGKILL);
}

static int opened(const char *path, int fd) {
    if (fd >= FILES) abort();
    if (fd >= 0) keep(open_path[fd], in_folder(path) ? path : "");
    return fd;
}

static mode_t mode_in(int flags, va_list more) {
    return flags & O_CREAT ? va_arg(more, mode_t) : 0;
}

int open(const char *path, int flags, ...) {
    va_list more;
    va_start(more, flags);
    mode_t mode = mode_in(flags, more);
    va_end(more);
    if (in_folder(path)) step("open", path);
    int fd = opened(path, REAL(open)(path, flags, mode));
    if (path_of(fd) && (flags & O_TRUNC)) keep(place_of(path), path);
    return fd;
}

int open64(const char *path, int flags, ...) {
    va_list more;
    va_start(more, flags);
    mode_t mode = mode_in(flags, more);
    va_end(more);
    return open(path, flags, mode);
}

static void written(int fd, const char *what) {
    if (fd == STDOUT_FILENO) step("print", "");
    if (!path_of(fd)) return;
    step(what, path_of(fd));
    keep(place_of(path_of(fd)), path_of(fd));
}

ssize_t write(int fd, const void *bytes, size_t length) {
    written(fd, "write");
    return REAL(write)(fd, bytes, length);
}

ssize_t writev(int fd, const struct iovec *parts, int count) {
    written(fd, "write");
    return REAL(writev)(fd, parts, count);
}

int ftruncate(int fd, off_t length) {
    written(fd, "shorten");
    return REAL(ftruncate)(fd, length);
}

int ftruncate64(int fd, off64_t length) {
    return ftruncate(fd, length);
}

static void flushed(int fd) {
    if (!path_of(fd)) return;
    step("flush", path_of(fd));
    char *place = place_of(path_of(fd));
    place[0] = 0;
    if (strcmp(path_of(fd), setting("CUT_FOLDER")) == 0) renamed_to[0] = 0;
}

int fsync(int fd) {
    flushed(fd);
    return REAL(fsync)(fd);
}

int fdatasync(int fd) {
    flushed(fd);
    return REAL(fdatasync)(fd);
}

int rename(const char *from, const char *to) {
    if (!in_folder(to)) return REAL(rename)(from, to);
    step("rename", to);
    const char *kept = setting("CUT_KEPT");
    unlink(kept);
    replaced = link(to, kept) == 0;
    int done = REAL(rename)(from, to);
    if (done != 0) return done;
    keep(renamed_from, from);
    keep(renamed_to, to);
    char *place = place_of(from);
    if (place[0]) keep(place, to);
    return done;
}

int unlink(const char *path) {
    if (in_folder(path)) step("remove", path);
    return REAL(unlink)(path);
}

int flock(int fd, int operation) {
    if (path_of(fd)) step("lock", path_of(fd));
    return REAL(flock)(fd, operation);
}

int close(int fd) {
    if (path_of(fd)) {
        step("close", path_of(fd));
        open_path[fd][0] = 0;
    }
    return REAL(close)(fd);
}

__attribute__((destructor)) static void end(void) {
    step("end", "");
}
