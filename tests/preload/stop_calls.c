// Stops the program at one of its calls that change the folder, sync or open the folder, as each sync of its names
// does: the one whose number the variable STOPPED gives, counted from 1. The variable HOW says how: it ends by SIGKILL
// `before` the call, `behind` it, or in the `middle` of a write; or the call fails by `EIO` or `ENOSPC`. A byte is then
// written on descriptor 9, so that who started the program sees that there was such a call. For LD_PRELOAD.
typedef unsigned long size;
extern char *getenv(const char *name);
extern long atol(const char *text);
extern long syscall(long number, ...);
extern int *__errno_location(void);

enum { WRITE = 1, GETPID = 39, KILL = 62, FSYNC = 74, FDATASYNC = 75, RENAME = 82, LINK = 86, UNLINK = 87, OPENAT = 257 };
enum { AT_FDCWD = -100, ACCESS = 3, SIGKILL = 9, EIO = 5, ENOSPC = 28 };

static long seen = 0;

static void end(void) { syscall(KILL, syscall(GETPID), SIGKILL); }

static int is_stopped(void) {
    const char *number = getenv("STOPPED");
    if (number == 0 || ++seen != atol(number)) {
        return 0;
    }
    syscall(WRITE, 9, "!", 1UL);
    return 1;
}

static int is(const char *text, const char *word) {
    while (*text != 0 && *text == *word) {
        text++;
        word++;
    }
    return *text == *word;
}

// A call that changes the folder, syncs or opens the folder.
static long change(long number, long first, long second, long third, long fourth) {
    const char *how = getenv("HOW");
    if (how == 0 || !is_stopped()) {
        return syscall(number, first, second, third, fourth);
    }
    if (is(how, "EIO") || is(how, "ENOSPC")) {
        *__errno_location() = is(how, "EIO") ? EIO : ENOSPC;
        return -1;
    }
    if (is(how, "behind")) {
        syscall(number, first, second, third, fourth);
    }
    if (is(how, "middle") && number == WRITE) {
        syscall(number, first, second, third / 2);
    }
    end();
    return -1;
}

static int opened(int folder, const char *path, int flags, int mode) {
    if ((flags & ACCESS) == 0 && !is(path, ".")) {
        return syscall(OPENAT, (long)folder, path, (long)flags, (long)mode);
    }
    return change(OPENAT, folder, (long)path, flags, mode);
}

int open(const char *path, int flags, int mode) { return opened(AT_FDCWD, path, flags, mode); }

int openat(int folder, const char *path, int flags, int mode) { return opened(folder, path, flags, mode); }

// What goes to the output and to the error writer changes no folder.
long write(int file, const void *bytes, size count) {
    if (file <= 2) {
        return syscall(WRITE, (long)file, bytes, count);
    }
    return change(WRITE, file, (long)bytes, count, 0);
}

int fsync(int file) { return change(FSYNC, file, 0, 0, 0); }

int fdatasync(int file) { return change(FDATASYNC, file, 0, 0, 0); }

int rename(const char *from, const char *to) { return change(RENAME, (long)from, (long)to, 0, 0); }

int link(const char *from, const char *to) { return change(LINK, (long)from, (long)to, 0, 0); }

int unlink(const char *path) { return change(UNLINK, (long)path, 0, 0, 0); }
