// Records on descriptor 9 each call of the program that opens something, changes the folder or syncs, once it has
// succeeded. There is a line with its word, its descriptor, a number and the lengths of two strings, and then these
// strings follow. For LD_PRELOAD.
typedef unsigned long size;
extern int dprintf(int file, const char *format, ...);
extern long syscall(long number, ...);

enum { WRITE = 1, LSEEK = 8, PWRITE64 = 18, WRITEV = 20, FSYNC = 74, FDATASYNC = 75, FTRUNCATE = 77 };
enum { RENAME = 82, LINK = 86, UNLINK = 87, OPENAT = 257 };
enum { AT_FDCWD = -100, CURRENT = 1, RECORD = 9 };

// A part of what is written at once.
struct part {
    const char *bytes;
    size count;
};

static size length(const char *text) {
    size count = 0;
    while (text[count] != 0) {
        count++;
    }
    return count;
}

static void put(const char *bytes, size count) {
    while (count > 0) {
        long written = syscall(WRITE, (long)RECORD, bytes, count);
        if (written <= 0) {
            return;
        }
        bytes += written;
        count -= (size)written;
    }
}

// Records a call with two strings.
static void tell_both(const char *word, long file, long number, const char *from, const char *to) {
    dprintf(RECORD, "%s %ld %ld %lu %lu\n", word, file, number, length(from), length(to));
    put(from, length(from));
    put(to, length(to));
}

// Records as many bytes as were written, which end at this place of the file.
static void tell_written(long file, long end, const struct part *parts, long count) {
    dprintf(RECORD, "write %ld %ld %lu 0\n", file, end - count, (size)count);
    for (; count > 0; parts++) {
        size taken = parts->count < (size)count ? parts->count : (size)count;
        put(parts->bytes, taken);
        count -= (long)taken;
    }
}

static int opened(int folder, const char *path, int flags, int mode) {
    long file = syscall(OPENAT, (long)folder, path, (long)flags, (long)mode);
    if (file >= 0) {
        tell_both("open", file, flags, path, "");
    }
    return (int)file;
}

int open(const char *path, int flags, int mode) { return opened(AT_FDCWD, path, flags, mode); }

int openat(int folder, const char *path, int flags, int mode) { return opened(folder, path, flags, mode); }

// What goes to the output and to the error writer changes no folder.
static long written(int file, long count, const struct part *parts) {
    if (file > 2 && count > 0) {
        tell_written(file, syscall(LSEEK, (long)file, 0L, (long)CURRENT), parts, count);
    }
    return count;
}

long write(int file, const void *bytes, size count) {
    struct part whole = {bytes, count};
    return written(file, syscall(WRITE, (long)file, bytes, count), &whole);
}

long writev(int file, const struct part *parts, int count) {
    return written(file, syscall(WRITEV, (long)file, parts, (long)count), parts);
}

long pwrite(int file, const void *bytes, size count, long place) {
    struct part whole = {bytes, count};
    long taken = syscall(PWRITE64, (long)file, bytes, count, place);
    if (taken > 0) {
        tell_written(file, place + taken, &whole, taken);
    }
    return taken;
}

// A call that returns 0 if it succeeds.
static int told(const char *word, long number, long file, long count) {
    long answer = syscall(number, file, count);
    if (answer == 0) {
        tell_both(word, file, count, "", "");
    }
    return (int)answer;
}

int ftruncate(int file, long count) { return told("truncate", FTRUNCATE, file, count); }

int fsync(int file) { return told("wait", FSYNC, file, 0); }

int fdatasync(int file) { return told("wait", FDATASYNC, file, 0); }

// A call that gives a file another name, or one more.
static int named(const char *word, long number, const char *from, const char *to) {
    long answer = syscall(number, from, to);
    if (answer == 0) {
        tell_both(word, 0, 0, from, to);
    }
    return (int)answer;
}

int rename(const char *from, const char *to) { return named("rename", RENAME, from, to); }

int link(const char *from, const char *to) { return named("link", LINK, from, to); }

int unlink(const char *path) {
    long answer = syscall(UNLINK, path);
    if (answer == 0) {
        tell_both("unlink", 0, 0, path, "");
    }
    return (int)answer;
}
