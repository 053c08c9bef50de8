// Meddles with the folder while the program reads it. The file that the variable VANISHES names is removed, or the one
// that GROWS names gets a byte more, once the folder is `listed` or before the file is `opened`, as WHEN says. With
// LONG the folder lists one name more, of 256 bytes of UTF-8, as some file systems do; calls on it go to the file that
// LONG names. With FAILS the folder can't be read on: of the calls that read it, the one whose number FAILS gives
// fails, counted from 1. The folder doesn't give the kind of the entry that UNTOLD names, and a look-up by the path of
// the listing doesn't find it. A file that the variable APPEARS names, with the byte `+`, is
// there once the folder is `listed`, or before a file is `named` so; of the name DANGLES there is a link that leads
// nowhere. With NOLINKS the folder has no hard links: to make one fails by the error of that number, once a file may
// have appeared. The file that VANISHES names may also be removed just before it is `removed`, and the one that SHRINKS
// names cut to five bytes before it is `opened`.
//
// Each read of the file that UNREAD names puts a byte on descriptor 9, and from the second one on they fail by the error
// of the number FAULT. With LOCKS each lock fails with the error of that number. With INTERRUPTED this many writes to
// the output are interrupted, one after the other. With MODES descriptor 9 has a line for each file that is created: its
// mode, as requested and as it is, whether nothing was there before, and its name; and one for each change of a mode.
// For LD_PRELOAD.
typedef unsigned long size;
extern char *getenv(const char *name);
extern long syscall(long number, ...);
extern long atol(const char *text);
extern int dprintf(int file, const char *format, ...);
extern int *__errno_location(void);

enum { READ = 0, WRITE = 1, CLOSE = 3, FLOCK = 73, TRUNCATE = 76, LINK = 86, UNLINK = 87, SYMLINK = 88, CHMOD = 90 };
enum { FCHMOD = 91, UMASK = 95, GETDENTS64 = 217, OPENAT = 257, FCHMODAT = 268, STATX = 332 };
enum { AT_FDCWD = -100, EMPTY = 0x1000, ACCESS = 3, WRONLY = 1, CREATE = 0100, NEW = 0200, APPEND = 02000, MODE = 0644 };
enum { UNKNOWN = 0, REGULAR = 8, EINTR = 4, EIO = 5, SHORT = 5, OUTPUT = 1, TOLD = 9 };

// An entry: its number, the next one's place, its length, its type, and its name after these 19 bytes, which ends
// with a zero.
enum { LONGEST = 256, HEAD = 19, ENTRY = 280 };

static int is(const char *text, const char *word) {
    while (*text != 0 && *text == *word) {
        text++;
        word++;
    }
    return *text == *word;
}

static size length(const char *text) {
    size count = 0;
    while (text[count] != 0) {
        count++;
    }
    return count;
}

// Adds a byte to a file, which is made where there is none and `flags` say so.
static void grow(const char *path, long flags) {
    long file = syscall(OPENAT, (long)AT_FDCWD, path, WRONLY | APPEND | flags, (long)MODE);
    syscall(WRITE, file, "+", 1UL);
    syscall(CLOSE, file);
}

static int fail_by(long error) {
    *__errno_location() = (int)error;
    return -1;
}

static int fail(void) { return fail_by(EIO); }

static void meddle(const char *when) {
    const char *wanted = getenv("WHEN");
    const char *vanishes = getenv("VANISHES");
    const char *grows = getenv("GROWS");
    const char *shrinks = getenv("SHRINKS");
    const char *appears = getenv("APPEARS");
    const char *dangles = getenv("DANGLES");
    if (wanted == 0 || !is(wanted, when)) {
        return;
    }
    if (vanishes != 0) {
        syscall(UNLINK, vanishes);
    }
    if (grows != 0) {
        grow(grows, 0);
    }
    if (shrinks != 0) {
        syscall(TRUNCATE, shrinks, (long)SHORT);
    }
    if (appears != 0) {
        grow(appears, CREATE);
    }
    if (dangles != 0) {
        syscall(SYMLINK, "nowhere", dangles);
    }
}

static int is_meant(const char *path, const char *variable) {
    const char *name = getenv(variable);
    return name != 0 && is(path, name);
}

static int look(int folder, const char *path, int flags, unsigned mask, void *found) {
    return syscall(STATX, (long)folder, path, (long)flags, (long)mask, found);
}

// Says of a file that is made which mode it was to have and has.
static void tell_mode(int file, const char *path, int flags, int mode) {
    unsigned short found[128];
    if (file >= 0 && (flags & CREATE) != 0 && getenv("MODES") != 0) {
        look(file, "", EMPTY, 2, found);
        dprintf(TOLD, "%o %o %s %s\n", mode, found[14] & 0777, (flags & NEW) != 0 ? "new" : "found", path);
    }
}

// The descriptor of the file that UNREAD names.
static int unread = -1;

static int opened(int folder, const char *path, int flags, int mode) {
    if ((flags & ACCESS) == 0 && (is_meant(path, "VANISHES") || is_meant(path, "GROWS") || is_meant(path, "SHRINKS"))) {
        meddle("opened");
    }
    int file = syscall(OPENAT, (long)folder, path, (long)flags, (long)mode);
    tell_mode(file, path, flags, mode);
    if (is_meant(path, "UNREAD")) {
        unread = file;
    } else if (file == unread) {
        unread = -1;
    }
    return file;
}

int open(const char *path, int flags, int mode) { return opened(AT_FDCWD, path, flags, mode); }

int openat(int folder, const char *path, int flags, int mode) { return opened(folder, path, flags, mode); }

// Puts the entry of the long name, which is 128 times a letter of two bytes.
static long put_long(char *entry) {
    for (int k = 0; k < ENTRY; k++) {
        entry[k] = 0;
    }
    entry[0] = 1;
    entry[16] = (char)(ENTRY & 255);
    entry[17] = (char)(ENTRY >> 8);
    entry[18] = REGULAR;
    for (int k = 0; k < LONGEST; k += 2) {
        entry[HEAD + k] = (char)0xc3;
        entry[HEAD + k + 1] = (char)0xa4;
    }
    return ENTRY;
}

long read(int file, void *bytes, size count) {
    static long seen = 0;
    if (file >= 0 && file == unread) {
        syscall(WRITE, (long)TOLD, "!", 1UL);
        if (++seen > 1) {
            return fail_by(atol(getenv("FAULT")));
        }
    }
    return syscall(READ, (long)file, bytes, count);
}

long write(int file, const void *bytes, size count) {
    static long seen = 0;
    const char *interrupted = getenv("INTERRUPTED");
    if (file == OUTPUT && interrupted != 0 && seen++ < atol(interrupted)) {
        return fail_by(EINTR);
    }
    return syscall(WRITE, (long)file, bytes, count);
}

int flock(int file, int how) {
    const char *error = getenv("LOCKS");
    return error != 0 ? fail_by(atol(error)) : (int)syscall(FLOCK, (long)file, (long)how);
}

// Reports a call that changes a mode, or the modes of files to come.
static long changed(const char *word, long number, long first, long second, long third) {
    if (getenv("MODES") != 0) {
        dprintf(TOLD, "%s\n", word);
    }
    return syscall(number, first, second, third);
}

int chmod(const char *path, unsigned mode) { return changed("chmod", CHMOD, (long)path, mode, 0); }

int fchmod(int file, unsigned mode) { return changed("fchmod", FCHMOD, file, mode, 0); }

int fchmodat(int folder, const char *path, unsigned mode) { return changed("fchmodat", FCHMODAT, folder, (long)path, mode); }

unsigned umask(unsigned mode) { return changed("umask", UMASK, mode, 0, 0); }

// Whether this call, which reads the folder, is the one that fails.
static int is_failing(void) {
    static long seen = 0;
    const char *number = getenv("FAILS");
    return number != 0 && ++seen == atol(number);
}

int link(const char *from, const char *to) {
    if (is_meant(to, "APPEARS") || is_meant(to, "DANGLES")) {
        meddle("named");
    }
    const char *error = getenv("NOLINKS");
    return error != 0 ? fail_by(atol(error)) : (int)syscall(LINK, from, to);
}

int unlink(const char *path) {
    if (is_meant(path, "VANISHES")) {
        meddle("removed");
    }
    return syscall(UNLINK, path);
}

// Takes the kind of the entry that UNTOLD names out of these entries.
static void forget_kind(char *entries, long count) {
    for (long at = 0; at < count; at += *(unsigned short *)(entries + at + 16)) {
        if (is_meant(entries + at + HEAD, "UNTOLD")) {
            entries[at + 18] = UNKNOWN;
        }
    }
}

long getdents64(int folder, void *entries, size room) {
    static int is_listed = 0;
    if (is_failing()) {
        return fail();
    }
    long count = syscall(GETDENTS64, (long)folder, entries, room);
    if (count == 0) {
        meddle("listed");
    }
    if (count > 0 && !is_listed && getenv("LONG") != 0 && room - (size)count >= ENTRY) {
        is_listed = 1;
        count += put_long((char *)entries + count);
    }
    forget_kind((char *)entries, count);
    return count;
}

int statx(int folder, const char *path, int flags, unsigned mask, void *found) {
    const char *file = getenv("LONG");
    if (path[0] == '.' && path[1] == '/' && is_meant(path + 2, "UNTOLD")) {
        return fail();
    }
    const char *asked = file != 0 && length(path) >= LONGEST ? file : path;
    return look(folder, asked, flags, mask, found);
}
