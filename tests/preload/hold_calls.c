// Holds the program at one of its calls that read or change the folder: the one whose number the variable HELD gives,
// counted from 1. A byte then goes to the descriptor TELLS, and the call is made once the descriptor WAITS has a byte or
// has ended. A system may give a shared lock back before it gives the exclusive one, so between the two another run can
// have the folder: here it always does, and that moment counts as a call.
//
// With FORGETS a fault is planted. `lock`: each lock is granted at once, and nothing is locked. `look`: the first look at
// the journal under the exclusive lock sees what was there when the shared one was granted. For LD_PRELOAD.
typedef unsigned long size;
extern char *getenv(const char *name);
extern long atol(const char *text);
extern long syscall(long number, ...);
extern int *__errno_location(void);

enum { READ = 0, WRITE = 1, CLOSE = 3, LSEEK = 8, PREAD64 = 17, PWRITE64 = 18, FLOCK = 73, FSYNC = 74, FDATASYNC = 75 };
enum { FTRUNCATE = 77, RENAME = 82, LINK = 86, UNLINK = 87, FCHMOD = 91, GETDENTS64 = 217, OPENAT = 257, STATX = 332 };
enum { AT_FDCWD = -100, NOFOLLOW = 0x100, KNOWN = 0xfff, SHARED = 1, EXCLUSIVE = 2, RELEASED = 8, ENOENT = 2 };

// What is known of a file, as statx gives it.
struct known {
    char bytes[256];
};

static int is(const char *text, const char *word) {
    while (*text != 0 && *text == *word) {
        text++;
        word++;
    }
    return *text == *word;
}

static int is_forgotten(const char *what) {
    const char *forgotten = getenv("FORGETS");
    return forgotten != 0 && is(forgotten, what);
}

static int is_journal(const char *path) { return is(path, ".par2undo") || is(path, "./.par2undo"); }

// Holds the program if this is the call to hold it at.
static void hold(void) {
    static long seen = 0;
    const char *number = getenv("HELD");
    char byte;
    if (number != 0 && ++seen == atol(number)) {
        syscall(WRITE, atol(getenv("TELLS")), "!", 1UL);
        syscall(READ, atol(getenv("WAITS")), &byte, 1UL);
    }
}

static long call(long number, long first, long second, long third, long fourth) {
    hold();
    return syscall(number, first, second, third, fourth);
}

// The output and the error writer are no files of the folder.
static long call_on(long number, long file, long second, long third, long fourth) {
    return file > 2 ? call(number, file, second, third, fourth) : syscall(number, file, second, third, fourth);
}

int open(const char *path, int flags, int mode) { return call(OPENAT, AT_FDCWD, (long)path, flags, mode); }

int openat(int folder, const char *path, int flags, int mode) { return call(OPENAT, folder, (long)path, flags, mode); }

int close(int file) { return call_on(CLOSE, file, 0, 0, 0); }

long read(int file, void *bytes, size count) { return call_on(READ, file, (long)bytes, count, 0); }

long pread(int file, void *bytes, size count, long place) { return call_on(PREAD64, file, (long)bytes, count, place); }

long write(int file, const void *bytes, size count) { return call_on(WRITE, file, (long)bytes, count, 0); }

long pwrite(int file, const void *bytes, size count, long place) {
    return call_on(PWRITE64, file, (long)bytes, count, place);
}

long lseek(int file, long place, int from) { return call_on(LSEEK, file, place, from, 0); }

int ftruncate(int file, long count) { return call(FTRUNCATE, file, count, 0, 0); }

int fchmod(int file, unsigned mode) { return call(FCHMOD, file, mode, 0, 0); }

int fsync(int file) { return call(FSYNC, file, 0, 0, 0); }

int fdatasync(int file) { return call(FDATASYNC, file, 0, 0, 0); }

int rename(const char *from, const char *to) { return call(RENAME, (long)from, (long)to, 0, 0); }

int link(const char *from, const char *to) { return call(LINK, (long)from, (long)to, 0, 0); }

int unlink(const char *path) { return call(UNLINK, (long)path, 0, 0, 0); }

long getdents64(int folder, void *entries, size room) { return call(GETDENTS64, folder, (long)entries, room, 0); }

// The journal as it was when the shared lock was granted, the result of the look at it then, and whether the next look
// sees that.
static struct known journal;
static int journal_answer = 0;
static int sees_that = 0;

static int look(int folder, const char *path, int flags, unsigned mask, void *found) {
    return syscall(STATX, (long)folder, path, (long)flags, (long)mask, found);
}

int flock(int file, int how) {
    hold();
    if (is_forgotten("lock")) {
        return 0;
    }
    if ((how & EXCLUSIVE) != 0) {
        syscall(FLOCK, (long)file, (long)RELEASED);
        hold();
    }
    long answer = syscall(FLOCK, (long)file, (long)how);
    if (answer == 0 && (how & SHARED) != 0) {
        journal_answer = look(AT_FDCWD, ".par2undo", NOFOLLOW, KNOWN, &journal);
    }
    if (answer == 0 && (how & EXCLUSIVE) != 0) {
        sees_that = is_forgotten("look");
    }
    return answer;
}

int statx(int folder, const char *path, int flags, unsigned mask, void *found) {
    hold();
    if (!sees_that || !is_journal(path)) {
        return look(folder, path, flags, mask, found);
    }
    sees_that = 0;
    if (journal_answer == 0) {
        *(struct known *)found = journal;
    } else {
        *__errno_location() = ENOENT;
    }
    return journal_answer;
}
