// Refuses one growth of memory: the one whose number the variable REFUSED gives, counted from 1; if the variable
// NEXT_TOO is set, the growth after it, too. It then writes a byte on descriptor 9, so that who started the program sees
// that there was such a growth; if the variable SHOWN is set it writes one for each growth. If the variable SIZES is
// set, it writes there the number of bytes of each growth and of all memory with it, in eight bytes each. If the
// variable LARGEST is set, it refuses each growth to more bytes than that. For LD_PRELOAD.
typedef unsigned long size;
extern void *__libc_malloc(size bytes);
extern void *__libc_calloc(size count, size bytes);
extern void *__libc_realloc(void *place, size bytes);
extern void __libc_free(void *place);
extern size malloc_usable_size(void *place);
extern char *getenv(const char *name);
extern long atol(const char *text);
extern long write(int descriptor, const void *bytes, size count);

static long seen = 0;

static long held = 0;

static int is_refused(size bytes) {
    const char *largest = getenv("LARGEST");
    if (largest != 0 && bytes > (size)atol(largest)) {
        return 1;
    }
    const char *text = getenv("REFUSED");
    if (text == 0) {
        return 0;
    }
    long number = atol(text);
    ++seen;
    int is_its_turn = seen == number || (seen == number + 1 && getenv("NEXT_TOO") != 0);
    if (is_its_turn || getenv("SHOWN") != 0) {
        write(9, "!", 1);
    }
    return is_its_turn;
}

static void *grown(void *place, size bytes) {
    held += malloc_usable_size(place);
    if (getenv("SIZES") != 0) {
        long told[] = {(long)bytes, held};
        write(9, told, sizeof told);
    }
    return place;
}

void *malloc(size bytes) { return is_refused(bytes) ? 0 : grown(__libc_malloc(bytes), bytes); }

void *calloc(size count, size bytes) {
    void *place = __libc_calloc(count, bytes);
    held += malloc_usable_size(place);
    return place;
}

void *realloc(void *place, size bytes) {
    if (is_refused(bytes)) {
        return 0;
    }
    held -= malloc_usable_size(place);
    return grown(__libc_realloc(place, bytes), bytes);
}

void free(void *place) {
    held -= malloc_usable_size(place);
    __libc_free(place);
}
