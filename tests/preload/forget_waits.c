// Lets each sync return at once, without doing anything. For LD_PRELOAD.
int fsync(int file) {
    (void)file;
    return 0;
}

int fdatasync(int file) {
    (void)file;
    return 0;
}
