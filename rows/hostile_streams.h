/* A part of `hostile.c`: streams that fail, and the calls by which the program reads and writes. */

enum ill { WELL, FAILS, NOTHING, INTERRUPTED, ONE_BYTE };
static enum ill now, reads, outs, errs; /* of this read; of each; of each write to standard output; to standard error */
static long taken; /* how many bytes standard output takes, one a call, before it is ill */
static int is_outs_tried, is_errs_tried, is_reads_tried;

static char last_name[300];

static int is_unreadable(void)
{
    char line[320], explained[660];
    snprintf(line, sizeof line, "file: %s\n", last_name);
    snprintf(explained, sizeof explained, "%s%s: it can't be read\n", line, last_name);
    return is_refused(line) || is_refused(explained);
}

/* Whether a child is made that reads like this. The place in the file is shared with it and set back. */
static int is_ill_reader(int file, enum ill one, enum ill all)
{
    off_t place = lseek(file, 0, SEEK_CUR);
    now = one;
    reads = all;
    if (in_child(tried))
        return 1;
    now = reads = WELL;
    lseek(file, place, SEEK_SET);
    return 0;
}

/* Tries each illness of a call that reads; returns 1 in a child. */
static int ill_read(int file)
{
    static long calls;
    if (role != JUDGE || harm != STREAMS)
        return 0;
    calls++;
    if (is_ill_reader(file, FAILS, WELL))
        return 1;
    judge(is_unreadable(), "read %ld fails", calls, 0);
    if (is_ill_reader(file, INTERRUPTED, WELL))
        return 1;
    judge(is_usual(), "read %ld is interrupted", calls, 0);
    if (is_reads_tried++)
        return 0;
    if (is_ill_reader(file, WELL, ONE_BYTE))
        return 1;
    judge(is_usual(), "each read gives one byte", 0, 0);
    return 0;
}

/* Tries each illness of standard output, of which so many bytes are taken first; returns 1 in a child. */
static int ill_outs(void)
{
    static const enum ill ills[] = {FAILS, NOTHING};
    const char *bound = getenv("HARM_TAKES");
    long most = bound ? atol(bound) : 300;
    if (role != JUDGE || harm != STREAMS || is_outs_tried++)
        return 0;
    if (most > (long)usual->out_length)
        most = (long)usual->out_length;
    for (taken = 0; taken <= most; taken++)
        for (int i = 0; i < 2; i++) {
            outs = ills[i];
            if (in_child(tried))
                return 1;
            int is_whole = taken == (long)usual->out_length;
            judge(is_whole ? is_usual()
                           : tried->status == 4 && says("write\n") && tried->out_length == (size_t)taken && begins_usual()
                                 && tried->writes == taken + 1,
                  i ? "write %ld takes nothing" : "write %ld fails", taken + 1, 0);
        }
    outs = INTERRUPTED;
    if (in_child(tried))
        return 1;
    judge(is_usual(), "each second write is interrupted", 0, 0);
    outs = WELL;
    return 0;
}

static int ill_errs(void)
{
    static const enum ill ills[] = {FAILS, NOTHING};
    if (role != JUDGE || harm != STREAMS || is_errs_tried++)
        return 0;
    for (int i = 0; i < 2; i++) {
        errs = ills[i];
        if (in_child(tried))
            return 1;
        judge(tried->status == usual->status && tried->out_length == usual->out_length && begins_usual(),
              i ? "standard error takes nothing" : "standard error fails", 0, 0);
    }
    errs = WELL;
    return 0;
}

static ssize_t fails(int error)
{
    errno = error;
    return -1;
}

static int opens(const char *path, int flags)
{
    if (role == JUDGE)
        snprintf(last_name, sizeof last_name, "%s", path);
    if (role == JUDGE && harm == STREAMS) {
        if (in_child(tried))
            return fails(EIO);
        judge(is_unreadable(), "the file isn't opened", 0, 0);
    }
    int file = syscall(SYS_openat, AT_FDCWD, path, flags, 0);
    const char *wanted = getenv("HARM_FILE");
    if (role == JUDGE && harm == TEXTS && file >= 0 && wanted && strcmp(path, wanted) == 0)
        damaged_file = file;
    return file;
}

/* The program opens files to read them, so it gives no mode. */
int open(const char *path, int flags, ...) { return opens(path, flags); }

int openat(int folder, const char *path, int flags, ...) { return (void)folder, opens(path, flags); }

ssize_t read(int file, void *place, size_t size)
{
    if (file == damaged_file) {
        if (role == JUDGE && !text)
            take_in(file);
        size_t left = text_length - text_at, count = size < left ? size : left;
        memcpy(place, text + text_at, count);
        text_at += count;
        return count;
    }
    if (ill_read(file) && now != WELL) {
        int error = now == FAILS ? EIO : EINTR;
        now = WELL;
        return fails(error);
    }
    return syscall(SYS_read, file, place, reads == ONE_BYTE && size > 1 ? 1 : size);
}

int close(int file)
{
    if (file == damaged_file)
        damaged_file = -1;
    return syscall(SYS_close, file);
}

static size_t keep(char *room, size_t *length, size_t most, const void *bytes, size_t size)
{
    size_t count = size < most - *length ? size : most - *length;
    memcpy(room + *length, bytes, count);
    *length += count;
    return size;
}

ssize_t write(int file, const void *bytes, size_t size)
{
    if (role == FIRST || file > 2)
        return syscall(SYS_write, file, bytes, size);
    if (file == 2) {
        if (!ill_errs() && role == JUDGE) {
            err_here += size;
            return size;
        }
        if (errs != WELL)
            return errs == FAILS ? fails(EIO) : 0;
        return keep(mine->err, &mine->err_length, ERR_ROOM, bytes, size);
    }
    if (!ill_outs() && role == JUDGE) {
        out_here += size;
        return size;
    }
    long call = mine->writes++;
    if (outs == INTERRUPTED && call % 2 == 0)
        return fails(EINTR);
    if (outs == FAILS || outs == NOTHING) {
        if (call >= taken)
            return outs == FAILS ? fails(EIO) : 0;
        size = size < 1 ? size : 1;
    }
    return keep(mine->out, &mine->out_length, OUT_ROOM, bytes, size);
}

ssize_t writev(int file, const struct iovec *parts, int count)
{
    for (int i = 0; i < count; i++)
        if (parts[i].iov_len > 0)
            return write(file, parts[i].iov_base, parts[i].iov_len);
    return 0;
}
