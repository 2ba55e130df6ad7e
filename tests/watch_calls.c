/* Writes down each call that the program makes of its file and its streams, into which this library is loaded, and makes
 * some of them fail. CALLS names the file that takes the list: a letter for what was called, the place and the length as
 * eight bytes each, and what was written. FAILED has the numbers of calls of the file that fail, counted from 1 and with a
 * comma behind each; FAILED_IN and FAILED_OUT those of the script and of the replies. HELD has those of the syncs in
 * front of which the run stops itself, until it is continued. A read of the script gets at most as many bytes as PIECE
 * has. tests/hostile compiles and uses it. */
#define _GNU_SOURCE
#include <errno.h>
#include <fcntl.h>
#include <signal.h>
#include <stdint.h>
#include <stdlib.h>
#include <string.h>
#include <sys/syscall.h>
#include <unistd.h>

static unsigned long of_file, of_syncs, of_script, of_replies;

/* Whether a list of numbers has this one. */
static int has(const char *list, unsigned long number) {
    for (list = list ? getenv(list) : NULL; list && *list;) {
        char *end;
        if (strtoul(list, &end, 10) == number)
            return 1;
        list = *end ? end + 1 : end;
    }
    return 0;
}

static void note(char call, uint64_t at, uint64_t length, const void *bytes) {
    static int list = -1;
    const char *name = getenv("CALLS");
    char head[17] = {call};
    if (!name)
        return;
    if (list < 0)
        list = syscall(SYS_fcntl, syscall(SYS_open, name, O_CREAT | O_WRONLY | O_APPEND, 0600), F_DUPFD, 100);
    memcpy(head + 1, &at, 8);
    memcpy(head + 9, &length, 8);
    syscall(SYS_write, list, head, sizeof head);
    if (bytes)
        syscall(SYS_write, list, bytes, length);
}

static int fails(const char *list, unsigned long number, char call) {
    if (!has(list, number))
        return 0;
    note(call, 0, 0, NULL);
    errno = EIO;
    return 1;
}

ssize_t pread64(int file, void *into, size_t length, off64_t at) {
    if (fails("FAILED", ++of_file, 'R'))
        return -1;
    ssize_t got = syscall(SYS_pread64, file, into, length, at);
    note('r', at, got < 0 ? 0 : got, NULL);
    return got;
}

ssize_t pread(int file, void *into, size_t length, off_t at) { return pread64(file, into, length, at); }

ssize_t pwrite64(int file, const void *bytes, size_t length, off64_t at) {
    if (fails("FAILED", ++of_file, 'W'))
        return -1;
    ssize_t put = syscall(SYS_pwrite64, file, bytes, length, at);
    note('w', at, put < 0 ? 0 : put, bytes);
    return put;
}

ssize_t pwrite(int file, const void *bytes, size_t length, off_t at) { return pwrite64(file, bytes, length, at); }

static int synced(long sync, int file) {
    if (fails("FAILED", ++of_file, 'S'))
        return -1;
    if (has("HELD", ++of_syncs))
        raise(SIGSTOP);
    int done = syscall(sync, file);
    note(done ? 'S' : 's', 0, 0, NULL);
    return done;
}

int fdatasync(int file) { return synced(SYS_fdatasync, file); }

int fsync(int file) { return synced(SYS_fsync, file); }

ssize_t read(int file, void *into, size_t length) {
    if (file == 0) {
        const char *piece = getenv("PIECE");
        if (fails("FAILED_IN", ++of_script, 'I'))
            return -1;
        if (piece && length > strtoul(piece, NULL, 10))
            length = strtoul(piece, NULL, 10);
    }
    ssize_t got = syscall(SYS_read, file, into, length);
    if (file == 0)
        note('i', 0, got < 0 ? 0 : got, NULL);
    return got;
}

ssize_t write(int file, const void *bytes, size_t length) {
    if (file == 1 && fails("FAILED_OUT", ++of_replies, 'O'))
        return -1;
    ssize_t put = syscall(SYS_write, file, bytes, length);
    if (file == 1)
        note('o', 0, put < 0 ? 0 : put, bytes);
    return put;
}
