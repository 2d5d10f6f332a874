/* Preloaded before a program: makes calls of the C library fail that it makes. It names no header, so that the toolchain's own
 * compiler builds it. What fails is said in the environment; README.md says it for people.
 *
 * Memory, each refusal in a copy of the program:
 *   COPIES=T,G     at each malloc and realloc the program forks. The copy finds no memory at that call, and runs on to its end. Then
 *                  what came of it is written to the descriptor T, a byte is waited for at G, and the program goes on, with memory
 *   COPIES_FROM=input   only from the first read of standard input on; COPIES_FROM=N: from the Nth call on; COPIES_TO=N: up to that
 *   COPIES_MORE=K  the copy finds none at its Kth call after that one either; COPIES_MORE=all: nor at any after it
 *   STORE=NAME     a file of the working folder, and its log NAME-wal: the copy works in a folder 'copy' on copies of both
 *   MEMORY_COUNT=1 how many calls there were is told on standard error at the end
 *
 * Memory, in the program itself:
 *   RARE=N SEED=S  by chance one call of N finds none, from the first connection or the first read of standard input on
 *
 * Files: the calls that change one are pwrite, ftruncate, fdatasync and fsync
 *   CALL=N         what CALL_HOW says happens at the Nth of them: kill (the program ends there), once (it fails), rest (so does each
 *                  after it), half (half of it is written, and it fails), lose (nothing is written, and it tells that it was)
 *   CALL_READS=1   pread counts and fails, too
 *   CALL_RARE=N SEED=S  by chance one call of N fails
 *   ROOM=N         so many bytes more may be stored in all, and then the disk is full
 *   CALL_COUNT=1   how many there were is told on standard error at the end
 *   SYNC_COUNT=1   at the end is told how many fdatasync and fsync were done, and how often something went to standard output or to
 *                  a socket while a file had bytes that were not synced
 *   SYNC_NONE=1    no fdatasync and no fsync is done: the program is one that makes none
 *
 * The clock:
 *   CLOCK_FILE=F   the time of day is the number of seconds in this file, which is read each time
 *
 * Standard output:
 *   PUT_MOST=N     a write takes at most N bytes; PUT_NONE=K: the Kth takes none; PUT_ROOM=N: behind N bytes a write fails
 *
 * Sockets, all of them together:
 *   SEND_MOST=N    a send takes at most N bytes; SEND_ROOM=N: behind N bytes a send fails
 *   RECV_MOST=N    a recv gives at most N bytes; RECV_ROOM=N: behind N bytes a recv fails
 */
typedef unsigned long size_t;
typedef long ssize_t;
typedef long off_t;

extern void *dlsym(void *, const char *);
extern char *getenv(const char *);
extern unsigned long strtoul(const char *, char **, int);
extern int snprintf(char *, size_t, const char *, ...);
extern int strcmp(const char *, const char *);
extern size_t strlen(const char *);
extern int open(const char *, int, ...);
extern int close(int);
extern int dup2(int, int);
extern int mkdir(const char *, unsigned);
extern int chdir(const char *);
extern int unlink(const char *);
extern ssize_t readlink(const char *, char *, size_t);
extern int memfd_create(const char *, unsigned);
extern off_t lseek(int, off_t, int);
extern int fork(void);
extern int waitpid(int, int *, int);
extern unsigned alarm(unsigned);
extern int prctl(int, unsigned long);
extern ssize_t __read(int, void *, size_t);
extern ssize_t __write(int, const void *, size_t);
extern void _exit(int);
extern int raise(int);
extern int *__errno_location(void);

/* Constants of Linux. */
enum { READ_ONLY = 0, READ_WRITE = 2, CREATE = 0100, EMPTIED = 01000 };
enum { FROM_START = 0, FROM_HERE = 1, FROM_END = 2 };
enum { IO_ERROR = 5, NO_SPACE = 28 };
enum { DIE_WITH_PARENT = 1, KILL = 9 };

/* Seconds that a copy may take. */
enum { COPY_LIMIT = 60 };

/* Descriptors above these are none of the program's. */
enum { MOST_OPEN = 64 };

static void give_up(int status) { _exit(status); }

static void *next(const char *name) {
    return dlsym((void *)-1L, name);
}

static unsigned long number(const char *name) {
    const char *text = getenv(name);
    return text ? strtoul(text, 0, 10) : 0;
}

static int is(const char *name, const char *word) {
    const char *text = getenv(name);
    return text && !strcmp(text, word);
}

static int fail(int why) {
    *__errno_location() = why;
    return -1;
}

/* Chance, the same for each seed. */

static unsigned long chance;

static int one_of(unsigned long many) {
    if (!many) return 0;
    if (!chance) chance = number("SEED") * 2654435769UL + 88172645463325253UL;
    chance ^= chance << 13;
    chance ^= chance >> 7;
    chance ^= chance << 17;
    return chance % many == 0;
}

/* Memory. */

enum { UNKNOWN, NEVER, WAITING, ALWAYS };

static int copies, tell_to, wait_for, in_copy, refuses_all;
static unsigned long rare, counted, refused_again, first_copy, last_copy;

static void prepare(void) {
    const char *text = getenv("COPIES");
    char *rest;
    rare = number("RARE");
    copies = rare ? WAITING : NEVER;
    if (!text) return;
    tell_to = strtoul(text, &rest, 10);
    wait_for = strtoul(rest + 1, 0, 10);
    copies = is("COPIES_FROM", "input") ? WAITING : ALWAYS;
    first_copy = number("COPIES_FROM");
    last_copy = number("COPIES_TO");
}

static void write_all(int to, const char *bytes, ssize_t count) {
    while (count > 0) {
        ssize_t done = __write(to, bytes, count);
        if (done <= 0) give_up(91);
        bytes += done;
        count -= done;
    }
}

/* Writes what a file has behind what another one has. */
static void copy_bytes(int from, int to) {
    static ssize_t (*real)(int, void *, size_t, off_t);
    static char room[1 << 16];
    off_t at = 0;
    ssize_t count;
    if (!real) real = next("pread");
    while ((count = real(from, room, sizeof room, at)) > 0) {
        write_all(to, room, count);
        at += count;
    }
}

/* A file in memory with all that was written to a descriptor so far. */
static int written_so_far(int to) {
    int file = memfd_create("written", 0);
    if (file < 0) give_up(92);
    copy_bytes(to, file);
    return file;
}

/* A copy of a file of the folder above, where there is one. */
static void copy_file(const char *name) {
    char above[256];
    int from, to;
    unlink(name);
    snprintf(above, sizeof above, "../%s", name);
    from = open(above, READ_ONLY);
    if (from < 0) return;
    to = open(name, READ_WRITE | CREATE | EMPTIED, 0600);
    if (to < 0) give_up(93);
    copy_bytes(from, to);
    close(from);
    close(to);
}

static int ends_as(const char *path, const char *name) {
    size_t all = strlen(path), end = strlen(name);
    return all > end && path[all - end - 1] == '/' && !strcmp(path + all - end, name);
}

/* Has each descriptor of a file stand for its copy. */
static void open_copies(const char *name) {
    char link[64], path[512];
    for (int each = 3; each < MOST_OPEN; each++) {
        ssize_t length;
        int copy;
        snprintf(link, sizeof link, "/proc/self/fd/%d", each);
        length = readlink(link, path, sizeof path - 1);
        if (length <= 0) continue;
        path[length] = 0;
        if (!ends_as(path, name)) continue;
        copy = open(name, READ_WRITE);
        if (copy < 0) give_up(94);
        dup2(copy, each);
        close(copy);
    }
}

static void take_own_files(int out, int err) {
    const char *store = getenv("STORE");
    char log[256];
    off_t at = lseek(0, 0, FROM_HERE);
    if (at >= 0) {
        int in = open("/proc/self/fd/0", READ_ONLY);
        lseek(in, at, FROM_START);
        dup2(in, 0);
        close(in);
    }
    dup2(out, 1);
    dup2(err, 2);
    close(out);
    close(err);
    if (!store) return;
    mkdir("copy", 0700);
    if (chdir("copy") < 0) give_up(95);
    snprintf(log, sizeof log, "%s-wal", store);
    copy_file(store);
    copy_file(log);
    open_copies(store);
    open_copies(log);
}

static void tell(int status, int out, int err) {
    char line[128], byte;
    int length = snprintf(line, sizeof line, "%lu %d %ld %ld\n", counted, status, lseek(out, 0, FROM_END), lseek(err, 0, FROM_END));
    write_all(tell_to, line, length);
    copy_bytes(out, tell_to);
    copy_bytes(err, tell_to);
    close(out);
    close(err);
    if (__read(wait_for, &byte, 1) != 1) give_up(96);
}

/* Whether this is the copy, whose call finds no memory. */
static int becomes_copy(void) {
    int status, out = written_so_far(1), err = written_so_far(2), copy = fork();
    if (copy < 0) give_up(97);
    if (copy == 0) {
        prctl(DIE_WITH_PARENT, KILL);
        alarm(COPY_LIMIT);
        in_copy = 1;
        refuses_all = is("COPIES_MORE", "all");
        refused_again = refuses_all || !getenv("COPIES_MORE") ? 0 : counted + number("COPIES_MORE");
        close(tell_to);
        close(wait_for);
        take_own_files(out, err);
        return 1;
    }
    while (waitpid(copy, &status, 0) < 0) {
    }
    tell(status, out, err);
    return 0;
}

static int is_refused(void) {
    if (copies == UNKNOWN) prepare();
    counted++;
    if (in_copy) return refuses_all || counted == refused_again;
    if (copies != ALWAYS || counted < first_copy || (last_copy && counted > last_copy)) return 0;
    return rare ? one_of(rare) : becomes_copy();
}

static void input_came(void) {
    if (copies == UNKNOWN) prepare();
    if (copies == WAITING) copies = ALWAYS;
}

void *malloc(size_t size) {
    static void *(*real)(size_t);
    if (!real) real = next("malloc");
    return is_refused() ? 0 : real(size);
}

void *realloc(void *block, size_t size) {
    static void *(*real)(void *, size_t);
    if (!real) real = next("realloc");
    return is_refused() ? 0 : real(block, size);
}

/* Ports. */

ssize_t read(int from, void *room, size_t size) {
    static ssize_t (*real)(int, void *, size_t);
    if (!real) real = next("read");
    if (from == 0) input_came();
    return real(from, room, size);
}

int accept(int from, void *address, void *length) {
    static int (*real)(int, void *, void *);
    if (!real) real = next("accept");
    input_came();
    return real(from, address, length);
}

int accept4(int from, void *address, void *length, int flags) {
    static int (*real)(int, void *, void *, int);
    if (!real) real = next("accept4");
    input_came();
    return real(from, address, length, flags);
}

/* Which files have bytes that were not synced, a bit for each descriptor; how many syncs there were, and how often something went out
 * while one had. */
static unsigned long unsynced, syncs, early;

static void goes_out(void) {
    if (unsynced) early++;
}

static void is_changed(int file) {
    if (file >= 0 && file < MOST_OPEN) unsynced |= 1UL << file;
}

static int is_synced(int file) {
    syncs++;
    if (file >= 0 && file < MOST_OPEN) unsynced &= ~(1UL << file);
    return 0;
}

ssize_t write(int to, const void *bytes, size_t size) {
    static unsigned long puts, most, none, left;
    static int is_set, is_bounded;
    ssize_t count;
    if (to != 1) return __write(to, bytes, size);
    goes_out();
    if (!is_set) {
        is_set = 1;
        most = number("PUT_MOST");
        none = number("PUT_NONE");
        left = number("PUT_ROOM");
        is_bounded = getenv("PUT_ROOM") != 0;
    }
    if (!size) return __write(to, bytes, size);
    if (++puts == none) return 0;
    if (most && size > most) size = most;
    if (is_bounded && !left) return fail(NO_SPACE);
    if (is_bounded && size > left) size = left;
    count = __write(to, bytes, size);
    if (is_bounded && count > 0) left -= count;
    return count;
}

/* Sockets. */

/* Of which bytes, in all, some may still pass. */
struct gate {
    unsigned long most, left;
    int is_set, is_bounded;
};

/* How many of so many bytes pass at once; below 0 where none do any more. */
static ssize_t passing(struct gate *gate, const char *most, const char *room, size_t size) {
    if (!gate->is_set) {
        gate->is_set = 1;
        gate->most = number(most);
        gate->left = number(room);
        gate->is_bounded = getenv(room) != 0;
    }
    if (gate->most && size > gate->most) size = gate->most;
    if (!gate->is_bounded || !size) return size;
    if (!gate->left) return fail(IO_ERROR);
    return size > gate->left ? gate->left : size;
}

ssize_t send(int to, const void *bytes, size_t size, int flags) {
    static ssize_t (*real)(int, const void *, size_t, int);
    static struct gate gate;
    ssize_t count = passing(&gate, "SEND_MOST", "SEND_ROOM", size);
    if (!real) real = next("send");
    goes_out();
    if (count < 0) return count;
    count = real(to, bytes, count, flags);
    if (gate.is_bounded && count > 0) gate.left -= count;
    return count;
}

ssize_t recv(int from, void *bytes, size_t size, int flags) {
    static ssize_t (*real)(int, void *, size_t, int);
    static struct gate gate;
    ssize_t count = passing(&gate, "RECV_MOST", "RECV_ROOM", size);
    if (!real) real = next("recv");
    if (count < 0) return count;
    count = real(from, bytes, count, flags);
    if (gate.is_bounded && count > 0) gate.left -= count;
    return count;
}

/* Files. */

enum { GOES, FAILS, HALF, LOST };

static unsigned long calls;

/* What becomes of the next call. */
static int fate(void) {
    static unsigned long at, call_rare;
    static int is_set, kills, rest, half, loses;
    if (!is_set) {
        is_set = 1;
        at = number("CALL");
        call_rare = number("CALL_RARE");
        kills = is("CALL_HOW", "kill");
        rest = is("CALL_HOW", "rest");
        half = is("CALL_HOW", "half");
        loses = is("CALL_HOW", "lose");
    }
    calls++;
    if (one_of(call_rare)) return FAILS;
    if (!at || calls < at || (calls > at && !rest)) return GOES;
    if (kills) raise(KILL);
    return loses ? LOST : half ? HALF : FAILS;
}

/* The bytes that the disk still takes; below 0 where that is not limited. */
static long room = -1;

static int is_limited(void) {
    static int is_set;
    if (!is_set) {
        is_set = 1;
        if (getenv("ROOM")) room = number("ROOM");
    }
    return room >= 0;
}

/* How many bytes of a write the disk takes. */
static size_t taken(int to, size_t size, off_t at) {
    off_t length, end = at + (off_t)size;
    if (!is_limited()) return size;
    length = lseek(to, 0, FROM_END);
    if (end <= length) return size;
    if (end - length > room) end = length + room;
    if (end <= at) return 0;
    room -= end - length;
    return end - at;
}

ssize_t pwrite(int to, const void *bytes, size_t size, off_t at) {
    static ssize_t (*real)(int, const void *, size_t, off_t);
    int how = fate();
    size_t count;
    if (!real) real = next("pwrite");
    if (how == FAILS) return fail(IO_ERROR);
    if (how == LOST) return size;
    if (how == HALF) {
        if (size > 1) real(to, bytes, size / 2, at);
        return fail(NO_SPACE);
    }
    is_changed(to);
    count = taken(to, size, at);
    return count || !size ? real(to, bytes, count, at) : fail(NO_SPACE);
}

ssize_t pread(int from, void *room, size_t size, off_t at) {
    static ssize_t (*real)(int, void *, size_t, off_t);
    if (!real) real = next("pread");
    return getenv("CALL_READS") && fate() != GOES ? fail(IO_ERROR) : real(from, room, size, at);
}

int ftruncate(int file, off_t length) {
    static int (*real)(int, off_t);
    int how = fate();
    long growth;
    if (!real) real = next("ftruncate");
    if (how != GOES) return how == LOST ? 0 : fail(IO_ERROR);
    if (is_limited()) {
        /* (a file that is cut gives room back) */
        growth = length - lseek(file, 0, FROM_END);
        if (growth > room) return fail(NO_SPACE);
        room -= growth;
    }
    is_changed(file);
    return real(file, length);
}

int fdatasync(int file) {
    static int (*real)(int);
    int how = fate();
    if (!real) real = next("fdatasync");
    if (getenv("SYNC_NONE")) return 0;
    return how == GOES ? real(file) ? -1 : is_synced(file) : how == LOST ? 0 : fail(IO_ERROR);
}

int fsync(int file) {
    static int (*real)(int);
    int how = fate();
    if (!real) real = next("fsync");
    if (getenv("SYNC_NONE")) return 0;
    return how == GOES ? real(file) ? -1 : is_synced(file) : how == LOST ? 0 : fail(IO_ERROR);
}

/* The clock. */

struct moment {
    long seconds, nanoseconds;
};

enum { TIME_OF_DAY = 0 };

int clock_gettime(int which, struct moment *now) {
    static int (*real)(int, struct moment *);
    const char *name = getenv("CLOCK_FILE");
    char text[32];
    int file;
    ssize_t count;
    if (!real) real = next("clock_gettime");
    if (which != TIME_OF_DAY || !name) return real(which, now);
    file = open(name, READ_ONLY);
    count = file < 0 ? -1 : __read(file, text, sizeof text - 1);
    if (file >= 0) close(file);
    text[count < 0 ? 0 : count] = 0;
    now->seconds = strtoul(text, 0, 10);
    now->nanoseconds = 0;
    return 0;
}

__attribute__((destructor)) static void count_calls(void) {
    char line[64];
    if (getenv("SYNC_COUNT")) __write(2, line, snprintf(line, sizeof line, "syncs %lu early %lu\n", syncs, early));
    if (getenv("CALL_COUNT")) __write(2, line, snprintf(line, sizeof line, "calls %lu\n", calls));
    if (getenv("MEMORY_COUNT")) __write(2, line, snprintf(line, sizeof line, "allocations %lu\n", counted));
}
