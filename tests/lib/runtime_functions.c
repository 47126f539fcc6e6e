/* Holds the C functions under the generated code to what the toolchain's contracts say of them:
 *
 *     ./runtime_functions one three
 *
 * It works in the folder in which it is run, which has to be empty. It prints each line that does not hold, and its
 * status is the number of these. With as_macos.h before it, errors and flags have the numbers of macOS. */
#include "types.h"
#include "heap.h"
#include "process.h"

#include <stdio.h>
#include <sys/syscall.h>
#include <sys/time.h>

enum { REGULAR = 0100000, FOLDER = 0040000, LINK = 0120000, PIPE = 0010000, DEVICE = 0020000 };
/* Linux's numbers, by which the program knows errors and flags. */
enum { NO_FILE = 2, INTERRUPTED = 4, BAD_FILE = 9, TRY_AGAIN = 11, IS_THERE = 17, NO_FOLDER = 20, INVALID = 22,
       NO_SEEK = 29, NO_READER = 32, NO_ROOM = 34, LONG_NAME = 36, FULL_FOLDER = 39, LOOP = 40 };
enum { READS = 02000400, WRITES = 02000401, UPDATES = 02000402, CREATES = 0100, NEW = 0300, EMPTIES = 01000,
       APPENDS = 02000 };
enum { HERE = -100, EMPTY_PATH = 0x1000, LINK_ITSELF = 0x100 };

static int failed;

#define HOLDS(what)                                  \
    do {                                             \
        if (!(what)) {                               \
            printf("line %d: %s\n", __LINE__, #what); \
            failed++;                                \
        }                                            \
    } while (0)
/* A call fails, and leaves the number of an error. */
#define FAILS(call, error) HOLDS((call) == -1 && sys_rattle_errno() == (error))

static const u8 *path(const char *text) {
    return (const u8 *)text;
}

static void blocks(void) {
    for (u64 align = 1; align <= 16; align *= 2) {
        u64_u64 first = sys_rattle_alloc(0, align), second = sys_rattle_alloc(0, align);
        u64_u64 large = sys_rattle_alloc(1000, align);
        HOLDS(first._0 == 1 && second._0 == 1 && large._0 == 1 && first._1 != second._1);
        HOLDS(first._1 % align == 0 && large._1 % align == 0);
        memset((u8 *)large._1, 7, 1000);
        large = sys_rattle_realloc((u8 *)large._1, 1000, 100000, align);
        HOLDS(large._0 == 1 && ((u8 *)large._1)[0] == 7 && ((u8 *)large._1)[999] == 7 && large._1 % align == 0);
        large = sys_rattle_realloc((u8 *)large._1, 3, 3, align);
        HOLDS(large._0 == 1 && ((u8 *)large._1)[2] == 7);
        large = sys_rattle_realloc((u8 *)large._1, 0, 0, align);
        HOLDS(large._0 == 1 && large._1 != 0);
        sys_rattle_dealloc((u8 *)large._1);
        sys_rattle_dealloc((u8 *)first._1);
        sys_rattle_dealloc((u8 *)second._1);
    }
}

/* The pointer of a refusal is not null, and a block that could not grow is as it was. The addresses are volatile, since
 * gcc warns of a block that is read after realloc, as if that had not been refused. */
static void no_memory(void) {
    volatile u64 most = INT64_MAX, used, place;
    u64_u64 block = sys_rattle_alloc(3, 1), none = sys_rattle_alloc(most, 1);
    used = none._1;
    place = block._1;
    HOLDS(block._0 == 1 && none._0 == 0 && used != 0);
    memcpy((u8 *)place, "abc", 3);
    none = sys_rattle_realloc((u8 *)place, 3, most, 1);
    HOLDS(none._0 == 0 && none._1 != 0);
    if (none._0 == 0) {
        HOLDS(memcmp((u8 *)place, "abc", 3) == 0);
        sys_rattle_dealloc((u8 *)place);
    }
}

static void arguments(void) {
    u8 out[6] = {'.', '.', '.', '.', '.', '.'};
    HOLDS(sys_rattle_arg_count() == 3);
    HOLDS(sys_rattle_arg(1, out, 6) == 3 && memcmp(out, "one...", 6) == 0);
    HOLDS(sys_rattle_arg(2, out, 5) == 5 && memcmp(out, "three.", 6) == 0);
    HOLDS(sys_rattle_arg(1, out, 2) == (u64)-2 && memcmp(out, "onree.", 6) == 0);
    HOLDS(sys_rattle_arg(1, out, 0) == (u64)-2 && memcmp(out, "onree.", 6) == 0);
    HOLDS(sys_rattle_arg(3, out, 6) == (u64)-1 && sys_rattle_arg(UINT64_MAX, out, 6) == (u64)-1);
    HOLDS(memcmp(out, "onree.", 6) == 0);
}

/* The numbers of errors, as the crate `libc` has them, go to the C library and come back. */
static void errors_of_calls(void) {
    static const u32 known[] = {1, 2, 3, 4, 5, 7, 8, 9, 10, 11, 12, 13, 17, 18, 20, 21, 22, 24, 27, 28, 29, 30, 32, 34,
                                36, 39, 40, 88, 97, 98, 99, 103, 104, 106, 107, 110, 111, 114, 115};
    for (size_t at = 0; at < sizeof known / sizeof *known; at++) {
        sys_rattle_set_errno(known[at]);
        HOLDS(sys_rattle_errno() == known[at]);
    }
    errno = EAGAIN;
    HOLDS(sys_rattle_errno() == TRY_AGAIN);
    errno = ENAMETOOLONG;
    HOLDS(sys_rattle_errno() == LONG_NAME);
    sys_rattle_set_errno(FULL_FOLDER);
    HOLDS(errno == ENOTEMPTY);
    sys_rattle_set_errno(0);
    HOLDS(errno == 0 && sys_rattle_errno() == 0);
}

static void texts_of_errors(void) {
    u8 out[64];
    memset(out, '.', sizeof out);
    HOLDS(sys_xpg_strerror_r(NO_FILE, out, sizeof out) == 0 && strcmp((char *)out, strerror(ENOENT)) == 0);
    u64 size = strlen(strerror(ENOENT));
    memset(out, '.', sizeof out);
    HOLDS(sys_xpg_strerror_r(NO_FILE, out, size) == NO_ROOM);
    HOLDS(memcmp(out, strerror(ENOENT), size) == 0 && out[size] == '.');
    HOLDS(sys_xpg_strerror_r(NO_FILE, out, 0) == NO_ROOM);
    HOLDS(sys_xpg_strerror_r(LOOP, out, sizeof out) == 0 && strcmp((char *)out, strerror(ELOOP)) == 0);
    HOLDS(sys_xpg_strerror_r(100000, out, sizeof out) == 0 && out[0] != 0);
}

/* What a file holds, in a room of eight bytes. */
static int is_held(const char *name, const char *text) {
    u8 out[8];
    u32 file = sys_open(path(name), READS);
    u64 size = sys_read(file, out, sizeof out);
    return sys_close(file) == 0 && size == strlen(text) && memcmp(out, text, size) == 0;
}

static int write_to(const char *name, u32 flags, const char *text) {
    u32 file = sys_open(path(name), flags, 0666);
    return sys_write(file, path(text), strlen(text)) == strlen(text) && sys_close(file) == 0;
}

static void opened(void) {
    static u8 long_name[300];
    memset(long_name, 'a', sizeof long_name - 1);
    HOLDS(write_to("file", WRITES | NEW, "abc") && is_held("file", "abc"));
    FAILS((int)sys_open(path("file"), WRITES | NEW, 0666), IS_THERE);
    HOLDS(write_to("file", WRITES, "d") && is_held("file", "dbc"));
    HOLDS(write_to("file", WRITES | APPENDS, "e") && is_held("file", "dbce"));
    HOLDS(write_to("file", UPDATES | APPENDS | CREATES, "f") && is_held("file", "dbcef"));
    HOLDS(write_to("file", WRITES | CREATES | EMPTIES, "g") && is_held("file", "g"));
    HOLDS(write_to("file", UPDATES | EMPTIES, "") && is_held("file", ""));
    FAILS((int)sys_open(path("none"), READS), NO_FILE);
    FAILS((int)sys_open(path("none"), WRITES), NO_FILE);
    FAILS((int)sys_open(path("file/none"), READS), NO_FOLDER);
    FAILS((int)sys_open(long_name, READS), LONG_NAME);
    FAILS((int)sys_open(path("file"), READS | 04000000), INVALID);
    HOLDS(symlink("loop", "loop") == 0);
    FAILS((int)sys_open(path("loop"), READS), LOOP);
}

static u32 mode_of(const char *name, u32 flags) {
    struct statx_found found;
    return sys_statx((u32)HERE, path(name), flags, 0xfff, (u8 *)&found) == 0 ? found.mode : 0;
}

static void moved_bytes(void) {
    u8 out[4] = {'.', '.', '.', '.'};
    HOLDS(write_to("moved", WRITES | NEW, "abc"));
    u32 file = sys_open(path("moved"), UPDATES);
    HOLDS(sys_read(file, out, 0) == 0 && sys_write(file, out, 0) == 0 && out[0] == '.');
    HOLDS(sys_read(file, out, 2) == 2 && memcmp(out, "ab..", 4) == 0);
    HOLDS(sys_read(file, out, 4) == 1 && sys_read(file, out, 4) == 0 && memcmp(out, "cb..", 4) == 0);
    HOLDS(sys_lseek(file, (u64)-2, 2) == 1 && sys_lseek(file, 1, 1) == 2 && sys_lseek(file, 1, 0) == 1);
    FAILS((i64)sys_lseek(file, (u64)-1, 0), INVALID);
    HOLDS(sys_ftruncate(file, 2) == 0 && is_held("moved", "ab") && sys_ftruncate(file, 0) == 0 && is_held("moved", ""));
    FAILS((int)sys_ftruncate(file, (u64)-1), INVALID);
    HOLDS(sys_fsync(file) == 0 && sys_fdatasync(file) == 0);
    HOLDS(sys_fchmod(file, 0640) == 0 && (mode_of("moved", 0) & 07777) == 0640);
    HOLDS(sys_close(file) == 0);
    FAILS((int)sys_ftruncate(file, 0), BAD_FILE);
    FAILS((int)sys_fsync(file), BAD_FILE);
    FAILS((int)sys_fdatasync(file), BAD_FILE);
    FAILS((int)sys_fchmod(file, 0640), BAD_FILE);
    FAILS((int)sys_close(file), BAD_FILE);
    FAILS((i64)sys_read(file, out, 4), BAD_FILE);
    FAILS((i64)sys_write(file, out, 4), BAD_FILE);
    HOLDS(moved(0) == 0 && moved(1) == 1 && moved(INT64_MAX) <= INT32_MAX && moved(UINT64_MAX) > 0);
}

static void on_alarm(int number) {
    (void)number;
}

/* A pipe has no places. A call that a signal ends answers, and so does one to a pipe that nobody reads any more. */
static void pipes(void) {
    struct sigaction on = {.sa_handler = on_alarm};
    struct itimerval soon = {.it_value.tv_usec = 50000};
    int ends[2];
    u8 out[4];
    HOLDS(pipe(ends) == 0 && sigaction(SIGALRM, &on, NULL) == 0);
    FAILS((i64)sys_lseek((u32)ends[0], 0, 1), NO_SEEK);
    HOLDS(setitimer(ITIMER_REAL, &soon, NULL) == 0);
    FAILS((i64)sys_read((u32)ends[0], out, sizeof out), INTERRUPTED);
    HOLDS(sys_write((u32)ends[1], path("ab"), 2) == 2 && sys_read((u32)ends[0], out, sizeof out) == 2);
    HOLDS(sys_close((u32)ends[0]) == 0);
    FAILS((i64)sys_write((u32)ends[1], out, 1), NO_READER);
    HOLDS(sys_close((u32)ends[1]) == 0);
}

static void names(void) {
    u8 out[8] = {'.', '.', '.', '.', '.', '.', '.', '.'};
    mode_t kept = umask(022);
    HOLDS(write_to("old", WRITES | NEW, "x") && sys_rename(path("old"), path("new")) == 0 && is_held("new", "x"));
    FAILS((int)sys_rename(path("old"), path("new")), NO_FILE);
    HOLDS(sys_mkdir(path("folder"), 0777) == 0);
    FAILS((int)sys_mkdir(path("folder"), 0777), IS_THERE);
    HOLDS(write_to("folder/inside", WRITES | NEW, "x") && sys_mkdir(path("other"), 0700) == 0);
    FAILS((int)sys_rename(path("other"), path("folder")), FULL_FOLDER);
    HOLDS(symlink("new", "link") == 0 && sys_readlink(path("link"), out, sizeof out) == 3);
    HOLDS(memcmp(out, "new.....", 8) == 0 && sys_readlink(path("link"), out + 4, 2) == 2);
    HOLDS(memcmp(out, "new.ne..", 8) == 0);
    FAILS((i64)sys_readlink(path("new"), out, sizeof out), INVALID);
    HOLDS(sys_chown(path("new"), UINT32_MAX, UINT32_MAX) == 0);
    FAILS((int)sys_chown(path("old"), UINT32_MAX, UINT32_MAX), NO_FILE);
    HOLDS(sys_unlink(path("new")) == 0);
    FAILS((int)sys_unlink(path("new")), NO_FILE);
    HOLDS(write_to("new", WRITES | NEW, "x"));
    umask(kept);
}

static void modes(void) {
    HOLDS(mode_of("new", 0) == (REGULAR | 0644) && mode_of("folder", 0) == (FOLDER | 0755));
    HOLDS(mode_of("other", 0) == (FOLDER | 0700) && mode_of("link", 0) == (REGULAR | 0644));
    HOLDS((mode_of("link", LINK_ITSELF) & ~07777u) == LINK);
    HOLDS(sys_chmod(path("link"), 0600) == 0 && mode_of("new", 0) == (REGULAR | 0600));
    HOLDS(sys_chmod(path("new"), 04751) == 0 && mode_of("new", 0) == (REGULAR | 04751));
    FAILS((int)sys_chmod(path("none"), 0600), NO_FILE);
}

static void locks(void) {
    u32 one = sys_open(path("new"), READS), other = sys_open(path("new"), READS);
    HOLDS(sys_flock(one, 2) == 0);
    FAILS((int)sys_flock(other, 2 | 4), TRY_AGAIN);
    FAILS((int)sys_flock(other, 1 | 4), TRY_AGAIN);
    HOLDS(sys_flock(one, 8) == 0 && sys_flock(other, 1 | 4) == 0 && sys_flock(one, 1 | 4) == 0);
    HOLDS(sys_close(one) == 0 && sys_close(other) == 0);
    FAILS((int)sys_flock(one, 2), BAD_FILE);
}

/* What Linux's own statx tells, without what POSIX's stat does not have. */
static int found_by_linux(int folder, const char *name, u32 flags, u8 *found) {
    static const struct { u8 first, last; } dropped[] = {{8, 15}, {56, 63}, {72, 75}, {80, 95}, {104, 107}, {120, 123},
                                                         {144, 255}};
    int status = (int)syscall(SYS_statx, folder, name, flags, 0x7ff, found);
    for (size_t at = 0; at < sizeof dropped / sizeof *dropped; at++) {
        memset(found + dropped[at].first, 0, (size_t)(dropped[at].last - dropped[at].first + 1));
    }
    found[1] &= 7; /* of the mask the bits of POSIX's stat */
    found[2] = found[3] = 0;
    return status;
}

static int is_told(int folder, const char *name, u32 flags) {
    u8 found[256], wanted[256];
    memset(found, 0xA5, sizeof found);
    memset(wanted, 0, sizeof wanted);
    return found_by_linux(folder, name, flags, wanted) == 0 &&
           sys_statx((u32)folder, path(name), flags, 0xfff, found) == 0 && memcmp(found, wanted, sizeof found) == 0;
}

static void known_of_files(void) {
    u8 out[256];
    int file = (int)sys_open(path("new"), READS), folder = (int)sys_open(path("folder"), READS), ends[2];
    HOLDS(pipe(ends) == 0 && link("new", "again") == 0);
    HOLDS(is_told(HERE, "new", 0) && is_told(HERE, "link", 0) && is_told(HERE, "link", LINK_ITSELF));
    HOLDS(is_told(HERE, ".", 0) && is_told(HERE, "/", 0) && is_told(HERE, "/dev/null", 0));
    HOLDS(is_told(HERE, "loop", LINK_ITSELF));
    HOLDS(is_told(folder, "inside", 0) && is_told(folder, "../new", 0) && is_told(folder, "/dev/zero", 0));
    HOLDS(is_told(file, "", EMPTY_PATH) && is_told(folder, "", EMPTY_PATH) && is_told(ends[0], "", EMPTY_PATH));
    HOLDS(is_told(1, "", EMPTY_PATH) && is_told(HERE, "/proc/self/fd/0", 0));
    HOLDS((mode_of("/dev/null", 0) & ~07777u) == DEVICE);
    FAILS((int)sys_statx((u32)HERE, path("none"), 0, 0xfff, out), NO_FILE);
    FAILS((int)sys_statx((u32)HERE, path(""), 0, 0xfff, out), NO_FILE);
    FAILS((int)sys_statx((u32)HERE, path("loop"), 0, 0xfff, out), LOOP);
    FAILS((int)sys_statx((u32)HERE, path("new/none"), 0, 0xfff, out), NO_FOLDER);
    HOLDS(sys_close((u32)file) == 0 && sys_close((u32)folder) == 0);
    FAILS((int)sys_statx((u32)file, path(""), EMPTY_PATH, 0xfff, out), BAD_FILE);
    /* As the toolchain's crate `std` puts both halves of a number together. */
    for (int bit = 0; bit < 64; bit++) {
        u64 device = (u64)1 << bit, high = major_of(device), low = minor_of(device);
        HOLDS(((high & 0xfffff000) << 32 | (high & 0xfff) << 8 | (low & 0xffffff00) << 12 | (low & 0xff)) == device);
    }
}

int main(int count, char **words) {
    begin(count, words);
    blocks();
    no_memory();
    arguments();
    errors_of_calls();
    texts_of_errors();
    opened();
    moved_bytes();
    pipes();
    names();
    modes();
    locks();
    known_of_files();
    return failed;
}
