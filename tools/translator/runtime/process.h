/* What the program asks of the system: its arguments, errno, and files.
 *
 * The toolchain's crates `os` (`src/c.rt`) and `libc` (`src/lib.rt`) declare these functions for Linux, and their
 * contracts say what each has to do. Every proof takes that for granted, and nothing proves that this file does it. It
 * stands on POSIX and on flock alone. Where a system has other numbers for errors and flags than Linux has, those of
 * Linux are translated. */
#include <errno.h>
#include <fcntl.h>
#include <signal.h>
#include <stdarg.h>
#include <stdio.h>
#include <sys/file.h>
#include <sys/stat.h>
#include <unistd.h>

/* Numbers that are not translated, since all systems that are known have them. */
_Static_assert(ENOENT == 2 && EINTR == 4 && EEXIST == 17 && EINVAL == 22 && ERANGE == 34, "errors have other numbers");
_Static_assert(O_RDONLY == 0 && O_WRONLY == 1 && O_RDWR == 2, "open has other flags");
_Static_assert(SEEK_SET == 0 && SEEK_CUR == 1 && SEEK_END == 2, "lseek has other words");
_Static_assert(LOCK_SH == 1 && LOCK_EX == 2 && LOCK_NB == 4 && LOCK_UN == 8, "flock has other words");
_Static_assert(S_IFREG == 0100000 && S_IFDIR == 0040000 && S_IFLNK == 0120000 && S_IFIFO == 0010000, "other modes");
_Static_assert(S_IFCHR == 0020000 && S_IFBLK == 0060000 && S_IFSOCK == 0140000, "other modes");
_Static_assert(sizeof(off_t) == 8 && sizeof(ssize_t) == 8, "files have other sizes");

/* The words of main. */
static int word_count;
static char **words_of_main;

static inline u64 sys_rattle_arg_count(void) {
    return (u64)word_count;
}

/* Copies an argument without its final 0, and returns its length. It returns -1 where there is no such argument, and -2
 * where the room is too small, which is then full. */
static inline u64 sys_rattle_arg(u64 number, u8 *out, u64 room) {
    if (number >= (u64)word_count || words_of_main[number] == NULL) return (u64)-1;
    u64 length = strlen(words_of_main[number]);
    memcpy(out, words_of_main[number], length < room ? length : room);
    return length <= room ? length : (u64)-2;
}

/* A number of this system, and Linux's number for the same. */
struct numbered {
    int own, linux_has;
};

/* The errors of POSIX that have not the same number everywhere. Files and sockets may answer them. */
static const struct numbered errors[] = {
    {EAGAIN, 11}, {EDEADLK, 35}, {ENAMETOOLONG, 36}, {ENOLCK, 37}, {ENOSYS, 38}, {ENOTEMPTY, 39}, {ELOOP, 40},
    {EBADMSG, 74}, {EOVERFLOW, 75}, {EILSEQ, 84}, {ENOTSOCK, 88}, {ENOTSUP, 95}, {EOPNOTSUPP, 95}, {EAFNOSUPPORT, 97},
    {EADDRINUSE, 98}, {EADDRNOTAVAIL, 99}, {ENETDOWN, 100}, {ENETUNREACH, 101}, {ENETRESET, 102}, {ECONNABORTED, 103},
    {ECONNRESET, 104}, {ENOBUFS, 105}, {EISCONN, 106}, {ENOTCONN, 107}, {ETIMEDOUT, 110}, {ECONNREFUSED, 111},
    {EHOSTUNREACH, 113}, {EALREADY, 114}, {EINPROGRESS, 115}, {ESTALE, 116}, {EDQUOT, 122}, {ECANCELED, 125},
};
enum { ERRORS = sizeof errors / sizeof *errors };

static inline u32 sys_rattle_errno(void) {
    for (int at = 0; at < ERRORS; at++) {
        if (errors[at].own == errno) return (u32)errors[at].linux_has;
    }
    return (u32)errno;
}

static inline int error_of_linux(u32 error) {
    for (int at = 0; at < ERRORS; at++) {
        if ((u32)errors[at].linux_has == error) return errors[at].own;
    }
    return (int)error;
}

static inline void sys_rattle_set_errno(u32 error) {
    errno = error_of_linux(error);
}

/* Puts the text of an error into the room, with a 0 after it where both fit. It is not over strerror_r, which has two
 * forms in the C libraries. The program has one thread. */
static inline u32 sys_xpg_strerror_r(u32 error, u8 *out, u64 room) {
    const char *text = strerror(error_of_linux(error));
    u64 size = strlen(text) + 1;
    memcpy(out, text, size < room ? size : room);
    return size <= room ? 0 : ERANGE;
}

/* The flags of open, but for the first two bits. */
static const struct numbered open_flags[] = {
    {O_CREAT, 0100}, {O_EXCL, 0200}, {O_NOCTTY, 0400}, {O_TRUNC, 01000}, {O_APPEND, 02000}, {O_CLOEXEC, 02000000},
};
enum { OPEN_FLAGS = sizeof open_flags / sizeof *open_flags };

/* A mode stands after the flags where the file may be made. */
static inline u32 sys_open(const u8 *path, u32 flags, ...) {
    int own = (int)(flags & 3), left = (int)(flags & ~3u);
    mode_t mode = 0;
    for (int at = 0; at < OPEN_FLAGS; at++) {
        if ((left & open_flags[at].linux_has) != 0) own |= open_flags[at].own;
        left &= ~open_flags[at].linux_has;
    }
    if (left != 0) {
        errno = EINVAL;
        return (u32)-1;
    }
    if ((own & O_CREAT) != 0) {
        va_list rest;
        va_start(rest, flags);
        mode = (mode_t)va_arg(rest, u32);
        va_end(rest);
    }
    return (u32)open((const char *)path, own, mode);
}

/* The struct `statx` of the contracts. */
struct statx_time {
    u64 seconds;
    u32 nanoseconds, none;
};
struct statx_found {
    u32 mask, block_size;
    u64 attributes;
    u32 links, owner, group;
    u16 mode, none;
    u64 number, size, blocks, known_attributes;
    struct statx_time accessed, made, changed, modified;
    u32 own_device_major, own_device_minor, device_major, device_minor;
    u64 more[14];
};
_Static_assert(sizeof(struct statx_found) == 256, "statx has another layout");

/* Both halves of a device's number, as the C libraries for Linux have it. Of no system's numbers is anything lost. */
static inline u32 major_of(u64 device) {
    return (u32)((device >> 32 & 0xfffff000) | (device >> 8 & 0xfff));
}
static inline u32 minor_of(u64 device) {
    return (u32)((device >> 12 & 0xffffff00) | (device & 0xff));
}

static inline struct statx_found found_of(const struct stat *found) {
    return (struct statx_found){
        .mask = 0x7ff, /* all that POSIX's stat has */
        .block_size = (u32)found->st_blksize,
        .links = (u32)found->st_nlink,
        .owner = found->st_uid,
        .group = found->st_gid,
        .mode = (u16)found->st_mode,
        .number = (u64)found->st_ino,
        .size = (u64)found->st_size,
        .blocks = (u64)found->st_blocks,
        .accessed.seconds = (u64)found->st_atime,
        .changed.seconds = (u64)found->st_ctime,
        .modified.seconds = (u64)found->st_mtime,
        .own_device_major = major_of((u64)found->st_rdev),
        .own_device_minor = minor_of((u64)found->st_rdev),
        .device_major = major_of((u64)found->st_dev),
        .device_minor = minor_of((u64)found->st_dev),
    };
}

/* Linux's statx, as far as POSIX's fstatat knows it: whole seconds, and not when a file was made. Of the flags, 0x1000
 * asks for the open file itself where the path is empty, and 0x100 for a link itself. The folder -100 is that of the
 * process. */
static inline u32 sys_statx(u32 folder, const u8 *path, u32 flags, u32 mask, u8 *out) {
    int from = (int)folder == -100 ? AT_FDCWD : (int)folder, links = (flags & 0x100) != 0 ? AT_SYMLINK_NOFOLLOW : 0;
    bool is_open_file = path[0] == 0 && (flags & 0x1000) != 0;
    struct stat found;
    (void)mask;
    if ((is_open_file ? fstat(from, &found) : fstatat(from, (const char *)path, &found, links)) != 0) return (u32)-1;
    struct statx_found told = found_of(&found);
    memcpy(out, &told, sizeof told);
    return 0;
}

/* So many bytes are read or written at once at most, as by Linux. macOS refuses to move 2^31 and more. */
static inline size_t moved(u64 size) {
    return size < 0x7ffff000 ? size : 0x7ffff000;
}

static inline u64 sys_read(u32 file, u8 *out, u64 room) {
    return (u64)read((int)file, out, moved(room));
}

static inline u64 sys_write(u32 file, const u8 *from, u64 size) {
    return (u64)write((int)file, from, moved(size));
}

static inline u64 sys_readlink(const u8 *path, u8 *out, u64 room) {
    return (u64)readlink((const char *)path, (char *)out, moved(room));
}

static inline u64 sys_lseek(u32 file, u64 offset, u32 whence) {
    return (u64)lseek((int)file, (off_t)offset, (int)whence);
}

static inline u32 sys_flock(u32 file, u32 how) {
    return (u32)flock((int)file, (int)how);
}

static inline u32 sys_ftruncate(u32 file, u64 length) {
    return (u32)ftruncate((int)file, (off_t)length);
}

static inline u32 sys_fchmod(u32 file, u32 mode) {
    return (u32)fchmod((int)file, (mode_t)mode);
}

static inline u32 sys_fsync(u32 file) {
    return (u32)fsync((int)file);
}

/* Not every system has fdatasync, and fsync does all that it does. */
static inline u32 sys_fdatasync(u32 file) {
    return (u32)fsync((int)file);
}

static inline u32 sys_close(u32 file) {
    return (u32)close((int)file);
}

static inline u32 sys_chmod(const u8 *path, u32 mode) {
    return (u32)chmod((const char *)path, (mode_t)mode);
}

static inline u32 sys_chown(const u8 *path, u32 owner, u32 group) {
    return (u32)chown((const char *)path, owner, group);
}

static inline u32 sys_mkdir(const u8 *path, u32 mode) {
    return (u32)mkdir((const char *)path, (mode_t)mode);
}

static inline u32 sys_unlink(const u8 *path) {
    return (u32)unlink((const char *)path);
}

static inline u32 sys_rename(const u8 *from, const u8 *to) {
    return (u32)rename((const char *)from, (const char *)to);
}

/* The main function of C calls it first. A pipe that nobody reads any more does not end the process: write answers. */
static inline void begin(int count, char **words) {
    word_count = count;
    words_of_main = words;
    signal(SIGPIPE, SIG_IGN);
}
