/* Errors and flags with the numbers of macOS's headers, over the calls of Linux: what is compiled with this file first
 * has to translate numbers, as it has to on macOS. Darwin's sys/errno.h and sys/fcntl.h have the numbers. */
#define _DEFAULT_SOURCE
#include <errno.h>
#include <fcntl.h>
#include <stddef.h>
#include <stdint.h>
#include <stdio.h>
#include <string.h>
#include <sys/file.h>
#include <sys/stat.h>
#include <unistd.h>
#undef _DEFAULT_SOURCE /* what is compiled defines it itself */

static const int errors_of_both[][2] = {
    {EAGAIN, 35}, {EDEADLK, 11}, {ENAMETOOLONG, 63}, {ENOLCK, 77}, {ENOSYS, 78}, {ENOTEMPTY, 66}, {ELOOP, 62},
    {EOVERFLOW, 84}, {EILSEQ, 92}, {ENOTSUP, 45}, {EDQUOT, 69}, {ETIMEDOUT, 60},
};
static const int flags_of_both[][2] = {
    {O_CREAT, 0x200}, {O_EXCL, 0x800}, {O_NOCTTY, 0x20000}, {O_TRUNC, 0x400}, {O_APPEND, 8}, {O_CLOEXEC, 0x1000000},
};
static int errno_of_macos;

/* The answer of a call of Linux, and macOS's number of its error. */
static inline long answered(long answer) {
    if (answer == -1) errno_of_macos = errno;
    for (size_t at = 0; answer == -1 && at < sizeof errors_of_both / sizeof *errors_of_both; at++) {
        if (errors_of_both[at][0] == errno) errno_of_macos = errors_of_both[at][1];
    }
    return answer;
}

/* macOS moves no more bytes at once. */
static inline long refused_size(void) {
    errno = EINVAL;
    return -1;
}

static inline int error_for_linux(int error) {
    for (size_t at = 0; at < sizeof errors_of_both / sizeof *errors_of_both; at++) {
        if (errors_of_both[at][1] == error) return errors_of_both[at][0];
    }
    return error;
}

static inline int flags_for_linux(int flags) {
    int made = flags & 3;
    for (size_t at = 0; at < sizeof flags_of_both / sizeof *flags_of_both; at++) {
        if ((flags & flags_of_both[at][1]) != 0) made |= flags_of_both[at][0];
    }
    return made;
}

static inline int folder_for_linux(int folder) {
    return folder >= 0 ? folder : folder == -2 ? AT_FDCWD : -1;
}

static inline int links_for_linux(int flags) {
    return flags == 0x20 ? AT_SYMLINK_NOFOLLOW : 0;
}

#define strerror(error) strerror(error_for_linux(error))
#define open(path, flags, mode) (int)answered(open(path, flags_for_linux(flags), mode))
#define fstatat(folder, path, found, flags) \
    (int)answered(fstatat(folder_for_linux(folder), path, found, links_for_linux(flags)))
#define fstat(file, found) (int)answered(fstat(file, found))
#define read(file, out, size) answered((size) > INT32_MAX ? refused_size() : read(file, out, size))
#define write(file, from, size) answered((size) > INT32_MAX ? refused_size() : write(file, from, size))
#define readlink(path, out, size) answered(readlink(path, out, size))
#define lseek(file, offset, whence) answered(lseek(file, offset, whence))
#define flock(file, how) (int)answered(flock(file, how))
#define ftruncate(file, length) (int)answered(ftruncate(file, length))
#define fchmod(file, mode) (int)answered(fchmod(file, mode))
#define fsync(file) (int)answered(fsync(file))
#define close(file) (int)answered(close(file))
#define chmod(path, mode) (int)answered(chmod(path, mode))
#define chown(path, owner, group) (int)answered(chown(path, owner, group))
#define mkdir(path, mode) (int)answered(mkdir(path, mode))
#define unlink(path) (int)answered(unlink(path))
#define rename(from, to) (int)answered(rename(from, to))

#undef errno
#define errno errno_of_macos
#undef EAGAIN
#define EAGAIN 35
#undef EDEADLK
#define EDEADLK 11
#undef ENAMETOOLONG
#define ENAMETOOLONG 63
#undef ENOLCK
#define ENOLCK 77
#undef ENOSYS
#define ENOSYS 78
#undef ENOTEMPTY
#define ENOTEMPTY 66
#undef ELOOP
#define ELOOP 62
#undef EOVERFLOW
#define EOVERFLOW 84
#undef EILSEQ
#define EILSEQ 92
#undef ENOTSUP
#define ENOTSUP 45
#undef EDQUOT
#define EDQUOT 69
#undef ETIMEDOUT
#define ETIMEDOUT 60
#undef O_CREAT
#define O_CREAT 0x200
#undef O_EXCL
#define O_EXCL 0x800
#undef O_NOCTTY
#define O_NOCTTY 0x20000
#undef O_TRUNC
#define O_TRUNC 0x400
#undef O_APPEND
#define O_APPEND 8
#undef O_CLOEXEC
#define O_CLOEXEC 0x1000000
#undef AT_FDCWD
#define AT_FDCWD (-2)
#undef AT_SYMLINK_NOFOLLOW
#define AT_SYMLINK_NOFOLLOW 0x20
