/* Linked into a program with --wrap=pwrite --wrap=fsync: says on stdout, between the lines that the program prints there, of each
 * write its file's number, where it begins and how many bytes it has, and of each fsync its file's number. */
#include <stdio.h>
#include <sys/types.h>

ssize_t __real_pwrite(int file, const void *bytes, size_t count, off_t from);

ssize_t __wrap_pwrite(int file, const void *bytes, size_t count, off_t from) {
    printf("write %d %lld %zu\n", file, (long long)from, count);
    return __real_pwrite(file, bytes, count, from);
}

int __real_fsync(int file);

int __wrap_fsync(int file) {
    printf("fsync %d\n", file);
    return __real_fsync(file);
}
