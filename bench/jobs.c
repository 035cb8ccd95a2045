// jobs SOURCE TARGET JOB PIECE FIRST BEHIND: copies a file as the program renders one straight through, and does nothing
// else. The copy begins at byte FIRST of the target. The target and its marks, a byte for each 24,576 bytes, are laid out
// and synced; then each JOB bytes are written and synced, and their marks are written and synced. With PIECE 0 a job is
// read whole, before it is written, both by 256 KiB at once; else it is read and written by so many bytes at once. Where
// BEHIND isn't 0, the kernel is told to put out what was written up to each multiple of so many bytes, and isn't waited
// for.

#include <err.h>
#include <fcntl.h>
#include <stdio.h>
#include <stdlib.h>
#include <string.h>
#include <sys/stat.h>
#include <unistd.h>

enum { BLOCK = 24576, AT_ONCE = 262144 };

static void read_all(int source, char *bytes, size_t length, off_t at)
{
    if (pread(source, bytes, length, at) != (ssize_t)length)
        err(1, "read");
}

static void write_all(int target, const char *bytes, size_t length, off_t at)
{
    if (pwrite(target, bytes, length, at) != (ssize_t)length)
        err(1, "write");
}

static void sync_file(int file)
{
    if (fdatasync(file))
        err(1, "sync");
}

static int lay_out(const char *name, off_t length)
{
    int file = open(name, O_WRONLY | O_CREAT | O_EXCL, 0666);
    if (file < 0 || ftruncate(file, length))
        err(1, "%s", name);
    sync_file(file);
    return file;
}

static size_t least(size_t one, size_t other)
{
    return one < other ? one : other;
}

static void copy_whole(int source, int target, char *bytes, size_t length, off_t at, off_t first)
{
    for (size_t done = 0; done < length; done += AT_ONCE)
        read_all(source, bytes + done, least(AT_ONCE, length - done), at + done);
    for (size_t done = 0; done < length; done += AT_ONCE)
        write_all(target, bytes + done, least(AT_ONCE, length - done), first + at + done);
}

// Linux puts out what it is told isn't needed any more.
static void put_out(int target, off_t from, off_t to, off_t behind)
{
    off_t first = from / behind * behind, end = to / behind * behind;
    if (first < end)
        posix_fadvise(target, first, end - first, POSIX_FADV_DONTNEED);
}

static void copy_pieces(int source, int target, char *bytes, size_t length, off_t at, off_t first, size_t piece,
                        off_t behind)
{
    for (size_t done = 0; done < length; done += piece) {
        size_t part = least(piece, length - done);
        off_t from = first + at + done;
        read_all(source, bytes, part, at + done);
        write_all(target, bytes, part, from);
        if (behind)
            put_out(target, from, from + part, behind);
    }
}

int main(int count, char **words)
{
    if (count != 7)
        errx(2, "usage: jobs SOURCE TARGET JOB PIECE FIRST BEHIND");
    size_t job = strtoul(words[3], NULL, 10), piece = strtoul(words[4], NULL, 10);
    off_t first = strtoul(words[5], NULL, 10), behind = strtoul(words[6], NULL, 10);
    int source = open(words[1], O_RDONLY);
    struct stat state;
    if (source < 0 || fstat(source, &state) || job == 0)
        err(1, "%s", words[1]);
    size_t length = state.st_size;
    char name[4096];
    snprintf(name, sizeof name, "%s.marks", words[2]);
    int target = lay_out(words[2], first + length), marks = lay_out(name, length / BLOCK + 1);
    char *bytes = malloc(piece ? piece : job), *set = malloc(length / BLOCK + 1);
    if (!bytes || !set)
        err(1, "memory");
    memset(set, 1, length / BLOCK + 1);
    for (size_t at = 0; at < length; at += job) {
        size_t part = least(job, length - at);
        if (piece)
            copy_pieces(source, target, bytes, part, at, first, piece, behind);
        else
            copy_whole(source, target, bytes, part, at, first);
        sync_file(target);
        size_t block = at / BLOCK;
        write_all(marks, set, (at + part) / BLOCK - block, block);
        sync_file(marks);
    }
    return 0;
}
