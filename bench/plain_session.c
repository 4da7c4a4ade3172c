/* Does the reads, writes and syncs of a plan on files, and prints a line for each read and write: what a session does to its disks,
 * without volumes, conflicts, order and memory of failures. The files are its words, and each line of its standard input is
 * `r FILE OFFSET BYTES`, `w FILE OFFSET BYTES` or `s FILE`, with the file's number. */
#define _FILE_OFFSET_BITS 64
#include <fcntl.h>
#include <inttypes.h>
#include <stdio.h>
#include <stdlib.h>
#include <string.h>
#include <unistd.h>

enum { SECTOR = 512, MOST = 1 << 20 };

static char bytes[MOST];

static void must(int well, const char *what) {
    if (!well) {
        perror(what);
        exit(1);
    }
}

/* Each sector is 64 times a number. */
static void number_sectors(uint64_t value, size_t size) {
    for (size_t at = 0; at < size; at += 8) {
        uint64_t number = value + at / SECTOR;
        memcpy(bytes + at, &number, 8);
    }
}

static void print_sectors(unsigned line, size_t size) {
    printf("%u: data", line);
    for (size_t at = 0; at < size; at += SECTOR) {
        uint64_t number;
        memcpy(&number, bytes + at, 8);
        printf(" =%016" PRIx64, number);
    }
    putchar('\n');
}

int main(int count, char **words) {
    int files[64];
    for (int at = 1; at < count && at <= 64; at++) {
        files[at - 1] = open(words[at], O_RDWR);
        must(files[at - 1] >= 0, words[at]);
    }
    char kind;
    unsigned file, line = 0;
    while (scanf(" %c %u", &kind, &file) == 2) {
        int64_t offset = 0;
        size_t size = 0;
        must(kind == 's' || scanf("%" SCNd64 " %zu", &offset, &size) == 2, "plan");
        must(size <= MOST && (int)file + 1 < count, "plan");
        if (kind == 's') {
            must(fsync(files[file]) == 0, "fsync");
        } else if (kind == 'r') {
            must(pread(files[file], bytes, size, offset) == (ssize_t)size, "pread");
            print_sectors(++line, size);
        } else {
            number_sectors(line, size);
            must(pwrite(files[file], bytes, size, offset) == (ssize_t)size, "pwrite");
            printf("%u: ok\n", ++line);
        }
    }
    return fflush(stdout) == 0 ? 0 : 1;
}
