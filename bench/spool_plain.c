/*
 * Appends batches of so many octets to a file as a plain program would, with the same syncs as a spool: a batch, a sync, one octet, a sync.
 *
 * usage: spool_plain FILE BATCHES OCTETS
 */
#include <fcntl.h>
#include <stdio.h>
#include <stdlib.h>
#include <string.h>
#include <unistd.h>

int main(int argc, char **argv)
{
    if (argc != 4) {
        fprintf(stderr, "usage: spool_plain FILE BATCHES OCTETS\n");
        return 1;
    }
    long batches = strtol(argv[2], NULL, 10), size = strtol(argv[3], NULL, 10) + 10;
    int file = open(argv[1], O_WRONLY | O_CREAT | O_EXCL, 0600);
    char *batch = malloc((size_t)size);
    if (file < 0 || !batch) {
        perror(argv[1]);
        return 1;
    }
    memset(batch, 7, (size_t)size);
    off_t end = 0;
    for (long each = 0; each < batches; each++, end += size - 1) {
        int is_written = pwrite(file, batch + 1, (size_t)size - 1, end + 1) == size - 1 && fdatasync(file) == 0
            && pwrite(file, "\1", 1, end) == 1 && fdatasync(file) == 0;
        if (!is_written) {
            perror(argv[1]);
            return 1;
        }
    }
    return 0;
}
