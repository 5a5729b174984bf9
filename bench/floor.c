/* Answers lines through standard input and output, each after appends on open files. An append is five calls: set the size,
   write all but the first byte of a frame, sync, write the first byte, sync. It looks at nothing in a line.
   The words are the files, and then for each line of a round, which begins again behind the last, its appends: for each a
   file's number and how many bytes its frame has, as in `0:33` or `0:25,1:25,0:25`. */
#include <fcntl.h>
#include <stdlib.h>
#include <string.h>
#include <unistd.h>

static char line[1 << 17], frame[1 << 16];

static int append(int file, off_t *end, size_t size) {
    if (ftruncate(file, *end + size) || pwrite(file, frame, size - 1, *end + 1) < 0 || fsync(file) ||
        pwrite(file, "\1", 1, *end) < 0 || fsync(file)) return 1;
    *end += size;
    return 0;
}

int main(int count, char **words) {
    static const char reply[] = "{\"ok\":\"floor\"}\n";
    int files[8], open_files = 0, at, first;
    off_t ends[8] = {0};
    for (at = 1; at < count && !strchr(words[at], ':'); at++) {
        if (open_files == 8 || (files[open_files++] = open(words[at], O_RDWR | O_CREAT, 0644)) < 0) return 1;
    }
    if ((first = at) == count) return 1;
    memset(frame, 'x', sizeof frame);
    for (size_t kept = 0;;) {
        ssize_t got = read(0, line + kept, sizeof line - kept);
        if (got <= 0) return got < 0;
        kept += got;
        if (line[kept - 1] != '\n') continue;
        kept = 0;
        for (char *word = words[at]; word; word = strchr(word, ',') ? strchr(word, ',') + 1 : NULL) {
            long file = strtol(word, &word, 10), size = strtol(word + 1, &word, 10);
            if (file >= open_files || size < 2 || size > (long)sizeof frame || append(files[file], &ends[file], size)) return 2;
        }
        at = at + 1 == count ? first : at + 1;
        if (write(1, reply, sizeof reply - 1) < 0) return 3;
    }
}
