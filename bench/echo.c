/* Gives each line of standard input back on standard output by one write, as soon as it has come. It takes up to 4,096 bytes
   at a time, and looks for nothing but newlines. */
#include <string.h>
#include <unistd.h>

int main(void) {
    static char line[1 << 20];
    size_t kept = 0;
    for (;;) {
        ssize_t got = read(0, line + kept, 4096);
        if (got <= 0) return got < 0;
        char *from = line, *end = line + kept + got, *at;
        while ((at = memchr(from, '\n', end - from))) {
            if (write(1, from, at + 1 - from) < 0) return 1;
            from = at + 1;
        }
        kept = end - from;
        memmove(line, from, kept);
        if (kept + 4096 > sizeof line) return 2;
    }
}
