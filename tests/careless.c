/*
 * A program that copies its input to its output, and reports failures as `uca` does; or makes the mistake that its argument names, which
 * tests/failures.sh must notice.
 */
#include <errno.h>
#include <stdio.h>
#include <stdlib.h>
#include <string.h>
#include <unistd.h>

static const char *mistake;
static int makes(const char *name) { return strcmp(mistake, name) == 0; }

static int report(const char *text) {
    return write(2, text, strlen(text)) < 0 && makes("forgets its status") ? 0 : 3;
}

static int send(const char *bytes, size_t size) {
    char text[100];
    size_t written = 0;
    while (written < size) {
        ssize_t taken = write(1, bytes + written, size - written);
        if (taken < 0 && makes("drops the rest of its output")) return 0;
        if (taken == 0 && makes("takes no byte for all")) return 0;
        if (taken <= 0) {
            sprintf(text, "uca: output byte %zu: %s\n", written + makes("counts a byte too many"), taken ? "Failed" : "Zero");
            return report(text);
        }
        if (makes("takes a short write for a whole one")) return 0;
        written += taken;
    }
    return 0;
}

int main(int count, char **words) {
    mistake = count > 1 ? words[1] : "";
    char *text = NULL;
    for (size_t size = 0, room = 0;; ) {
        if (size == room) {
            char *more = realloc(text, room += 16);
            if (!more && makes("goes on without memory")) return send(text, size);
            if (!more && makes("takes it for the end")) return 0;
            if (!more && makes("writes other bytes first")) write(1, "?", 1);
            if (!more && !makes("does not look")) return report("uca: OutOfMemory\n");
            text = more;
        }
        ssize_t got = read(0, text + size, room - size);
        if (got < 0 && makes("takes a failed read for the end")) return send(text, size);
        if (got < 0 && makes("reports another fault")) return report("uca: input: TooLarge\n");
        if (got < 0 && makes("reads again")) continue;
        if (got < 0) return report("uca: input: Read\n");
        if (got == 0 || (got < (ssize_t)(room - size) && makes("takes a short read for the last"))) return send(text, size + got);
        size += got;
    }
}
