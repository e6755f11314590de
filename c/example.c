/* example [BUNDLE [ROOM]]: prints the text of a bundle (of standard input, if none is named), and ends with the status. ROOM is how many
   bytes the first call may write: 4096, if it isn't said. */
#include "cedargate.h"

#include <stdio.h>
#include <stdlib.h>

/* All bytes of a file, and how many they are; null where memory or reading failed. */
static uint8_t *read_all(FILE *file, size_t *n) {
    size_t room = 4096;
    uint8_t *bytes = malloc(room);
    *n = 0;
    while (bytes) {
        *n += fread(bytes + *n, 1, room - *n, file);
        if (*n < room && !ferror(file)) return bytes;
        room *= 2;
        uint8_t *more = ferror(file) ? NULL : realloc(bytes, room);
        if (!more) free(bytes);
        bytes = more;
    }
    return NULL;
}

int main(int count, char **words) {
    FILE *file = count > 1 ? fopen(words[1], "rb") : stdin;
    size_t n = 0, needed = 0, room_n = count > 2 ? strtoul(words[2], NULL, 10) : 4096;
    uint8_t *bundle = file ? read_all(file, &n) : NULL;
    uint8_t *room = malloc(room_n + 1); /* one more, so that it isn't null where no room is asked for */
    if (!bundle || !room) return CEDARGATE_NO_MEMORY;

    int32_t status = cedargate_serve(bundle, n, room, room_n, &needed);
    if (status == CEDARGATE_NO_ROOM) {
        uint8_t *more = realloc(room, needed);
        if (!more) return CEDARGATE_NO_MEMORY;
        room = more;
        status = cedargate_serve(bundle, n, room, needed, &needed);
    }
    if (fwrite(room, 1, needed, stdout) != needed) status = CEDARGATE_NO_MEMORY;
    free(room);
    free(bundle);
    return status;
}
