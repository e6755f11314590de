/* refusals BUNDLE..: serves each bundle with much room, with just enough and with a byte less; and then once for each request for memory that
   this makes, with that one refused, which has to give 4 with nothing needed, or just what all memory gives. No call may leave a block
   behind, or write past the room. The heap of the library is here, in place of the toolchain's over malloc. The last line printed is
   'N passed, M failed'. */
#include "../c/cedargate.h"

#include <stdio.h>
#include <stdlib.h>
#include <string.h>

#define MARK 255 /* in no text */

struct block {
    uint64_t is_there;
    void *at;
};

static long live, asked, refused = -1;
static uint8_t nowhere, bundle[1 << 20], text[1 << 16], room[1 << 16];

static struct block given(void *at) { return (struct block){at != NULL, at ? at : &nowhere}; }

struct block rattle_alloc(size_t n, size_t align) {
    void *at = asked++ == refused ? NULL : malloc(n ? n : align);
    live += at != NULL;
    return given(at);
}

struct block rattle_realloc(void *old, size_t old_n, size_t n, size_t align) {
    (void)old_n;
    return given(asked++ == refused ? NULL : realloc(old, n ? n : align));
}

void rattle_dealloc(void *at) {
    live -= at != NULL;
    free(at);
}

int main(int count, char **words) {
    long passed = 0, failed = 0;
    for (int at = 1; at < count; at++) {
        FILE *file = fopen(words[at], "rb");
        size_t n = file ? fread(bundle, 1, sizeof bundle, file) : 0, length = 0, needed = 0;
        if (file) fclose(file);
        asked = live = 0, refused = -1;
        int32_t whole = cedargate_serve(bundle, n, text, sizeof text, &length);
        long requests = asked, wrong = whole > 3 || live != 0;
        memset(room, MARK, sizeof room);
        wrong += cedargate_serve(bundle, n, room, length - 1, &needed) != CEDARGATE_NO_ROOM || needed != length || room[0] != MARK;
        wrong += cedargate_serve(bundle, n, room, length, &needed) != whole || needed != length || room[length] != MARK;
        for (refused = 0; refused < requests; refused++) {
            asked = live = 0;
            int32_t status = cedargate_serve(bundle, n, room, sizeof room, &needed);
            int same = status == whole && needed == length && !memcmp(room, text, length);
            wrong += live != 0 || !(same || (status == CEDARGATE_NO_MEMORY && needed == 0));
        }
        printf("%s: status %d, %ld requests refused in turn, %ld calls went wrong\n", words[at], whole, requests, wrong);
        passed += requests + 3 - wrong, failed += wrong;
    }
    printf("%ld passed, %ld failed\n", passed, failed);
    return failed > 0 || passed == 0;
}
