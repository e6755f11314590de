/* The gate as a library: a bundle in JSON goes in, and the text that the program `cedargate` prints for it comes out, in room that the
   caller gives. Nothing is handed out, so nothing has to be freed. A program is linked with libcedargate_c.a and the toolchain's
   liblibc_c.a, through which memory is asked of `malloc`. */
#ifndef CEDARGATE_H
#define CEDARGATE_H

#include <stddef.h>
#include <stdint.h>

#ifdef __cplusplus
extern "C" {
#endif

/* What `cedargate_serve` gives. The first four are the statuses with which the program ends. */
enum {
    CEDARGATE_ANSWERED = 0,   /* The run came to its answer. */
    CEDARGATE_REFUSED = 1,    /* The gate refused the policies. */
    CEDARGATE_UNREADABLE = 2, /* The bytes are no bundle. */
    CEDARGATE_STOPPED = 3,    /* The run stopped without an answer. */
    CEDARGATE_NO_MEMORY = 4,  /* Memory ran out. */
    CEDARGATE_NO_ROOM = 5     /* The text takes more room than there is. */
};

/* Serves the bundle of these n bytes.

   From 0 to 3: the text stands in the first *needed bytes of the room, without a zero at its end, and the rest of the room is as it was.
   4: *needed is 0, and the room is as it was. 5: *needed is the length of the text, which is more than room_n, and the room is as it was;
   call again with that much room.

   No pointer may be null, not even that of a bundle or room of no bytes; the three don't overlap, and nothing else reads or writes them
   during the call. Calls from several threads at once are fine, each with its own room; but none from a signal handler, or from the forked
   child of a process with threads. The stack grows with the depth of the bundle's expressions, which is limited: 2 MB of stack suffice for
   every bundle that was tried. */
int32_t cedargate_serve(const uint8_t *bundle, size_t n, uint8_t *room, size_t room_n, size_t *needed);

#ifdef __cplusplus
}
#endif

#endif
