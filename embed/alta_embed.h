/* An index in memory that answers command lines: the proved library of Buncocedar for C. docs/QUERIES.md and docs/GUIDE.md have the
   lines. Link it with -lalta_embed. */
#ifndef ALTA_EMBED_H
#define ALTA_EMBED_H

#include <stddef.h>
#include <stdint.h>

#ifdef __cplusplus
extern "C" {
#endif

/* Why lines were not answered, as alta_embed_answer returns it. From -5 to -9 these are the exit statuses of the program, negated. */
enum {
    ALTA_NO_MEMORY = -5, /* malloc or realloc gave none */
    ALTA_DAMAGED = -6,   /* the index breaks a rule of its format; the detail is the first place that shows it, in bytes */
    ALTA_NO_INDEX = -7,  /* the bytes hold no index */
    ALTA_FULL = -8,      /* what a line writes has no place below 2^63 bytes; the detail is how many bytes it needs */
    ALTA_TOO_LONG = -9,  /* the lines have more than 2^40 bytes */
    ALTA_NO_ROOM = -11   /* the replies have more than replies_size bytes; the detail is how many */
};

/* Answers command lines, each with a newline behind it, on a copy of an index, the content of an index file. Returns how many bytes of
   replies stand at the front of `replies`, or one of the values above; then `replies` is as it was. `detail` gets the number that goes
   with a value, and else 0.

   Where the index stands for a state, the replies are proved to be those of the abstract machine to the lines, from that state on. The
   index and the lines are not written. What a line changes is seen by the lines behind it, and is gone with the call.

   No pointer is null, also where its size is 0. `replies` and `detail` overlap nothing else that is handed in, and no other thread
   writes any of it during the call. Calls on several threads at once do not disturb one another. */
int64_t alta_embed_answer(const uint8_t *index, size_t index_size, const uint8_t *lines, size_t lines_size,
                          uint8_t *replies, size_t replies_size, uint64_t *detail);

#ifdef __cplusplus
}
#endif

#endif
