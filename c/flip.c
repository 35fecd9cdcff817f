/* examples/board.c on a machine whose memory fails: as soon as record CALL is accepted, a bit changes in byte FLIP of the image
   that it gave. Both numbers stand in the environment. */
#define _POSIX_C_SOURCE 200809L
#include <stdio.h>
#include <stdlib.h>
#include "rumqatiss.h"

static unsigned number_of(const char *name) {
    const char *text = getenv(name);
    unsigned number;
    if (text == NULL || sscanf(text, "%u", &number) != 1) exit(2);
    return number;
}

static uint8_t flipped(const uint8_t *image, size_t image_len, const uint8_t *record, size_t record_len, uint8_t *out, size_t out_len,
                       uint8_t *choice, uint8_t *next, uint8_t *number, uint16_t *length) {
    static unsigned accepted;
    unsigned at = number_of("FLIP");
    uint8_t code = rumqatiss_board(image, image_len, record, record_len, out, out_len, choice, next, number, length);
    if (code == RUMQATISS_DONE && ++accepted == number_of("CALL")) {
        if (at >= *length) exit(2);
        out[at] ^= 4;
    }
    return code;
}

#define rumqatiss_board flipped
#include "../examples/board.c"
