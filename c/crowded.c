/* One create with a crowded table. All places but one are filled, and as many numbers as can be are barred right behind the last one given: the threads have
   the first of them, and their answers name the others. With an argument the last one given is the last of those, so that the number behind it is free.
   Either way the number given must be the first behind all of them. (tools/count counts the instructions of that create.) */
#include <stddef.h>
#include <stdint.h>
#include <stdio.h>
#include <stdlib.h>
#include "rumqatiss.h"

enum { LAST_GIVEN = 1, WHO = 7 };  /* where these stand, in an image and in a body */
enum { LAST_NUMBER = 253 };

static uint8_t image[RUMQATISS_LONGEST_IMAGE], after[RUMQATISS_LONGEST_IMAGE];
static uint16_t size;

static void must(uint8_t code, uint8_t wanted, const char *what) {
    if (code == wanted) return;
    printf("%s: code %d\n", what, code);
    exit(1);
}

/* A record happens to the image. The code; `number` is the new thread's. */
static uint8_t happens(const uint8_t *record, size_t record_len, uint8_t *number) {
    uint8_t choice, next;
    uint16_t length;
    uint8_t code = rumqatiss_board(image, size, record, record_len, after, sizeof after, &choice, &next, number, &length);
    if (code != RUMQATISS_DONE) return code;
    for (size = 0; size < length; size++) image[size] = after[size];
    return code;
}

int main(int argc, char **argv) {
    static const uint8_t create[] = { RUMQATISS_CREATE };
    uint8_t end[] = { RUMQATISS_END, 0 };
    uint8_t threads = 0, number, code;
    (void)argv;
    must(rumqatiss_fresh(image, sizeof image, &size), RUMQATISS_DONE, "fresh");
    while ((code = happens(create, sizeof create, &number)) == RUMQATISS_DONE) threads = number + 1;
    must(code, RUMQATISS_FULL, "create");
    end[1] = --threads;
    must(happens(end, sizeof end, &number), RUMQATISS_DONE, "end");
    for (uint8_t i = 0; i < threads; i++) {
        uint16_t body, length;
        must(rumqatiss_look_up(image, size, i, &body, &length), RUMQATISS_DONE, "look-up");
        image[body + WHO] = threads + i;
    }
    image[LAST_GIVEN] = argc > 1 ? 2 * threads - 1 : LAST_NUMBER;
    must(happens(create, sizeof create, &number), RUMQATISS_DONE, "create");
    printf("a create with %d threads and %d numbers barred: number %d\n", threads, 2 * threads, number);
    return number == 2 * threads ? 0 : 1;
}
