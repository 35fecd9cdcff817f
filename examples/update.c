/* The last step of an update in the field: makes a store of today's rules out of one that was written under older rules.

       update STORE

   It comes after the old build's last boot, which replays the log and leaves an image with an empty log, and before the first boot of
   the new build: docs/UPDATE.md has the whole order, and what goes wrong in another. What the new rules ask of the image is done to it by
   rumqatiss_update, and nobody's send is lost by that. The new store takes the old one's place by a rename, so the power may fail at any
   point: it leaves the one or the other, and the same command goes on from there. */
#define _POSIX_C_SOURCE 200809L
#define PROGRAM "update"
#include "store.h"

/* Only an image can be carried over. What the log's records came to is known to the build that wrote them alone. */
static void test_store(const struct kept *old) {
    if (old->rules > RUMQATISS_RULES) {
        stop("the store was written under rules %u, and this build follows rules %d: it is left as it is", old->rules, RUMQATISS_RULES);
    }
    if (!log_is_empty(old)) {
        stop("the log, written under rules %u, is not empty: the store is left as it is; boot once with the build that wrote it, then run "
             "update again", old->rules);
    }
}

int main(int argc, char **argv) {
    static uint8_t image[RUMQATISS_LONGEST_IMAGE];
    uint8_t choice, next;
    uint16_t size;
    if (argc != 2) stop("usage: update STORE");
    FILE *f = fopen(argv[1], "rb");
    if (f == NULL) stop("the store cannot be opened");
    struct kept old = read_store(f);
    fclose(f);
    if (old.rules == RUMQATISS_RULES) {
        keep_name(argv[1]);  /* an update that was cut off may have come no further than its rename */
        printf("update: the store is of rules %d, and nothing is to be done\n", RUMQATISS_RULES);
        return 0;
    }
    test_store(&old);
    uint8_t code = rumqatiss_update(old.image, old.image_len, image, sizeof image, &choice, &next, &size);
    if (code != RUMQATISS_DONE) stop("the store's image is refused with code %d, and the store is left as it is", code);
    fclose(replace_store(argv[1], image, size));
    printf("update: rules %u to %d, an image of %d bytes to one of %d\n", old.rules, RUMQATISS_RULES, (int)old.image_len, size);
    say_choice(choice, next);
    return 0;
}
