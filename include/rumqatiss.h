/* The nucleus of the cab terminal, for C: threads, a ready queue, send, receive and reply between them, and devices that interrupt.

   The library keeps nothing between two calls. The whole state of the nucleus is an IMAGE, RUMQATISS_LONGEST_IMAGE bytes at
   most, that you keep. One thing that happens is a RECORD, 1 to 11 bytes. You hand over an image and a record, and get the next image.
   Records written one behind another are a LOG. An image and the log since give the present image back after a power cut.
   examples/board.c shows the whole of it. Where a terminal is dead, rumqatiss_report tells in a text what its image and log come to.

   A log belongs to its image, and to the build that wrote it: a build whose rules are others may make something else of the same
   records, and return 0. So keep RUMQATISS_RULES beside image and log, and replay a log only where the number is the same. Where it
   is a lower one, the image is carried over once, after the old build has replayed the log (see AN UPDATE). Where it is a higher one,
   leave the log to the build that wrote it; an image whose log is empty may be handed over, and is refused with 9 or 10 where this
   build does not know such images.

   WHAT YOU OWE
   - A buffer is a pointer and a length. The pointer points to at least that many bytes. Any bytes may stand in them. Those
     of an image are refused unless they are the image of a consistent state. Whether it is the image that you kept, or the
     medium has made another of it, only a check of your own can tell: examples/store.h has one.
   - With length 0 nothing is read or written through the pointer, so it may be null. A result's pointer may not be null.
   - `out` and the results are written. None of them may overlap another, nor a buffer that is read: the new image cannot go
     over the old one. Buffers that are only read (image, record, log) may overlap.
   - Nobody else writes to these bytes before the call returns. Otherwise calls from several threads are independent.
   - A uint16_t or uint32_t result is aligned as C asks.

   WHAT IS PROMISED, whatever the bytes
   - The call returns. It writes to `out` and to the results, and nowhere else. Every result is written at every call.
   - With code 0, and with 12 and 13 of rumqatiss_replay, the new image, or the text of rumqatiss_report, is in the first `length`
     bytes of `out`, and every byte past it is as it was. In all other cases every byte of `out` is as it was.
   - An image is taken only where it is that of a consistent state, byte for byte, with nothing behind it: image_len is exactly
     the length that the image says. Only rumqatiss_update takes more, what was consistent by older rules, and what it gives is
     consistent by these.
   This is proved of the library's source, and c/test.c tries it on what the compiler made of that. Not proved: that your stack is
   large enough. c/test.c measures what its calls use, which is no more than RUMQATISS_STACK bytes.

   THE IMAGE that is written is of edition 4. Its head has 56 bytes: the edition; the last number given; the running thread's place, or
   255; how many threads live; how many are ready; how many wait for the clock; how many wait at each of the 48 devices, by rising
   index; and the image's length, in two bytes, the lower first. Four bytes follow for each live thread: its place (0 to 63), its
   number, and in two bytes where its body begins. Then come the places of the ready threads, of those that wait for the clock, of
   those that wait at each device, and the bodies (see rumqatiss_look_up).
   A thread's parent lives, or it has none, and parents never form a ring: from a thread to its parent, from that one to its own, and so
   on, the way ends at one that has none. An image that says otherwise is refused with 10, by rumqatiss_update too.
   Images of the older editions are taken too. They hold places 0 to 31 only: one that names a place above 31, be it a thread's, in a queue,
   in an inbox or the running thread's, is refused with 10, by rumqatiss_update too. One of edition 3, as builds with rules 5 wrote it, is
   otherwise like one of edition 4. In one of edition 2, as builds with rules 2 to 4 wrote it, nobody has a parent, and its bodies lack that
   byte. In one of edition 1, as builds with rules 1 wrote it, nobody waits at a device either, and its head lacks the 48 counts: it has 8
   bytes. The image that comes of any of them is of edition 4; rumqatiss_replay with an empty log changes nothing else of it.
   Builds with rules 1 and 2 let a thread receive from a number that no live thread has. An image with such a thread, of any
   edition, is refused with 10 now, by all but rumqatiss_update. Builds with rules 1 to 3 gave a new thread a number that a live
   thread's answer still named, where it came next; images did not change with that. Builds with rules 1 to 4 knew no parents: whoever
   was created under them has none. Builds with rules 1 to 5 had places 0 to 31 only, and refused a create with 6 where 32 threads lived.

   AN UPDATE, from a build with older rules, goes in this order. docs/UPDATE.md has it for whoever carries it out, and
   examples/update.c is the second and third step.
     1. The OLD build replays its log on its image once more, and the image that comes of it is kept with an empty log.
     2. The NEW build's rumqatiss_update makes one of its own images of that one.
     3. That image, with an empty log and the new RUMQATISS_RULES, takes the old one's place, all at once.
   In another order loads are lost or mixed up:
   - The new build replays the old log: a create with 32 threads live was refused then, and is done now (rules 1 to 5), so there is a thread
     that never was, which gets turns, and the next number; an end ended one thread then, and ends its children too now, where the log has
     their create (rules 1 to 4), so they and their loads are lost; a create may have given another number then than it gives now (rules 1 to
     3), and a record that names that number meets nobody, or another thread; a receive from a number that is not live stopped its caller
     then, and is refused now, and an end wakes more threads now (rules 1 and 2). The records behind such a one happen to whoever runs
     instead. The code is 0 all the same.
   - The update comes before the old log is replayed: what the log holds has not happened to the image, and is lost with the log.
   - The old log stays beside the new image: its records happen a second time.
   - The old image is handed to another function than rumqatiss_update: it may get 10. It is not broken, and to begin with
     rumqatiss_fresh then, or to clear the storage, loses every load in it.

   THE RECORDS. The kind is the first byte. A number and a device's index are one byte each. A word and a status are four bytes, the
   lowest first. A set of devices is six bytes: the device with index i is bit i % 8 of byte i / 8.

     kind             bytes                 what happens
     1 create         01                    a new thread joins the back of ready; its number is given: the first after the last one
                                            given, 0 after 253, that no live thread has and no live thread's answer names. Its parent
                                            is the running thread; where nobody runs it has none
     2 send           02 number word        the running thread sends the word to that thread, and stops until the reply
     3 receive        03 number             the running thread receives from that thread (FF: from anyone), or stops until it can,
                                            or until that thread ends
     4 reply          04 number word        the running thread replies to that thread, which runs at once
     5 end            05 number             that thread ends, and all that it started: first its children, the one in the lowest place
                                            first, each of them in this way too, and the thread itself last. Whoever stands in a send
                                            to one that ends, or receives from it, gets the answer 16; where it is one of the family,
                                            it ends in its turn. Who runs next is chosen once, after the last
     6 wait           06                    the running thread waits for the clock
     7 slice end      07                    the running thread goes to the back of ready, and the front runs
     8 tick           08                    all who wait for the clock join ready
     9 wait at        09 index              the running thread waits at that device
    10 interrupt      0A set status         the device with the lowest index of the set is served: who has waited there longest joins
                                            ready, and the status is the word of its answer. Where nobody waits there, or the set is
                                            empty, nothing changes. The set's other devices are not served: bring them again

   THE DEVICES. The macros below give the index.

     line             device                index
     3 to 6           0 to 7                8 * (line - 3) + device: 0 to 31
     7                terminal 0 to 7       32 + 2 * terminal where it transmits, 33 + 2 * terminal where it receives: 32 to 47

   THE CODES

     code  given exactly when                                                              by rumqatiss_..
      0    done                                                                            all
      1    send, receive, reply or a wait, and nobody runs                                 board
      2    the number is above 253 (for receive: it is 254), or the index is above 47      board
      3    send, receive or reply names the running thread itself                          board
      4    send, receive, reply, end or look-up: no live thread has this number
           (for receive, 255 is anyone)                                                    board, look_up
      5    reply: the thread does not await the running thread's reply                     board
      6    create, and 64 threads live                                                     board
      7    `out` is shorter than the new image, or than the text                           board, fresh, replay, update, report
      8    the image is shorter than its edition's head (under 8 bytes, whatever its
           edition), or is not as long as it says                                          board, replay, look_up, update
      9    the image's edition is unknown: it is none of 1, 2, 3 and 4                     board, replay, look_up, update
     10    the image is that of no consistent state (update: nor of one by older rules)    board, replay, look_up, update
     11    the log is longer than 32,768 bytes                                             replay
     12    board: not exactly one record. replay: the last record is cut short             board, replay
     13    the record is of no known kind                                                  board, replay

   rumqatiss_report gives 0 and 7 only: 8 to 11 stand in its text, and for 12 and 13 the words `torn` and `unknown`.

   The library is for x86-64. `c/build` writes it, as target/staticlib/libboard.a. */
#ifndef RUMQATISS_H
#define RUMQATISS_H

#include <stddef.h>
#include <stdint.h>

#ifdef __cplusplus
extern "C" {
#endif

#define RUMQATISS_LONGEST_IMAGE 1272 /* bytes; no buffer for an image need be longer */
#define RUMQATISS_FRESH_IMAGE 56     /* bytes of the fresh image, the shortest that is written */
#define RUMQATISS_LONGEST_LOG 32768  /* bytes that rumqatiss_replay takes; save a new image before */
#define RUMQATISS_LONGEST_RECORD 11  /* bytes */
#define RUMQATISS_LONGEST_REPORT 2114 /* bytes; no buffer for a text need be longer */
#define RUMQATISS_RECORD_LENGTHS { 1, 6, 2, 6, 2, 1, 1, 1, 2, 11 }  /* bytes of a record of kind 1, 2, .. 10 */
#define RUMQATISS_NOBODY 255         /* no number; in a receive, anyone */
#define RUMQATISS_RULES 6            /* the number of the rules that this build follows, raised by every later change of the rules */
#define RUMQATISS_STACK 20352        /* bytes of your stack; a call was never measured to use more */

/* Thread numbers run from 0 to 253. */

#define RUMQATISS_DEVICES 48         /* an index is below this */
#define RUMQATISS_DEVICE(line, device) (8 * ((line) - 3) + (device))  /* lines 3 to 6, devices 0 to 7 */
#define RUMQATISS_TRANSMITTER(terminal) (32 + 2 * (terminal))         /* terminals 0 to 7, on line 7 */
#define RUMQATISS_RECEIVER(terminal) (33 + 2 * (terminal))

enum rumqatiss_kind {
    RUMQATISS_CREATE = 1,
    RUMQATISS_SEND = 2,
    RUMQATISS_RECEIVE = 3,
    RUMQATISS_REPLY = 4,
    RUMQATISS_END = 5,
    RUMQATISS_WAIT_CLOCK = 6,
    RUMQATISS_SLICE_END = 7,
    RUMQATISS_TICK = 8,
    RUMQATISS_WAIT_DEVICE = 9,
    RUMQATISS_INTERRUPT = 10
};

enum rumqatiss_code {
    RUMQATISS_DONE = 0,
    RUMQATISS_NOBODY_RUNS = 1,
    RUMQATISS_BAD_NUMBER = 2,
    RUMQATISS_NAMES_CALLER = 3,
    RUMQATISS_NOT_LIVE = 4,
    RUMQATISS_NOT_AWAITING = 5,
    RUMQATISS_FULL = 6,
    RUMQATISS_SHORT_BUFFER = 7,
    RUMQATISS_BAD_LENGTH = 8,
    RUMQATISS_OTHER_EDITION = 9,
    RUMQATISS_NO_IMAGE = 10,
    RUMQATISS_LONG_LOG = 11,
    RUMQATISS_CUT_SHORT = 12,
    RUMQATISS_UNKNOWN_KIND = 13
};

/* What the processor is to do now. */
enum rumqatiss_choice {
    RUMQATISS_RUN = 0,   /* the thread `next` runs; in all other cases `next` is 255 */
    RUMQATISS_HALT = 1,  /* no thread lives */
    RUMQATISS_WAIT = 2,  /* sleep until the clock ticks or a device interrupts: somebody waits for one of them */
    RUMQATISS_STUCK = 3  /* threads live, and none of them runs, or waits for the clock or at a device */
};

/* One record happens to an image.
   Returns the code. The tests in their order: the image's (8 for under 8 bytes, 9, any other 8, 10), 13, 12, 1 to 6, 7.
   With 0 to 6 it was a record, and belongs in the log. With 12 and 13 it was none. 7 to 10 are about your own buffers: log nothing.
   choice, next  code 0: of the new image. Another code: of the image given, or halt where 8, 9 or 10 refused it.
   number        the new thread's number after a create with code 0; else 255.
   length        of the new image with code 0; else 0, and the image given is still the present one. */
uint8_t rumqatiss_board(const uint8_t *image, size_t image_len,
                        const uint8_t *record, size_t record_len,
                        uint8_t *out, size_t out_len,
                        uint8_t *choice, uint8_t *next, uint8_t *number, uint16_t *length);

/* The image of a nucleus with no threads, to begin with.
   Returns 0, and length is 56; or 7, and length is 0. */
uint8_t rumqatiss_fresh(uint8_t *out, size_t out_len, uint16_t *length);

/* The records of a log happen to an image, one after another. An event that is refused (1 to 6) changes nothing, and the next follows.
   Returns the code. The tests in their order: the image's as above, 11, 7. Then it is 0 where the log was read to its end, or what
   stopped it: 12 a last record that is cut short, 13 a byte that begins no record. With 12 and 13 the records before it have happened.
   choice, next  codes 0, 12, 13: of the new image. Another code: of the image given, or halt where 8, 9 or 10 refused it.
   records       codes 0, 12, 13: how many whole records were read. Another code: 0.
   bytes         codes 0, 12, 13: how many bytes these are. Another code: 0. Cut the log off there before you write on.
   length        codes 0, 12, 13: of the new image. Another code: 0. */
uint8_t rumqatiss_replay(const uint8_t *image, size_t image_len,
                         const uint8_t *log, size_t log_len,
                         uint8_t *out, size_t out_len,
                         uint8_t *choice, uint8_t *next,
                         uint32_t *records, uint32_t *bytes, uint16_t *length);

/* Where a thread's body stands in an image.
   Returns 0, and the body is the `length` bytes at image + offset. Or 8, 9, 10 as above, or 4; then offset and length are 0.
   A body, byte by byte:
      0   standing: 1 running, 2 ready, 3 sending, 4 received and awaiting the reply, 5 receiving, 6 waiting for the clock,
          7 waiting at a device
      1   partner: whom it sends to (3, 4), or receives from (5; 255 is anyone), or the device's index (7); else 255
      2   the word that it sends (3, 4), in four bytes, the lowest first; else 0
      6   the answer to its last finished call: the code, 0, or 16 where the partner ended,
      7   from whom, or 255 where it is from no thread,
      8   and the word, in four bytes: the one sent or replied, its own one back (16 after a send), or the device's status; else 0
     12   how many stand in its inbox,
     13   its parent: the thread that ran when it was created, or 255 where it has none,
     14   and the places of those in its inbox, first come first.
   In an image of edition 1 or 2 there is no parent, and the places begin at 13. So a body has 14 bytes and its inbox, and in those editions
   13 and its inbox. */
uint8_t rumqatiss_look_up(const uint8_t *image, size_t image_len, uint8_t number,
                          uint16_t *offset, uint16_t *length);

/* An image that a build with older rules left becomes one of this build's (see AN UPDATE: its log was replayed before, by that build).
   Each thread in it that receives from a number that is not live, by rising place, gets the answer 16, that number and the word 0,
   and joins the back of ready. Then, where nobody runs, the front of ready does. Nothing else changes but the edition: whoever stood in a
   send still does, in the same place of the same inbox, or awaiting the same reply, with the same word. Where no thread is woken, it
   is what rumqatiss_replay gives with an empty log. So of an image that a build with rules 3 to 5 left only the edition changes, and
   nobody is woken; where the rules were 3 or 4, each body has the parent 255.
   Returns the code. The tests in their order: the image's as above, where 10 does not ask that those whom threads receive from live; 7.
   choice, next  codes 0, 7: of the image after the update. Another code: halt.
   length        of the new image with code 0; else 0, and `out` is as it was. */
uint8_t rumqatiss_update(const uint8_t *image, size_t image_len,
                         uint8_t *out, size_t out_len,
                         uint8_t *choice, uint8_t *next, uint16_t *length);

/* What an image and its log come to, in a text to be read by people: how many threads live, are ready and wait for the clock; every thread,
   by rising place, with its number and standing; what runs next; and how far the log was read. All of it after the log's whole records
   have happened, as rumqatiss_replay has them happen. docs/DEPOT.md has an example, and says what each line means.
   The text is in ASCII, every line of it ends in a newline, and no 0 stands behind it. Where the image is refused, it is the one line
   `image refused C`; C is 8, 9 or 10 as above, but 8 also for any image of over 65,535 bytes. A log of over RUMQATISS_LONGEST_LOG bytes
   gives `log refused 11` as the last line; then nothing of it has happened.
   Returns 0, and the text is the first `length` bytes of `out`; or 7, and length is 0. */
uint8_t rumqatiss_report(const uint8_t *image, size_t image_len,
                         const uint8_t *log, size_t log_len,
                         uint8_t *out, size_t out_len, uint16_t *length);

#ifdef __cplusplus
}
#endif

#endif
