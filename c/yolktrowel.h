/* Yolktrowel's commands for C: what the proved program uac_cli says, in your own process. docs/LIBRARY.md has examples.

   Each function does what `uac_cli` does with the command of its name. It writes at most `room` bytes of text at `text`, puts their number
   at `written`, and returns a status. The text is no string: no byte 0 ends it.

   What is proved of each call, where it is called as stated below:
   - Where the whole text has room, the status is the program's, the text stands at the front, and the rest of the room is as it was.
   - UAC_WRITE_FAULT says that the text is longer than the room, and no more: the room is full of the text's front.
   - UAC_NO_MEMORY says that an allocation failed: nothing was written, and *written is 0.
   - No byte beside the room and *written is written, and the call ends.

   No function keeps anything between calls, so calls on several threads need no lock. That no call leaves memory behind is tested
   (tests/library), and not proved.

   What nothing checks, and the caller must see to:
   - No pointer is null, even for a length of 0. `bytes` or `script` has `len` bytes, and `text` has `room`.
   - `text`, `written` and the input don't overlap, and no other thread uses them during the call.
   - The stack has 128 kB left (UAC_STACK).
   - `malloc`, `realloc` and `free` are one allocator's, and `malloc` aligns a block to 16.
   - No call comes from a signal handler, or from the forked child of a process with threads.
   - The processor is x86-64-v2 (every one since 2009), the system Linux with glibc. */
#ifndef YOLKTROWEL_H
#define YOLKTROWEL_H

#include <stdbool.h>
#include <stddef.h>
#include <stdint.h>

/* The version of these functions. The library's file is named for it. */
#define YOLKTROWEL_VERSION "1.0"

/* A call needs no more stack than this, in bytes. */
#define UAC_STACK 131072

#ifdef __cplusplus
extern "C" {
#endif

/* How a call ended. The numbers are the exit statuses of the program. */
enum uac_status {
    UAC_OK = 0,
    UAC_DESCRIPTOR = 1,  /* the descriptor breaks a rule: the text's last line names it */
    UAC_SCRIPT = 2,      /* a line of the script breaks a rule: the text's last line names it */
    UAC_USAGE = 3,       /* the rate is none of the command's: the text says how the program is used */
    UAC_READ_FAULT = 4,  /* never: the input is in memory */
    UAC_WRITE_FAULT = 5, /* the text is longer than the room */
    UAC_NO_MEMORY = 6,   /* an allocation failed */
    UAC_TOO_LONG = 7     /* the input has more than 268,435,456 bytes */
};

/* Whether a configuration descriptor is sound: one line, `ok blocks 28 entities 7 streams 2 domains 1`, or the first broken rule, as
   `descriptor G5 at 293`. Status UAC_OK or UAC_DESCRIPTOR. A device descriptor in front is passed over. */
uint8_t uac_check(const uint8_t *bytes, size_t len, uint8_t *text, size_t room, size_t *written);

/* The blocks, the entities and the settings of a sound descriptor, a line each; of another the first broken rule. */
uint8_t uac_show(const uint8_t *bytes, size_t len, uint8_t *text, size_t room, size_t *written);

/* What a host's mixer shows of a fresh device, an element a line, as `volume.3.1 rw 0`; of a descriptor that isn't sound the first broken
   rule. */
uint8_t uac_elements(const uint8_t *bytes, size_t len, uint8_t *text, size_t room, size_t *written);

/* The transcript of a script (docs/SCRIPT.md). `lanes` chooses the units that render eight lanes at a time; no byte differs by it. */
uint8_t uac_run(const uint8_t *script, size_t len, bool lanes, uint8_t *text, size_t room, size_t *written);

/* The transcript of the script that is made from a number. */
uint8_t uac_gen(uint32_t number, bool lanes, uint8_t *text, size_t room, size_t *written);

/* The transcript of a script on one full-speed stream. `rate` is one of the ten rates up to 96,000 Hz. */
uint8_t uac_full(uint32_t rate, const uint8_t *script, size_t len, uint8_t *text, size_t room, size_t *written);

/* The transcript of a script on a pair of streams with implicit feedback. `rate` is one of the twelve rates in Hz. */
uint8_t uac_pair(uint32_t rate, const uint8_t *script, size_t len, uint8_t *text, size_t room, size_t *written);

/* The transcript of a script on a front panel: knobs on a device, and a host that hears of them. */
uint8_t uac_panel(const uint8_t *script, size_t len, uint8_t *text, size_t room, size_t *written);

/* After how many microframes without a lost packet a stream's level is back at its target, within four frames: a line for each of the
   twelve rates. */
uint8_t uac_settle(uint8_t *text, size_t room, size_t *written);

#ifdef __cplusplus
}
#endif

#endif
