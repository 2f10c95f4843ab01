/* Calls of the library from C, for tests/library.

   Under a name that ends with `_cli` it is the program: it does what the program does with its words, from standard input to standard
   output, by the library; PROGRAM does what is no command of that. Under another name its words are one of these, a file with the input,
   and the words of a command:
   rooms      every room from none to two bytes more than the text
   memory     each allocation refused in turn
   threads    four threads at once
   stack      a thread with no more stack than the header says
   times      how many calls a second
   Its line says what was counted, or with status 1 what differs. */
#include "yolktrowel.h"
#include <limits.h>
#include <pthread.h>
#include <stdio.h>
#include <stdlib.h>
#include <string.h>
#include <time.h>
#include <unistd.h>

#define ROOM ((size_t)1 << 27)

typedef struct {
    const char *command, *number, *rack;
} words_of_call;

static uint8_t input[((size_t)1 << 28) + 2], wanted[ROOM], other[ROOM];
static size_t input_length;

/* ---- the allocator: `-Wl,--wrap` has the library call these */

void *__real_malloc(size_t size);
void *__real_realloc(void *old, size_t size);
void __real_free(void *old);

/* How many allocations come before the one that fails, less than 0 where none does; and whether all after it fail, too. */
static long left = -1, made, kept;
static int counts, all_after;

static int fails(void)
{
    if (!counts)
        return 0;
    made++;
    if (left != 0)
        return left > 0 ? (left--, 0) : 0;
    left = all_after ? 0 : -1;
    return 1;
}

void *__wrap_malloc(size_t size)
{
    void *block = fails() ? NULL : __real_malloc(size);
    kept += counts && block;
    return block;
}

void *__wrap_realloc(void *old, size_t size)
{
    void *block = fails() ? NULL : __real_realloc(old, size);
    kept += counts && block && !old;
    return block;
}

void __wrap_free(void *old)
{
    kept -= counts && old;
    __real_free(old);
}

/* ---- calls */

static int is_lanes(const char *rack)
{
    return rack && !strcmp(rack, "lanes");
}

/* 255 where the library has no such command. */
static uint8_t call(const words_of_call *words, uint8_t *text, size_t room, size_t *written)
{
    const char *command = words->command;
    unsigned long number = words->number ? strtoul(words->number, NULL, 10) : 0;
    if (!strcmp(command, "check"))
        return uac_check(input, input_length, text, room, written);
    if (!strcmp(command, "show"))
        return uac_show(input, input_length, text, room, written);
    if (!strcmp(command, "elements"))
        return uac_elements(input, input_length, text, room, written);
    if (!strcmp(command, "run"))
        return uac_run(input, input_length, is_lanes(words->rack), text, room, written);
    if (!strcmp(command, "gen"))
        return uac_gen((uint32_t)number, is_lanes(words->rack), text, room, written);
    if (!strcmp(command, "full"))
        return uac_full((uint32_t)number, input, input_length, text, room, written);
    if (!strcmp(command, "pair"))
        return uac_pair((uint32_t)number, input, input_length, text, room, written);
    if (!strcmp(command, "panel"))
        return uac_panel(input, input_length, text, room, written);
    if (!strcmp(command, "settle"))
        return uac_settle(text, room, written);
    return 255;
}

static void read_all(FILE *from)
{
    size_t count;
    while ((count = fread(input + input_length, 1, sizeof input - input_length, from)) > 0)
        input_length += count;
}

static void differs(const char *what, size_t at)
{
    printf("%s, at %zu\n", what, at);
    exit(1);
}

/* The words as the library has them: a command, perhaps its number, perhaps a rack. 0 where they are others. */
static int parted(int count, char **words, words_of_call *parts)
{
    int at = 1, numbered;
    if (count < 1)
        return 0;
    *parts = (words_of_call){ words[0], NULL, NULL };
    numbered = !strcmp(words[0], "gen") || !strcmp(words[0], "full") || !strcmp(words[0], "pair");
    if (numbered) {
        /* Other spellings than the library's own are the program's to refuse. */
        if (count < 2 || strspn(words[1], "0123456789") != strlen(words[1]) || strlen(words[1]) > 9 || words[1][0] == '0')
            return 0;
        parts->number = words[at++];
    }
    if (count == at + 2 && !strcmp(words[at], "--rack") && (!strcmp(words[at + 1], "plain") || is_lanes(words[at + 1]))
        && (!strcmp(words[0], "run") || !strcmp(words[0], "gen"))) {
        parts->rack = words[at + 1];
        at += 2;
    }
    return at == count;
}

static int as_program(int count, char **words)
{
    words_of_call parts;
    size_t written;
    uint8_t status;
    int reads = parted(count, words, &parts) && strcmp(parts.command, "gen") && strcmp(parts.command, "settle");
    if (!parted(count, words, &parts) || (reads && (read_all(stdin), ferror(stdin))))
        goto program;
    status = call(&parts, wanted, ROOM, &written);
    if (status == 255)
        goto program;
    return fwrite(wanted, 1, written, stdout) == written && fflush(stdout) == 0 ? status : UAC_WRITE_FAULT;
program:
    execv(PROGRAM, words - 1);
    return 99;
}

/* ---- what is tried */

static words_of_call asked;
static size_t wanted_length;
static uint8_t wanted_status;

static void every_room(void)
{
    for (size_t room = 0; room <= wanted_length + 2; room++) {
        int is_cut = room < wanted_length;
        size_t length = is_cut ? room : wanted_length, written = 77;
        uint8_t *text = malloc(room + 2), status;
        memset(text, 0xEE, room + 2);
        status = call(&asked, text + 1, room, &written);
        if (status != (is_cut ? UAC_WRITE_FAULT : wanted_status))
            differs("another status in a room", room);
        if (written != length || memcmp(text + 1, wanted, length))
            differs("another text in a room", room);
        for (size_t at = length; at <= room; at++)
            if (text[at + 1] != 0xEE)
                differs("a byte behind the text was written in a room", room);
        if (text[0] != 0xEE)
            differs("a byte before the room was written", room);
        free(text);
    }
    printf("%zu rooms\n", wanted_length + 3);
}

/* One allocation is refused, or all from that one on. Who asked for the one may do with less, and then the call may have its whole text. */
static void refuse(size_t refused, size_t all)
{
    size_t written = 77;
    uint8_t status;
    memset(other, 0xEE, wanted_length + 16);
    left = (long)refused;
    made = kept = 0;
    counts = 1;
    status = call(&asked, other, wanted_length + 16, &written);
    counts = 0;
    left = -1;
    if (kept)
        differs("memory was left behind after an allocation", refused);
    if (status == wanted_status && !all_after && made > (long)all) {
        if (written != wanted_length || memcmp(other, wanted, written))
            differs("another text after an allocation", refused);
        return;
    }
    if (status != UAC_NO_MEMORY || written)
        differs("no want of memory is told of an allocation", refused);
    for (size_t at = 0; at < wanted_length + 16; at++)
        if (other[at] != 0xEE)
            differs("a byte was written without memory", refused);
}

static void each_allocation(void)
{
    size_t written = 77, all, step;
    made = kept = 0;
    counts = 1;
    if (call(&asked, other, ROOM, &written) != wanted_status || kept)
        differs("memory was left behind by a whole call", (size_t)kept);
    counts = 0;
    all = (size_t)made;
    step = all / 400 + 1;
    for (all_after = 0; all_after < 2; all_after++)
        for (size_t refused = 0; refused < all; refused += refused < 200 ? 1 : step)
            refuse(refused, all);
    printf("%zu allocations\n", all);
}

static void *many_calls(void *unused)
{
    uint8_t *text = malloc(wanted_length + 1);
    (void)unused;
    for (int count = 0; count < 200; count++) {
        size_t written;
        if (call(&asked, text, wanted_length, &written) != wanted_status || written != wanted_length || memcmp(text, wanted, written))
            differs("another answer on a thread", (size_t)count);
    }
    free(text);
    return NULL;
}

static void *one_call(void *unused)
{
    size_t written;
    (void)unused;
    if (call(&asked, other, ROOM, &written) != wanted_status || written != wanted_length || memcmp(other, wanted, written))
        differs("another answer on a small stack", written);
    return NULL;
}

static void threads_at_once(void)
{
    pthread_t threads[4];
    for (int number = 0; number < 4; number++)
        pthread_create(&threads[number], NULL, many_calls, NULL);
    for (int number = 0; number < 4; number++)
        pthread_join(threads[number], NULL);
    printf("800 calls\n");
}

static void small_stack(void)
{
    pthread_attr_t attributes;
    pthread_t thread;
    pthread_attr_init(&attributes);
    /* The least that a thread may have is for what the C library itself puts there. */
    pthread_attr_setstacksize(&attributes, UAC_STACK + PTHREAD_STACK_MIN);
    pthread_create(&thread, &attributes, one_call, NULL);
    pthread_join(thread, NULL);
    printf("1 call\n");
}

static void calls_a_second(void)
{
    struct timespec begun, now;
    double seconds = 0;
    long calls = 0;
    clock_gettime(CLOCK_MONOTONIC, &begun);
    while (seconds < 0.5) {
        size_t written;
        call(&asked, other, ROOM, &written);
        calls++;
        clock_gettime(CLOCK_MONOTONIC, &now);
        seconds = (double)(now.tv_sec - begun.tv_sec) + (double)(now.tv_nsec - begun.tv_nsec) / 1e9;
    }
    printf("%.0f calls a second\n", (double)calls / seconds);
}

int main(int count, char **words)
{
    static const struct {
        const char *name;
        void (*tries)(void);
    } modes[] = { { "rooms", every_room }, { "memory", each_allocation }, { "threads", threads_at_once }, { "stack", small_stack },
                  { "times", calls_a_second } };
    FILE *file;
    if (strcmp(words[0] + strlen(words[0]) - 4, "_cli") == 0)
        return as_program(count - 1, words + 1);
    if (count < 4 || !(file = fopen(words[2], "rb")) || !parted(count - 3, words + 3, &asked))
        return 2;
    read_all(file);
    fclose(file);
    wanted_status = call(&asked, wanted, ROOM, &wanted_length);
    for (size_t mode = 0; mode < sizeof modes / sizeof *modes; mode++)
        if (!strcmp(words[1], modes[mode].name)) {
            modes[mode].tries();
            return 0;
        }
    return 2;
}
