/*
 * A client of include/corbatan.h. It reads a street sheet from a file, plans it over a lent list that it has filled
 * with a pattern, prints the reply and the whole list, and measures the offsets of a plan.
 *
 *     client SHEET [seconds] [room N | outbound WIDTH | inbound WIDTH | platoons P Q]
 *     client SHEET [seconds] volumes V W HEADWAY
 *     client SHEET write [N]
 *     client SHEET print|numbers|unequal
 *     client ROWS survey CYCLE [room N]
 *     client empty
 *
 * Without a word after the sheet, or with `room`, it is the equal plan. `volumes` prints the largest volumes after the
 * reply. With `seconds` the plan is one in whole seconds, which has no largest volumes, and the offsets that cabinets
 * keep by these are measured. `write` writes the sheet again into a lent list of N bytes, two more than any sheet needs
 * where N is not said, prints the reply and all bytes of the list, and tells whether what was written reads back as the
 * same numbers. `print` shows the printed plan and `numbers` what the reader read. `survey` reads at most 64 rows from
 * its file, each on a line with the number of its kind, its position, outbound and inbound speed, each as the 16
 * hexadecimal digits of any float's bits, and its red; it shows what the rows came to, and the equal plan of that.
 * `unequal` hands over lists whose lengths do not fit, and `empty` hands null pointers and counts of 0 to every call.
 * Exit status: 0, or 2 where the words or the file are no good; a refusal is an answer.
 */
#include "corbatan.h"

#include <inttypes.h>
#include <stdio.h>
#include <stdlib.h>
#include <string.h>

/* No offset and no second is as large as the pattern, so an entry that was written shows. */
#define PATTERN 77777u
#define MAX_ROOM 64

/* No sheet has the byte of the pattern. */
#define BYTE_PATTERN 77u
#define MAX_BYTES (CORBATAN_MAX_SHEET + 2)

/* The structs are laid out as the library has them: a negative size here stops the compiler. */
typedef char plan_size[sizeof(CorbatanPlan) == 36 ? 1 : -1];
typedef char volumes_size[sizeof(CorbatanVolumes) == 44 && offsetof(CorbatanVolumes, outbound_volume) == 36 ? 1 : -1];
typedef char measure_size[sizeof(CorbatanMeasure) == 24 ? 1 : -1];
typedef char sheet_size[sizeof(CorbatanSheet) == 536 && offsetof(CorbatanSheet, reds) == 20 ? 1 : -1];
typedef char writing_size[sizeof(CorbatanWriting) == 16 && offsetof(CorbatanWriting, count) == 8 ? 1 : -1];
typedef char text_size[sizeof(CorbatanText) == 520 && offsetof(CorbatanText, bytes) == 8 ? 1 : -1];

/* A survey's rows, with nothing in them where no file of rows is read. */
#define MAX_ROWS 64
static uint32_t kinds[MAX_ROWS], row_reds[MAX_ROWS];
static double positions[MAX_ROWS], outbound[MAX_ROWS], inbound[MAX_ROWS];

static uint32_t lent[MAX_ROOM];
static uint8_t lent_bytes[MAX_BYTES];

static uint32_t *fill(size_t room)
{
    for (size_t i = 0; i < MAX_ROOM; i++)
        lent[i] = PATTERN;
    return room == 0 ? NULL : lent;
}

static uint8_t *fill_bytes(size_t room)
{
    memset(lent_bytes, BYTE_PATTERN, sizeof lent_bytes);
    return room == 0 ? NULL : lent_bytes;
}

/* An empty list as a null pointer, which the calls allow. */
static const uint32_t *list(const uint32_t *entries, size_t count)
{
    return count == 0 ? NULL : entries;
}

static void show_list(const char *name, const uint32_t *entries, size_t count)
{
    printf("%s", name);
    for (size_t i = 0; i < count; i++)
        printf(" %" PRIu32, entries[i]);
    printf("\n");
}

static void show_plan(CorbatanPlan p)
{
    printf("plan code %" PRIu32 " place %" PRIu32, p.code, p.place);
    printf(" reference %" PRIu32 " b %" PRId32, p.reference, p.b);
    printf(" outbound %" PRIu32 " inbound %" PRIu32 " rounded %" PRIu32, p.outbound, p.inbound, p.rounded);
    printf(" starts %" PRIu32 " ends %" PRIu32 "\n", p.starts, p.ends);
}

static void show_volumes(CorbatanVolumes v)
{
    show_plan(v.plan);
    printf("volumes outbound %" PRIu32 " inbound %" PRIu32 "\n", v.outbound_volume, v.inbound_volume);
}

static void show_measure(CorbatanMeasure m)
{
    printf("measure code %" PRIu32 " place %" PRIu32, m.code, m.place);
    printf(" outbound %" PRIu32 " from %" PRIu32, m.outbound_width, m.outbound_start);
    printf(" inbound %" PRIu32 " from %" PRIu32 "\n", m.inbound_width, m.inbound_start);
}

/* Shows the reply, and how many numbers stand where there should be none. */
static size_t show_head(CorbatanSheet s)
{
    size_t links = s.signals == 0 ? 0 : s.signals - 1, beyond = 0;
    for (size_t i = 0; i < CORBATAN_MAX_SIGNALS; i++) {
        beyond += i >= s.signals && (s.reds[i] != 0 || s.distances[i] != 0);
        beyond += i >= links && (s.outbound[i] != 0 || s.inbound[i] != 0);
    }
    printf("sheet code %" PRIu32 " place %" PRIu32 " signals %zu cycle %" PRIu32, s.code, s.place, s.signals, s.cycle);
    printf(" numbers beyond %zu\n", beyond);
    return links;
}

static void show_sheet(CorbatanSheet s)
{
    size_t links = show_head(s);
    show_list("reds", s.reds, s.signals);
    show_list("distances", s.distances, s.signals);
    show_list("outbound", s.outbound, links);
    show_list("inbound", s.inbound, links);
}

/* Shows the reply and every byte that was lent. */
static void show_writing(CorbatanWriting w, size_t room)
{
    printf("writing code %" PRIu32 " place %" PRIu32 " count %zu\n", w.code, w.place, w.count);
    printf("bytes");
    for (size_t i = 0; i < room; i++)
        printf(" %d", lent_bytes[i]);
    printf("\n");
}

static void show_text(CorbatanText t)
{
    fwrite(t.bytes, 1, t.count, stdout);
}

/* A street's lists as the calls take them, after the cycle. */
#define STREET(s, n, links)                                                                                       \
    (s).cycle, (s).reds, (n), (s).distances, (n), list((s).outbound, (links)), (links), list((s).inbound, (links)), \
        (links)

/* Shows the list after a plan, and measures the offsets that stand in it. */
static void show_lent(const CorbatanSheet *s, CorbatanPlan p, size_t room)
{
    show_list("list", lent, room);
    if (p.code == CORBATAN_OK)
        show_measure(corbatan_measure(STREET(*s, s->signals, s->signals - 1), lent, s->signals));
}

static void show_planned(const CorbatanSheet *s, CorbatanPlan p, size_t room)
{
    show_plan(p);
    show_lent(s, p, room);
}

static void show_planned_volumes(const CorbatanSheet *s, CorbatanVolumes v, size_t room)
{
    show_volumes(v);
    show_lent(s, v.plan, room);
}

/* Shows a plan in seconds and the list after it, and measures the offsets that the cabinets keep: the middle of a red
   lies as many halves before the start of green as the red has ticks. */
static void show_seconds(const CorbatanSheet *s, CorbatanPlan p, size_t room)
{
    uint32_t kept[CORBATAN_MAX_SIGNALS];
    show_plan(p);
    show_list("list", lent, room);
    if (p.code != CORBATAN_OK)
        return;
    for (size_t i = 0; i < s->signals; i++)
        kept[i] = (20 * lent[i] + 2 * s->cycle - s->reds[i]) % (2 * s->cycle);
    show_measure(corbatan_measure(STREET(*s, s->signals, s->signals - 1), kept, s->signals));
}

static int same_numbers(const CorbatanSheet *a, const CorbatanSheet *b)
{
    return a->code == b->code && a->signals == b->signals && a->cycle == b->cycle &&
           memcmp(a->reds, b->reds, sizeof a->reds) == 0 &&
           memcmp(a->distances, b->distances, sizeof a->distances) == 0 &&
           memcmp(a->outbound, b->outbound, sizeof a->outbound) == 0 &&
           memcmp(a->inbound, b->inbound, sizeof a->inbound) == 0;
}

/* Writes the sheet, shows the lent list after it, and reads back what was written. */
static void write_again(const CorbatanSheet *s, size_t room)
{
    CorbatanWriting w = corbatan_write(STREET(*s, s->signals, s->signals - 1), fill_bytes(room), room);
    show_writing(w, room);
    if (w.code == CORBATAN_OK) {
        CorbatanSheet again = corbatan_read(lent_bytes, w.count);
        printf("read %s\n", same_numbers(s, &again) ? "same" : "other");
    }
}

/* A distance too few, an outbound speed too many, an inbound speed too many, and all three again in seconds; an offset
   too many, and then as many as there should be, which still are the pattern and so too large. Then a sheet with a
   distance too few, over as many bytes as there are signals: that is too little room as well, which would be named last.
   Last a survey of rows with nothing in them, each list in turn too short or too long, and then all as long as they
   should be. */
static void unequal(const CorbatanSheet *s)
{
    const uint32_t *r = s->reds, *d = s->distances, *o = s->outbound, *i = s->inbound;
    size_t n = s->signals, links = n - 1;
    uint32_t *offsets = fill(n);
    show_plan(corbatan_equal(s->cycle, r, n, d, n - 1, o, links, i, links, offsets, n));
    show_plan(corbatan_inbound(s->cycle, r, n, d, n, o, n, i, links, 80, offsets, n));
    show_plan(corbatan_outbound(s->cycle, r, n, d, n, o, links, i, n, 80, offsets, n));
    show_plan(corbatan_equal_seconds(s->cycle, r, n, d, n - 1, o, links, i, links, offsets, n));
    show_plan(corbatan_inbound_seconds(s->cycle, r, n, d, n, o, n, i, links, 80, offsets, n));
    show_plan(corbatan_outbound_seconds(s->cycle, r, n, d, n, o, links, i, n, 80, offsets, n));
    show_list("list", lent, n);
    show_measure(corbatan_measure(STREET(*s, n, links), lent, n + 1));
    show_measure(corbatan_measure(STREET(*s, n, links), lent, n));
    show_writing(corbatan_write(s->cycle, r, n, d, n - 1, o, links, i, links, fill_bytes(n), n), n);
    show_head(corbatan_survey(s->cycle, kinds, n - 1, positions, n, outbound, n, inbound, n, r, n));
    show_head(corbatan_survey(s->cycle, kinds, n, positions, n + 1, outbound, n, inbound, n, r, n));
    show_head(corbatan_survey(s->cycle, kinds, n, positions, n, outbound, links, inbound, n, r, n));
    show_head(corbatan_survey(s->cycle, kinds, n, positions, n, outbound, n, inbound, links, r, n));
    show_head(corbatan_survey(s->cycle, kinds, n, positions, n, outbound, n, inbound, n, r, n - 1));
    show_head(corbatan_survey(s->cycle, kinds, n, positions, n, outbound, n, inbound, n, r, n));
}

static void empty(void)
{
    show_sheet(corbatan_read(NULL, 0));
    show_text(corbatan_print(NULL, 0));
    show_plan(corbatan_equal(600, NULL, 0, NULL, 0, NULL, 0, NULL, 0, NULL, 0));
    show_plan(corbatan_outbound(600, NULL, 0, NULL, 0, NULL, 0, NULL, 0, 80, NULL, 0));
    show_plan(corbatan_inbound(600, NULL, 0, NULL, 0, NULL, 0, NULL, 0, 80, NULL, 0));
    show_plan(corbatan_platoons(600, NULL, 0, NULL, 0, NULL, 0, NULL, 0, 30, 10, NULL, 0));
    show_volumes(corbatan_volumes(600, NULL, 0, NULL, 0, NULL, 0, NULL, 0, 800, 300, 20, NULL, 0));
    show_plan(corbatan_equal_seconds(600, NULL, 0, NULL, 0, NULL, 0, NULL, 0, NULL, 0));
    show_plan(corbatan_outbound_seconds(600, NULL, 0, NULL, 0, NULL, 0, NULL, 0, 80, NULL, 0));
    show_plan(corbatan_inbound_seconds(600, NULL, 0, NULL, 0, NULL, 0, NULL, 0, 80, NULL, 0));
    show_plan(corbatan_platoons_seconds(600, NULL, 0, NULL, 0, NULL, 0, NULL, 0, 30, 10, NULL, 0));
    show_plan(corbatan_volumes_seconds(600, NULL, 0, NULL, 0, NULL, 0, NULL, 0, 800, 300, 20, NULL, 0));
    show_measure(corbatan_measure(600, NULL, 0, NULL, 0, NULL, 0, NULL, 0, NULL, 0));
    show_writing(corbatan_write(600, NULL, 0, NULL, 0, NULL, 0, NULL, 0, NULL, 0), 0);
    show_head(corbatan_survey(600, NULL, 0, NULL, 0, NULL, 0, NULL, 0, NULL, 0));
}

static int usage(void)
{
    fprintf(stderr, "usage: client SHEET [seconds] [room N | outbound WIDTH | inbound WIDTH | platoons P Q]\n");
    fprintf(stderr, "       client SHEET [seconds] volumes V W HEADWAY\n");
    fprintf(stderr, "       client SHEET write [N]\n");
    fprintf(stderr, "       client SHEET print|numbers|unequal\n");
    fprintf(stderr, "       client ROWS survey CYCLE [room N]\n");
    fprintf(stderr, "       client empty\n");
    return 2;
}

/* Takes a float by its bits, a space and 16 hexadecimal digits, and works nothing out with it. Answers whether they
   stand there. */
static int next_float(char **at, double *number)
{
    char *from = *at;
    uint64_t bits = strtoull(from, at, 16);
    memcpy(number, &bits, sizeof bits);
    return *from == ' ' && *at - from == 17;
}

/* Reads rows from a text, and answers how many there are; more than there may be where the text has something else. */
static size_t read_rows(char *at)
{
    size_t n = 0;
    for (; *at != 0 && n < MAX_ROWS; n++) {
        kinds[n] = (uint32_t)strtoul(at, &at, 10);
        if (!next_float(&at, &positions[n]) || !next_float(&at, &outbound[n]) || !next_float(&at, &inbound[n]))
            return MAX_ROWS + 1;
        row_reds[n] = (uint32_t)strtoul(at, &at, 10);
        if (*at++ != '\n')
            return MAX_ROWS + 1;
    }
    return *at == 0 ? n : MAX_ROWS + 1;
}

/* The rows of a text, the numbers that they come to, and the equal plan of these, by the words after `survey`. */
static int surveyed(char *text, int words, char **word)
{
    size_t n = read_rows(text), room = n < MAX_ROOM ? n + 1 : MAX_ROOM;
    if (words == 3 && strcmp(word[1], "room") == 0)
        room = strtoul(word[2], NULL, 10);
    else if (words != 1)
        return usage();
    if (n > MAX_ROWS || room > MAX_ROOM)
        return usage();
    uint32_t cycle = (uint32_t)strtoul(word[0], NULL, 10);
    CorbatanSheet s = corbatan_survey(cycle, list(kinds, n), n, positions, n, outbound, n, inbound, n, row_reds, n);
    show_sheet(s);
    if (s.code == CORBATAN_OK) {
        uint32_t *offsets = fill(room);
        show_planned(&s, corbatan_equal(STREET(s, s.signals, s.signals - 1), offsets, room), room);
    }
    return 0;
}

/* Whether so many words were given, and this one first. */
static int are(int words, char **word, int count, const char *first)
{
    return words == count && strcmp(word[0], first) == 0;
}

/* The number of a word, or 0 where there are not so many. */
static uint32_t number(int words, char **word, int k)
{
    return words > k ? (uint32_t)strtoul(word[k], NULL, 10) : 0;
}

/* How many entries are lent for a plan: by the word `room`, or one more than there are signals. */
static size_t lent_for(const CorbatanSheet *s, int words, char **word)
{
    return are(words, word, 2, "room") ? number(words, word, 1) : s->signals + 1;
}

/* The calls for seconds, by the words after `seconds`. */
static int in_seconds(const CorbatanSheet *s, int words, char **word)
{
    size_t n = s->signals, links = n - 1, room = lent_for(s, words, word);
    uint32_t first = number(words, word, 1), second = number(words, word, 2), third = number(words, word, 3);
    if (room > MAX_ROOM)
        return usage();
    uint32_t *seconds = fill(room);
    if (words == 0 || are(words, word, 2, "room"))
        show_seconds(s, corbatan_equal_seconds(STREET(*s, n, links), seconds, room), room);
    else if (are(words, word, 2, "outbound"))
        show_seconds(s, corbatan_outbound_seconds(STREET(*s, n, links), first, seconds, room), room);
    else if (are(words, word, 2, "inbound"))
        show_seconds(s, corbatan_inbound_seconds(STREET(*s, n, links), first, seconds, room), room);
    else if (are(words, word, 3, "platoons"))
        show_seconds(s, corbatan_platoons_seconds(STREET(*s, n, links), first, second, seconds, room), room);
    else if (are(words, word, 4, "volumes"))
        show_seconds(s, corbatan_volumes_seconds(STREET(*s, n, links), first, second, third, seconds, room), room);
    else
        return usage();
    return 0;
}

/* The calls on a sheet that was read, by the words after its name. */
static int asked(const CorbatanSheet *s, int words, char **word)
{
    size_t n = s->signals, links = n - 1, room = lent_for(s, words, word);
    uint32_t first = number(words, word, 1), second = number(words, word, 2), third = number(words, word, 3);
    if (words > 0 && strcmp(word[0], "seconds") == 0)
        return in_seconds(s, words - 1, word + 1);
    if (room > MAX_ROOM)
        return usage();
    uint32_t *offsets = fill(room);
    if (words == 0 || are(words, word, 2, "room"))
        show_planned(s, corbatan_equal(STREET(*s, n, links), offsets, room), room);
    else if (are(words, word, 2, "outbound"))
        show_planned(s, corbatan_outbound(STREET(*s, n, links), first, offsets, room), room);
    else if (are(words, word, 2, "inbound"))
        show_planned(s, corbatan_inbound(STREET(*s, n, links), first, offsets, room), room);
    else if (are(words, word, 3, "platoons"))
        show_planned(s, corbatan_platoons(STREET(*s, n, links), first, second, offsets, room), room);
    else if (are(words, word, 4, "volumes"))
        show_planned_volumes(s, corbatan_volumes(STREET(*s, n, links), first, second, third, offsets, room), room);
    else if (are(words, word, 1, "write"))
        write_again(s, MAX_BYTES);
    else if (are(words, word, 2, "write") && first <= MAX_BYTES)
        write_again(s, first);
    else if (are(words, word, 1, "unequal"))
        unequal(s);
    else
        return usage();
    return 0;
}

int main(int argc, char **argv)
{
    /* Far more than a sheet may have, so that one that is too long is still too long here, and enough for 64 rows; the
       last byte stays 0, so that rows end before it. */
    static uint8_t bytes[8192];
    if (argc < 2)
        return usage();
    if (argc == 2 && strcmp(argv[1], "empty") == 0) {
        empty();
        return 0;
    }
    FILE *file = fopen(argv[1], "rb");
    if (file == NULL) {
        perror(argv[1]);
        return 2;
    }
    size_t count = fread(bytes, 1, sizeof bytes - 1, file);
    fclose(file);
    if (argc > 3 && strcmp(argv[2], "survey") == 0)
        return surveyed((char *)bytes, argc - 3, argv + 3);
    if (argc == 3 && strcmp(argv[2], "print") == 0) {
        show_text(corbatan_print(bytes, count));
        return 0;
    }
    CorbatanSheet s = corbatan_read(bytes, count);
    if (s.code != CORBATAN_OK || (argc == 3 && strcmp(argv[2], "numbers") == 0)) {
        show_sheet(s);
        return 0;
    }
    return asked(&s, argc - 2, argv + 2);
}
