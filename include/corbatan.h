/*
 * Corbatan: green waves on a street with two-way traffic.
 *
 * A street has n signals, numbered 1 to n in order of distance; that way is
 * outbound, and link k joins signals k and k + 1. Each call takes a street's
 * numbers, the bytes of a street sheet or the rows of a survey instrument, and
 * answers with one struct by value. The rules behind the numbers are in
 * docs/RULES.md.
 *
 * Units. A tick is a tenth of a second, a half is half a tick. Cycles and reds
 * are in ticks, distances in mm, speeds in mm/s; offsets, widths, instants and
 * platoons are in halves. Volumes are in vehicles an hour, a headway is in
 * ticks. H is the cycle in halves, twice its ticks. A cabinet's starts of green
 * alone are in whole seconds, 20 halves each. A survey's rows alone have metres
 * and metres a second, as 64-bit floats.
 *
 * Lists. A list is a pointer and a count of entries, not of bytes.
 *
 * What a caller keeps:
 *   - a pointer is aligned for its entries and has as many of them behind it
 *     as its count says, none of which changes during the call;
 *   - a null pointer is allowed where the count is 0;
 *   - a lent list, the `offsets` or the `seconds` of a plan or the `bytes` that
 *     corbatan_write is to fill, can be written and overlaps no input; inputs
 *     may overlap one another, or be the same list.
 *
 * What a caller gets: every call returns, whatever the counts and the numbers
 * are, and whatever the bits of a float. Numbers that make no street are
 * refused by a code, and a list of the wrong length is one of the faults. A
 * plan writes the first n entries of the lent list, corbatan_write as many as
 * the sheet has bytes, and neither any other; a refusal writes none. Nothing
 * is allocated and nothing is kept between calls, so threads may call at the
 * same time, each with a lent list of its own.
 *
 * How to get the archive, which is for x86-64 Linux: in the repository,
 *
 *     ./install FOLDER
 *
 * proves the library and puts this header, the archive libcorbatan.a and a
 * file for pkg-config into FOLDER. `rt lib` in crates/exports makes the archive
 * alone, and leaves it at out/libexports.a there. From nothing either proves
 * the whole library, and takes about ten seconds once that is done. A program
 * is then built by
 *
 *     cc -I FOLDER/include program.c FOLDER/lib/libcorbatan.a -o program
 *
 * docs/CALLING.md has whole programs in C, C++, Rust and Python.
 */
#ifndef CORBATAN_H
#define CORBATAN_H

#include <stddef.h>
#include <stdint.h>

/* The version of this interface: the major number changes when a program that uses it has to change. */
#define CORBATAN_VERSION_MAJOR 1
#define CORBATAN_VERSION_MINOR 7
#define CORBATAN_VERSION "1.7"

/* How many signals a street can have, and so how long the lists in a CorbatanSheet are. */
#define CORBATAN_MAX_SIGNALS 32

/* How many bytes the sheet of a street that passes the checks has at most: a lent list of so many always has room. */
#define CORBATAN_MAX_SHEET 833

/* How many bytes a printed text can have. */
#define CORBATAN_MAX_TEXT 512

/* The kinds of a survey row's position: its distance from the origin, or from the signal of the row before. */
#define CORBATAN_CHAINAGE 0
#define CORBATAN_GAP 1

/*
 * How many bytes of stack are enough for any of the calls, with its arguments and its reply. client/stack.c measures
 * what they take, on streets of up to 32 signals, on requests and on refusals: corbatan_print 13,680, the calls for
 * seconds at most 10,624, any other plan at most 10,512, corbatan_survey 4,424, corbatan_measure 1,824, corbatan_read
 * 1,328, corbatan_write 1,032; another kit may give a few bytes more or less. The rest is room, as for the dynamic
 * linker, which takes some 2,000 bytes of the caller's stack where it binds memcpy or memset at their first use.
 */
#define CORBATAN_STACK 20480

/*
 * What `code` says, and what `place` then names, counted from 1. Of a street's faults the one with the smallest code
 * is given, at its first place, except that the calls that take volumes give code 11 before code 8, and corbatan_write
 * code 3 last of all; of a sheet's the first that reading comes to. Code 13 comes directly after 4, before 5, and from the
 * five calls for seconds alone. A survey's code 12 comes directly after 2: corbatan_survey gives no other, and a call that
 * plans its numbers judges them from 3 on.
 */
#define CORBATAN_OK 0       /* Nothing was refused; place 0. */
#define CORBATAN_SHEET 1    /* The bytes are not formed as a sheet; place 0. */
#define CORBATAN_COUNT 2    /* n is not 1 to 32, or a list's length does not fit n; place 0. */
#define CORBATAN_ROOM 3     /* The lent list is shorter than what is written: n offsets or seconds, or a sheet's bytes; place 0. */
#define CORBATAN_CYCLE 4    /* The cycle is not 10 to 6,000 ticks; place 0. */
#define CORBATAN_RED 5      /* A red is not 0 to one tick less than the cycle, up to version 1.5 not 1 tick to that; the signal. */
#define CORBATAN_DISTANCE 6 /* A distance is above 20,000,000 mm or not above the one before; the signal. */
#define CORBATAN_SPEED 7    /* A speed is not 1,000 to 40,000 mm/s; the link. */
#define CORBATAN_PLATOON 8  /* A platoon, given or of a volume, is longer than 100,000 halves; 1 outbound, 2 inbound. */
#define CORBATAN_WIDTH 9    /* A requested width is below 1, below B or above the least H - 2r; place 0. */
#define CORBATAN_OFFSET 10  /* A measured offset is not below H; the signal. */
#define CORBATAN_VOLUME 11  /* A volume is above 10,000 or a headway not 1 to 100; 1 outbound, 2 inbound, 3 headway. */
#define CORBATAN_SURVEY 12  /* A number of a survey's row is outside its rules; the row. */
#define CORBATAN_SECONDS 13 /* The cycle is in its range and no whole number of seconds, a multiple of 10 ticks; place 0. */

#ifdef __cplusplus
extern "C" {
#endif

/* A plan, or a refusal, of which every number but the code and the place is 0. It has 36 bytes. */
typedef struct CorbatanPlan {
    uint32_t code;      /* 0 for a plan, else the number of the refusal. */
    uint32_t place;     /* The signal, link or direction that was refused, counted from 1, or 0. */
    uint32_t reference; /* The reference signal c, from 1 to n. */
    int32_t b;          /* B, the width of both bands in the equal plan, in halves; 0 or negative where it has none. */
    uint32_t outbound;  /* The width of the outbound band, in halves. */
    uint32_t inbound;   /* The width of the inbound band, in halves. */
    uint32_t rounded;   /* How many links have a travel time, either way, that was rounded to whole ticks. */
    uint32_t starts;    /* The instant at c at which the named outbound band starts, in halves, below H; given for width 0 too. */
    uint32_t ends;      /* The instant at c at which the named inbound band ends, in halves, below H; given for width 0 too. */
} CorbatanPlan;

/* A plan for volumes, and the largest volumes that fit it; in a refusal these are 0. It has 44 bytes. */
typedef struct CorbatanVolumes {
    CorbatanPlan plan;        /* The plan, or the refusal with its code and place. */
    uint32_t outbound_volume; /* The largest volume, 0 to 10,000, whose platoon is at most the outbound width. */
    uint32_t inbound_volume;  /* The largest volume, 0 to 10,000, whose platoon is at most the inbound width. */
} CorbatanVolumes;

/*
 * The bands of given offsets, a band of width 0 with start 0; or a refusal, whose numbers but code and place are 0.
 * It has 24 bytes.
 */
typedef struct CorbatanMeasure {
    uint32_t code;           /* 0 for a measure, else the number of the refusal. */
    uint32_t place;          /* The signal or link that was refused, counted from 1, or 0. */
    uint32_t outbound_width; /* The width of the outbound band, in halves. */
    uint32_t outbound_start; /* The least instant at signal 1 at which a band of that width starts, in halves. */
    uint32_t inbound_width;  /* The width of the inbound band, in halves. */
    uint32_t inbound_start;  /* The least instant at signal n at which a band of that width starts, in halves. */
} CorbatanMeasure;

/*
 * The numbers of a sheet or of a survey, which the call that uses them judges, or a refusal, whose numbers but code and
 * place are 0. It has 536 bytes, 4 of them empty at its end.
 */
typedef struct CorbatanSheet {
    uint32_t code;                            /* 0 for numbers that were read; else 1 or 2 for a sheet, 2 or 12 for a survey. */
    uint32_t place;                           /* The row that code 12 refuses, counted from 1; else 0. */
    size_t signals;                           /* n, the count of signals; there are n - 1 links. */
    uint32_t cycle;                           /* The cycle, in ticks. */
    uint32_t reds[CORBATAN_MAX_SIGNALS];      /* Each signal's red, in ticks; 0 from entry n on. */
    uint32_t distances[CORBATAN_MAX_SIGNALS]; /* Each signal's distance from the origin, in mm; 0 from entry n on. */
    uint32_t outbound[CORBATAN_MAX_SIGNALS];  /* Each link's outbound speed, in mm/s; 0 from entry n - 1 on. */
    uint32_t inbound[CORBATAN_MAX_SIGNALS];   /* Each link's inbound speed, in mm/s; 0 from entry n - 1 on. */
} CorbatanSheet;

/* The length of a sheet that was written, or a refusal, whose count is 0. It has 16 bytes. */
typedef struct CorbatanWriting {
    uint32_t code;  /* 0 for a sheet that was written, else the number of the refusal. */
    uint32_t place; /* The signal or link that was refused, counted from 1, or 0. */
    size_t count;   /* How many bytes the sheet has, which are the first of the lent list. */
} CorbatanWriting;

/* A printed text. It has 520 bytes. */
typedef struct CorbatanText {
    size_t count;                     /* How many bytes the text has. */
    uint8_t bytes[CORBATAN_MAX_TEXT]; /* The text in ASCII, each line with its line end; 0 from entry `count` on. */
} CorbatanText;

/* Reads a street sheet from its bytes. */
CorbatanSheet corbatan_read(const uint8_t *bytes, size_t bytes_count);

/*
 * Takes the rows of a survey instrument, n of them with an entry in each list, for the street that they come to, in
 * the units of the other calls. Row k has signal k: its position in metres, CORBATAN_CHAINAGE from the origin or
 * CORBATAN_GAP from the signal of the row before, in the first row from the origin; the two speeds, in metres a second,
 * of the link that ends there; and its red in ticks. A float is accepted when it is finite, not negative, at most 20,000
 * and a whole multiple of 1/8; negative zero counts as zero. It becomes 125 mm or 125 mm/s for each eighth, so that n
 * rows give n distances and, from row 2 on, the speeds of n - 1 links. At the first row no link ends, and both its
 * speeds must be zero. A row with another float, with a kind that is neither of the two or with its signal further than
 * 20,000 m from the origin gets code 12; the first such row is the place. The cycle and the reds go over as they are,
 * and the call that uses the numbers judges them. n is reds_count, and every list has n entries.
 */
CorbatanSheet corbatan_survey(
    uint32_t cycle,
    const uint32_t *kinds, size_t kinds_count,
    const double *positions, size_t positions_count,
    const double *outbound, size_t outbound_count,
    const double *inbound, size_t inbound_count,
    const uint32_t *reds, size_t reds_count);

/*
 * Writes the sheet of a street into the first bytes of a lent list. From these corbatan_read reads the same numbers
 * again, and numbers that it read from a sheet give that sheet's own bytes. The list's bytes past the count stay as
 * they were, and a refusal writes none. Whether the list has room is judged last, so code 3 says that nothing but its
 * length is at fault.
 */
CorbatanWriting corbatan_write(
    uint32_t cycle,
    const uint32_t *reds, size_t reds_count,
    const uint32_t *distances, size_t distances_count,
    const uint32_t *outbound, size_t outbound_count,
    const uint32_t *inbound, size_t inbound_count,
    uint8_t *bytes, size_t bytes_count);

/* Prints the equal plan of a sheet's bytes: a line of numbers and then one offset a line, or a refusal's one line. */
CorbatanText corbatan_print(const uint8_t *bytes, size_t bytes_count);

/*
 * Plans with both bands of one width. Each of the plans takes the cycle in ticks, n reds in ticks, n distances in mm,
 * n - 1 outbound and n - 1 inbound speeds in mm/s, and lends a list of n entries or more for the offsets in halves.
 * A signal whose red is 0 rests in green: it limits no band, and no request moves its offset. Where every signal rests,
 * the reference is signal 1, and B and both widths are H.
 */
CorbatanPlan corbatan_equal(
    uint32_t cycle,
    const uint32_t *reds, size_t reds_count,
    const uint32_t *distances, size_t distances_count,
    const uint32_t *outbound, size_t outbound_count,
    const uint32_t *inbound, size_t inbound_count,
    uint32_t *offsets, size_t offsets_count);

/* Plans with a requested width of the outbound band, in halves. */
CorbatanPlan corbatan_outbound(
    uint32_t cycle,
    const uint32_t *reds, size_t reds_count,
    const uint32_t *distances, size_t distances_count,
    const uint32_t *outbound, size_t outbound_count,
    const uint32_t *inbound, size_t inbound_count,
    uint32_t width,
    uint32_t *offsets, size_t offsets_count);

/* Plans with a requested width of the inbound band, in halves. */
CorbatanPlan corbatan_inbound(
    uint32_t cycle,
    const uint32_t *reds, size_t reds_count,
    const uint32_t *distances, size_t distances_count,
    const uint32_t *outbound, size_t outbound_count,
    const uint32_t *inbound, size_t inbound_count,
    uint32_t width,
    uint32_t *offsets, size_t offsets_count);

/*
 * Plans by the lengths of the two directions' platoons, in halves. A direction whose platoon leaves the other one no band
 * gets the widest band that the signals let through; up to version 1.2 not where both platoons fit into twice B.
 */
CorbatanPlan corbatan_platoons(
    uint32_t cycle,
    const uint32_t *reds, size_t reds_count,
    const uint32_t *distances, size_t distances_count,
    const uint32_t *outbound, size_t outbound_count,
    const uint32_t *inbound, size_t inbound_count,
    uint32_t outbound_platoon, uint32_t inbound_platoon,
    uint32_t *offsets, size_t offsets_count);

/*
 * Plans by the volumes of the two directions, in vehicles an hour, and one headway for both, in ticks. The platoon of
 * a volume has volume * cycle * headway / 18,000 halves, rounded up, and the plan is the one that corbatan_platoons
 * gives for the two platoons.
 */
CorbatanVolumes corbatan_volumes(
    uint32_t cycle,
    const uint32_t *reds, size_t reds_count,
    const uint32_t *distances, size_t distances_count,
    const uint32_t *outbound, size_t outbound_count,
    const uint32_t *inbound, size_t inbound_count,
    uint32_t outbound_volume, uint32_t inbound_volume, uint32_t headway,
    uint32_t *offsets, size_t offsets_count);

/*
 * Plans as corbatan_equal does, for cabinets that take the start of each green in whole seconds. Each of the five calls
 * for seconds takes what the plan of its kind takes, and lends a list of n entries or more for the seconds in place of
 * the offsets. The cycle has to be a whole number of seconds. An entry is the instant at which the signal's green starts,
 * as many halves after its offset as its red has ticks, round the cycle, rounded to the nearest second and up where it is
 * half-way, so that H - 10 becomes 0: from 0 to one less than the seconds of the cycle. The reply is the plan's own, with
 * the widths and instants of the offsets, which are not written. The cabinets then keep others: 20 halves for each second,
 * less as many halves as the red has ticks. Under these a departure of a named band still meets no red that is at least 10
 * halves after its start and more than 9 before its end, and each direction's band is at most 19 halves narrower than
 * reported. At exact travel times both distances are `rounded` halves more, and the band may be as many narrower still.
 */
CorbatanPlan corbatan_equal_seconds(
    uint32_t cycle,
    const uint32_t *reds, size_t reds_count,
    const uint32_t *distances, size_t distances_count,
    const uint32_t *outbound, size_t outbound_count,
    const uint32_t *inbound, size_t inbound_count,
    uint32_t *seconds, size_t seconds_count);

/* Plans as corbatan_outbound does, for cabinets. */
CorbatanPlan corbatan_outbound_seconds(
    uint32_t cycle,
    const uint32_t *reds, size_t reds_count,
    const uint32_t *distances, size_t distances_count,
    const uint32_t *outbound, size_t outbound_count,
    const uint32_t *inbound, size_t inbound_count,
    uint32_t width,
    uint32_t *seconds, size_t seconds_count);

/* Plans as corbatan_inbound does, for cabinets. */
CorbatanPlan corbatan_inbound_seconds(
    uint32_t cycle,
    const uint32_t *reds, size_t reds_count,
    const uint32_t *distances, size_t distances_count,
    const uint32_t *outbound, size_t outbound_count,
    const uint32_t *inbound, size_t inbound_count,
    uint32_t width,
    uint32_t *seconds, size_t seconds_count);

/* Plans as corbatan_platoons does, for cabinets. */
CorbatanPlan corbatan_platoons_seconds(
    uint32_t cycle,
    const uint32_t *reds, size_t reds_count,
    const uint32_t *distances, size_t distances_count,
    const uint32_t *outbound, size_t outbound_count,
    const uint32_t *inbound, size_t inbound_count,
    uint32_t outbound_platoon, uint32_t inbound_platoon,
    uint32_t *seconds, size_t seconds_count);

/*
 * Plans as corbatan_volumes does, for cabinets. It names no largest volumes: those fit the reported widths, and the bands
 * that the cabinets keep may be narrower.
 */
CorbatanPlan corbatan_volumes_seconds(
    uint32_t cycle,
    const uint32_t *reds, size_t reds_count,
    const uint32_t *distances, size_t distances_count,
    const uint32_t *outbound, size_t outbound_count,
    const uint32_t *inbound, size_t inbound_count,
    uint32_t outbound_volume, uint32_t inbound_volume, uint32_t headway,
    uint32_t *seconds, size_t seconds_count);

/* Measures n offsets in halves, which are an input like the other lists and are not written. */
CorbatanMeasure corbatan_measure(
    uint32_t cycle,
    const uint32_t *reds, size_t reds_count,
    const uint32_t *distances, size_t distances_count,
    const uint32_t *outbound, size_t outbound_count,
    const uint32_t *inbound, size_t inbound_count,
    const uint32_t *offsets, size_t offsets_count);

#ifdef __cplusplus
}
#endif

#endif
