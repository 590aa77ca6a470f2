/* The allotment desk's C interface (System V ABI): numbers, lent arrays and a lent placing, nothing
   kept between calls and nothing allocated. A refusal is document 01's number, 0 where none was
   given, and a line is counted from 1, 0 where none applies. A pointer with a length of 0 is not
   looked at; what is lent is written only as its function says, and after a refusal it is as it was.
   An array that is written must not overlap any other array of the same call: the promises hold for
   arrays that lie apart, and one array lent as populations and as seats gives wrong seats. A placing
   is lent alone, so that there is nothing for it to overlap. The header is for C99 and later and for
   C++11 and later. */
#ifndef DESK_H
#define DESK_H

#include <stddef.h>
#include <stdint.h>

#include "desk_refusals.h"

#ifdef __cplusplus
extern "C" {
#endif

/* The version of this interface. The first number rises where a program that was compiled with the
   header of before would no longer work, and is the one in the shared library's name; the second where
   something is added; the third otherwise. */
#define DESK_VERSION "1.0.0"
#define DESK_VERSION_MAJOR 1
#define DESK_VERSION_MINOR 0
#define DESK_VERSION_PATCH 0

/* The most states, the largest house, the largest sum of populations, and the most bytes of a
   register. */
#define DESK_STATES_LIMIT 800
#define DESK_HOUSE_LIMIT 30000
#define DESK_SUM_LIMIT UINT64_C(4294967295)
#define DESK_REGISTER_LIMIT 65536

/* Room for any listing: the longest head, a line for each state at its longest, and the longest
   line of totals. A buffer of so many bytes is never refused 31; the library is proved to that
   number (crates/listing/specs/inner/Room.antt, listing_room). */
#define DESK_LISTING_ROOM (31 + DESK_STATES_LIMIT * 67 + 23)

/* Room for any clean copy of a register, likewise: the longest head, a line for each state at its
   longest, and the longest closing line. A buffer of so many bytes is never refused 31; the library is
   proved to that number (crates/cleaning/specs/inner/Room.antt, clean_room). */
#define DESK_CLEAN_ROOM (30 + DESK_STATES_LIMIT * 44 + 17)

/* The stack that each operation takes at most, in bytes, what is handed back by value included: a
   thread with 256 KiB is safe for any of them. Measured on x86-64 Linux by painting the stack, at the
   limits and on refusals; the gate measures it again (.ci/stack.c). Nothing else is allocated. */
#define DESK_READ_STACK (52 * 1024)
#define DESK_ALLOT_STACK (112 * 1024)
#define DESK_OPEN_STACK (39 * 1024)
#define DESK_MOVE_STACK (24 * 1024)
#define DESK_DEPARTURE_STACK 128
#define DESK_LISTING_STACK (200 * 1024)
#define DESK_CLEAN_STACK (56 * 1024)
#define DESK_NAME_STACK (36 * 1024)

/* The refusals by name, DESK_REFUSED_TOTAL_DIFFERS and so on, from the list in desk_refusals.h; and 0,
   where nothing was refused. A refusal is handed back as a uint64_t, since a later version may know
   more of them. */
enum {
    DESK_ACCEPTED = 0,
#define DESK_REFUSAL_(number, name, wrong, mend) DESK_REFUSED_##name = number,
    DESK_REFUSALS(DESK_REFUSAL_)
#undef DESK_REFUSAL_
};

/* A refusal in words: what is wrong, what to mend, and its name ("TOTAL_DIFFERS"). A number that is no
   refusal of this version, 0 among them, has a general text and the name "UNKNOWN": never a null
   pointer, so that the text can be printed as it comes. */
static inline const char *desk_refusal_sentence(uint64_t refusal)
{
    switch (refusal) {
#define DESK_REFUSAL_(number, name, wrong, mend) case number: return wrong;
        DESK_REFUSALS(DESK_REFUSAL_)
#undef DESK_REFUSAL_
    default: return DESK_UNKNOWN_WRONG;
    }
}

static inline const char *desk_refusal_remedy(uint64_t refusal)
{
    switch (refusal) {
#define DESK_REFUSAL_(number, name, wrong, mend) case number: return mend;
        DESK_REFUSALS(DESK_REFUSAL_)
#undef DESK_REFUSAL_
    default: return DESK_UNKNOWN_MEND;
    }
}

static inline const char *desk_refusal_name(uint64_t refusal)
{
    switch (refusal) {
#define DESK_REFUSAL_(number, name, wrong, mend) case number: return #name;
        DESK_REFUSALS(DESK_REFUSAL_)
#undef DESK_REFUSAL_
    default: return "UNKNOWN";
    }
}

/* The methods. Under largest remainders, of equal remainders the larger population has the seat, and
   of equal populations too the earlier state. The quota method, by Balinski and Young, gives seat after
   seat as Jefferson's does, but only to states below their share of the seats so far, that seat included:
   each ends with its share of the house rounded down or up. */
enum {
    DESK_LEXIMIN = 0,
    DESK_ADAMS = 1,
    DESK_DEAN = 2,
    DESK_HILL = 3,
    DESK_WEBSTER = 4,
    DESK_JEFFERSON = 5,
    DESK_REMAINDERS = 6,
    DESK_QUOTA = 7
};

/* The marks: a size up to 10 per cent, up to 15, beyond, and a state without seats. */
enum {
    DESK_IN = 0,
    DESK_HIGH = 1,
    DESK_OVER = 2,
    DESK_NONE = 3
};

/* A register as read. The total is the sum of the populations, which hold 0 past the states;
   refused, everything but the refusal and its line is 0. */
typedef struct {
    uint64_t refusal, line, method, house, states, total;
    uint64_t populations[DESK_STATES_LIMIT];
} desk_reading;

/* Reads a register: refusals 1 to 7, each but the first with the line at fault. */
desk_reading desk_read(const uint8_t *bytes, size_t length);

/* An allotment made: the steps are the seats moved from leximin's start, 0 under other methods
   and on a refusal. */
typedef struct {
    uint64_t refusal, steps;
} desk_allotted;

/* Fills the lent seats with the allotment of the house: refusals 10 to 15, among them 14 unless
   the room is n, and 4 before all else for a number that is no method. Where the same populations
   are accepted with a house and with one seat more, one state gains a seat and no other state
   changes, except under leximin and largest remainders, where a state may lose seats. */
desk_allotted desk_allot(uint64_t method, uint64_t house, const uint64_t *populations, size_t n,
                         uint64_t *seats, size_t room);

/* The leximin work so far. The total is that of the seats, the steps are the seats moved since
   opening, and both lists hold 0 past the states. */
typedef struct {
    uint64_t states, house, total, steps;
    uint64_t populations[DESK_STATES_LIMIT], seats[DESK_STATES_LIMIT];
} desk_placing;

/* What opening hands back: whether it was refused, and the placing, which is the caller's from then
   on. */
typedef struct {
    uint64_t refusal;
    desk_placing placing;
} desk_placed;

/* Opens a placing with each state's nearest seats: refusals 10 to 13 and 15, with a placing of
   zeros. */
desk_placed desk_open(const uint64_t *populations, size_t n, uint64_t house);

/* A placing moved on: by how many seats, 0 on a refusal. */
typedef struct {
    uint64_t refusal, moved;
} desk_moved;

/* Moves a placing on towards its house by as many seats as are asked for, any number up to UINT64_MAX:
   a screen asks for 1 at a time, a batch run for all that are left or more. A move stops short at the
   house and nowhere else, so that none are moved there. The placing is the caller's, before and after:
   it is lent for the call, by a pointer that is not null, and written in place; nothing of it is kept,
   and nothing else may use it meanwhile. Refusal 21 for a placing that opening and moves do not give,
   also if 0 seats are asked for; it is then as it was, past its states too. Two moves, by j and then by
   k, come to the same as one by j + k, if that is at most UINT64_MAX: in the placing, and in the seats
   moved by both together. */
desk_moved desk_move(desk_placing *placing, uint64_t seats);

/* Departures are shown in thousandths of a per cent, of which so many make one whole. */
#define DESK_SHOWN_SCALE 100000

/* A shown departure, and its mark: -13765 shown is 13.765 per cent below the average. The mark is
   that of the exact departure. */
typedef struct {
    uint64_t refusal;
    int64_t shown;
    uint64_t mark;
} desk_shown;

/* The departure of a state with a population and seats from the average total / house: refusal
   30 outside the limits. Refused or without seats, `shown` is 0 and the mark is none. */
desk_shown desk_departure(uint64_t population, uint64_t seats, uint64_t total, uint64_t house);

/* A text written, a listing or a clean copy, and its length, 0 on a refusal. */
typedef struct {
    uint64_t refusal, line, length;
} desk_written;

/* Writes the listing of a register at the front of the lent buffer: the refusals of reading and
   of allotting, then 31 if the listing is longer than the room. Bytes after it are kept. */
desk_written desk_listing(const uint8_t *bytes, size_t length, uint8_t *out, size_t room);

/* Writes the clean copy of a register at the front of the lent buffer, which cannot be the register
   itself: the same lines, each ended by LF alone and its numbers without leading zeros. The refusals
   of reading, then 31 if the copy is longer than the room. Bytes after it are kept. Reading the copy
   gives what reading the register gives, names included; the copy of a copy is the same bytes; and two
   registers have equal copies exactly where method, house, names and populations agree in order. */
desk_written desk_clean(const uint8_t *bytes, size_t length, uint8_t *out, size_t room);

/* A part of the register: where it starts and how long it is, 0 and 0 on a refusal. */
typedef struct {
    uint64_t refusal, line, start, length;
} desk_part;

/* The part of the register that holds the name of the state with a given place, counted from 0:
   reading's refusals, then 40 for a place not below the states. */
desk_part desk_name(const uint8_t *bytes, size_t length, size_t place);

#ifdef __cplusplus
}
#endif

#endif
