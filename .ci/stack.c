/* How much stack each operation of the desk takes. Each is called in a thread whose stack was painted beforehand, over inputs at the limits
   and refused ones; the deepest byte that lost its paint tells. What a call hands back by value is counted, and what the thread takes by
   itself is not. Prints a line for each operation, and ends with 1 where the header names less than was measured, or more than a quarter
   beyond it. */
#include "desk.h"

#include <pthread.h>
#include <stdio.h>
#include <stdlib.h>
#include <string.h>

#define STACK_SIZE ((size_t)1 << 20)
#define PAINT 0xA5
#define METHODS 8

static uint8_t *stack;

/* Inputs, kept off the stack. */
static uint64_t equal[DESK_STATES_LIMIT], giant[DESK_STATES_LIMIT], too_many[DESK_STATES_LIMIT + 1];
static uint64_t seats[DESK_STATES_LIMIT];
static char registers[METHODS][DESK_REGISTER_LIMIT + 1];
static size_t lengths[METHODS];
/* Room for a listing, and so for a clean copy, which is shorter. */
static uint8_t out[DESK_LISTING_ROOM];

/* Placings to be moved, opened outside the painted stack: what opening takes must not be counted as moving's. The first gives up seats, the
   second takes some. */
static desk_placing opened[2];

/* Results, kept there too, and what was answered, added up: an operation that was not run shows. */
static desk_reading reading;
static desk_placed placed;
static desk_placing placing;
static uint64_t accepted;

static void count(uint64_t refusal) { accepted += refusal == 0; }

static void make_inputs(void) {
    static const char *const methods[METHODS] = {"leximin", "adams", "dean", "hill", "webster", "jefferson", "remainders", "quota"};
    for (size_t i = 0; i < DESK_STATES_LIMIT; i++) {
        equal[i] = 5000000;
        giant[i] = 1;
        too_many[i] = 1;
    }
    giant[DESK_STATES_LIMIT - 1] = DESK_SUM_LIMIT - (DESK_STATES_LIMIT - 1);
    too_many[DESK_STATES_LIMIT] = 1;
    for (int m = 0; m < METHODS; m++) {
        char *at = registers[m];
        at += sprintf(at, "register,%s,%d,%d\r\n", methods[m], DESK_HOUSE_LIMIT, DESK_STATES_LIMIT);
        for (int i = 0; i < DESK_STATES_LIMIT; i++)
            at += sprintf(at, "State of thirty-two bytes no %03d,%010d\r\n", i, 5000000 + i);
        at += sprintf(at, "total,%lld\r\n", 5000000LL * DESK_STATES_LIMIT + (long long)DESK_STATES_LIMIT * (DESK_STATES_LIMIT - 1) / 2);
        lengths[m] = (size_t)(at - registers[m]);
    }
}

static const uint8_t *bytes(int m) { return (const uint8_t *)registers[m]; }

static void call_nothing(void) {}

static void call_read(void) {
    for (int m = 0; m < METHODS; m++) {
        reading = desk_read(bytes(m), lengths[m]);
        count(reading.refusal);
        reading = desk_read(bytes(m), lengths[m] - 1);
        reading = desk_read(bytes(m), DESK_REGISTER_LIMIT + 1);
    }
}

static void allot_each(const uint64_t *populations, size_t n, uint64_t house) {
    for (uint64_t m = 0; m < METHODS; m++)
        count(desk_allot(m, house, populations, n, seats, DESK_STATES_LIMIT).refusal);
}

static void call_allot(void) {
    for (uint64_t more = 0; more < DESK_STATES_LIMIT; more += 7) {
        allot_each(equal, DESK_STATES_LIMIT, DESK_STATES_LIMIT + more);
        allot_each(giant, DESK_STATES_LIMIT, DESK_STATES_LIMIT + more);
    }
    allot_each(equal, DESK_STATES_LIMIT, DESK_HOUSE_LIMIT);
    allot_each(giant, DESK_STATES_LIMIT, DESK_HOUSE_LIMIT);
    allot_each(too_many, DESK_STATES_LIMIT + 1, DESK_HOUSE_LIMIT);
}

static void call_open(void) {
    placed = desk_open(equal, DESK_STATES_LIMIT, DESK_STATES_LIMIT + DESK_STATES_LIMIT / 4);
    placed = desk_open(too_many, DESK_STATES_LIMIT + 1, DESK_HOUSE_LIMIT);
    placed = desk_open(giant, DESK_STATES_LIMIT, DESK_STATES_LIMIT);
    count(placed.refusal);
}

static void open_placings(void) {
    opened[0] = desk_open(giant, DESK_STATES_LIMIT, DESK_STATES_LIMIT).placing;
    opened[1] = desk_open(equal, DESK_STATES_LIMIT, DESK_STATES_LIMIT + DESK_STATES_LIMIT / 4).placing;
}

/* By so many seats a call, until a call at the house moves none. */
static void move_to_the_house(uint64_t by) {
    desk_moved moved;
    do {
        moved = desk_move(&placing, by);
        count(moved.refusal);
    } while (moved.moved > 0);
}

/* Both ways to the house, in one call and by 1, and a foreign placing. */
static void call_move(void) {
    for (int k = 0; k < 2; k++) {
        placing = opened[k];
        move_to_the_house(UINT64_MAX);
        placing = opened[k];
        move_to_the_house(1);
        placing.seats[0] += 1;
        desk_move(&placing, 0);
        desk_move(&placing, UINT64_MAX);
    }
}

static void call_departure(void) {
    count(desk_departure(DESK_SUM_LIMIT, 1, DESK_SUM_LIMIT, DESK_HOUSE_LIMIT).refusal);
    count(desk_departure(1, DESK_HOUSE_LIMIT, DESK_SUM_LIMIT, DESK_HOUSE_LIMIT).refusal);
    desk_departure(1, 1, 1, 0);
}

static void call_listing(void) {
    for (int m = 0; m < METHODS; m++) {
        count(desk_listing(bytes(m), lengths[m], out, sizeof out).refusal);
        desk_listing(bytes(m), lengths[m], out, 1);
        desk_listing(bytes(m), lengths[m] - 1, out, sizeof out);
    }
}

static void call_clean(void) {
    for (int m = 0; m < METHODS; m++) {
        count(desk_clean(bytes(m), lengths[m], out, sizeof out).refusal);
        desk_clean(bytes(m), lengths[m], out, 1);
        desk_clean(bytes(m), lengths[m] - 1, out, sizeof out);
    }
}

static void call_name(void) {
    count(desk_name(bytes(0), lengths[0], DESK_STATES_LIMIT - 1).refusal);
    desk_name(bytes(0), lengths[0], DESK_STATES_LIMIT);
    desk_name(bytes(0), lengths[0] - 1, 0);
}

static void *run(void *call) {
    (*(void (**)(void))call)();
    return NULL;
}

/* The bytes of the painted stack that a call in a thread of its own has touched. */
static size_t touched(void (*call)(void)) {
    pthread_attr_t attributes;
    pthread_t thread;
    size_t low = 0;
    memset(stack, PAINT, STACK_SIZE);
    if (pthread_attr_init(&attributes) || pthread_attr_setstack(&attributes, stack, STACK_SIZE) ||
        pthread_create(&thread, &attributes, run, &call) || pthread_join(thread, NULL)) {
        puts("no thread could be run");
        exit(2);
    }
    pthread_attr_destroy(&attributes);
    while (low < STACK_SIZE && stack[low] == PAINT)
        low++;
    return STACK_SIZE - low;
}

static int hold(const char *name, void (*call)(void), size_t named, size_t nothing) {
    uint64_t before = accepted;
    size_t taken = touched(call) - nothing;
    int right = taken <= named && named <= taken + taken / 4 + 64 && accepted > before;
    printf("%s takes %zu bytes of stack, and the header names %zu%s\n", name, taken, named, right ? "" : ": NOT SO");
    return right;
}

int main(void) {
    size_t nothing;
    int right;
    stack = aligned_alloc(4096, STACK_SIZE);
    make_inputs();
    nothing = touched(call_nothing);
    right = hold("desk_read", call_read, DESK_READ_STACK, nothing);
    right &= hold("desk_allot", call_allot, DESK_ALLOT_STACK, nothing);
    right &= hold("desk_open", call_open, DESK_OPEN_STACK, nothing);
    open_placings();
    right &= hold("desk_move", call_move, DESK_MOVE_STACK, nothing);
    right &= hold("desk_departure", call_departure, DESK_DEPARTURE_STACK, nothing);
    right &= hold("desk_listing", call_listing, DESK_LISTING_STACK, nothing);
    right &= hold("desk_clean", call_clean, DESK_CLEAN_STACK, nothing);
    right &= hold("desk_name", call_name, DESK_NAME_STACK, nothing);
    return right ? 0 : 1;
}
