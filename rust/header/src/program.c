/* Tries every constant and every prototype of migration.h. The crate `header` writes the calls, each argument by the name of its parameter in
 * the header, and the trials, each number by the name of its constant. */
#include "migration.h"

#include <stdio.h>
#include <string.h>

enum { TRAY = 0, RUN = 4, PLACES = 16, ROOM = 65600, BESIDE = 32, FILLING = 165 };

/* The bytes that are written, then 0 up to the length. */
struct lent {
    const char *written;
    size_t count;
    size_t length;
};

/* A call, what it is lent, and what is expected of it. Place 0 is the tray's, the others are the sheets'. A change of a run is lent numbers too, and
 * has the run's place for a tray: the whole of it afterwards is told. */
struct trial {
    const char *call;
    const char *name;
    uint64_t (*make)(const struct trial *);
    struct lent lent[PLACES];
    int changes;
    uint64_t numbers[3];
    struct lent run_after;
    int accepted;
    uint64_t result;
    size_t run_length;
    size_t pushed_length;
    const char *word;
    unsigned number;
    unsigned place;
    struct lent after;
};

#define ACCEPTED(as) .accepted = 1, .result = as
#define CHANGED(run, pushed) .accepted = 1, .result = 65536 * (uint64_t)run + pushed, .run_length = run, .pushed_length = pushed
#define REFUSED(constant, at) .word = #constant, .number = constant, .place = at

/* Each sheet and the tray stand in a room of their own, longer than any of them. */
static uint8_t rooms[PLACES][ROOM];
static int null_where_empty;

static uint8_t *bytes(const struct trial *trial, int place) {
    return null_where_empty && trial->lent[place].length == 0 ? NULL : rooms[place];
}

/* CALLS */
static const struct trial trials[] = {
/* TRIALS */
};

/* A constant that no call tells, and the wrapper's number of it. */
static const struct number {
    const char *name;
    unsigned long found;
    unsigned long expected;
} numbers[] = {
/* NUMBERS */
};

static int numbers_are_expected(void) {
    for (size_t k = 0; k < sizeof numbers / sizeof numbers[0]; k++) {
        if (numbers[k].found != numbers[k].expected) {
            printf("%s: expected %lu; found %lu\n", numbers[k].name, numbers[k].expected, numbers[k].found);
            return 0;
        }
    }
    return 1;
}

/* The bytes of each room that are filled before the call and compared after it. */
static size_t used(const struct trial *trial) {
    size_t most = trial->after.length;
    for (int place = 0; place < PLACES; place++) {
        const struct lent *lent = &trial->lent[place];
        if (lent->count > most)
            most = lent->count;
        if (lent->length > most)
            most = lent->length;
    }
    return most < ROOM - BESIDE ? most + BESIDE : 0;
}

static void fill(uint8_t *room, size_t size, const struct lent *lent) {
    memset(room, FILLING, size);
    memset(room, 0, lent->length);
    if (lent->count > 0)
        memcpy(room, lent->written, lent->count);
}

static int answer_is_expected(const struct trial *trial, uint64_t answer) {
    uint64_t refused = ((uint64_t)1 << 32) + 256 * (uint64_t)trial->number + trial->place;
    if (trial->accepted && trial->changes)
        return migration_accepted(answer) && answer == trial->result && migration_run_length(answer) == trial->run_length &&
               migration_pushed_length(answer) == trial->pushed_length;
    if (trial->accepted)
        return migration_accepted(answer) && answer == trial->result;
    return !migration_accepted(answer) && answer == refused && migration_number(answer) == trial->number &&
           migration_place(answer) == trial->place;
}

static void tell(const struct trial *trial) {
    printf("trial %d, %s, %s: ", (int)(trial - trials), trial->call, trial->name);
}

static void tell_answer(const struct trial *trial, uint64_t answer) {
    tell(trial);
    if (trial->accepted)
        printf("expected accepted, %llu", (unsigned long long)trial->result);
    else
        printf("expected refused, %s, which is %u, at place %u", trial->word, trial->number, trial->place);
    if (migration_accepted(answer))
        printf("; found accepted, %llu\n", (unsigned long long)answer);
    else
        printf("; found refused, %u at place %u (%llu)\n", migration_number(answer), migration_place(answer),
               (unsigned long long)answer);
}

/* What stands at a place after the call. */
static const struct lent *left(const struct trial *trial, int place) {
    if (place == TRAY)
        return &trial->after;
    return place == RUN && trial->changes ? &trial->run_after : &trial->lent[place];
}

/* Whether no sheet has changed, and in the tray, of a change in both trays, the result alone. */
static int rooms_are_expected(const struct trial *trial, size_t size) {
    static uint8_t expected[ROOM];
    for (int place = 0; place < PLACES; place++) {
        fill(expected, size, left(trial, place));
        for (size_t k = 0; k < size; k++) {
            if (rooms[place][k] != expected[k]) {
                tell(trial);
                printf("place %d, byte %lu: expected %u; found %u\n", place, (unsigned long)k, expected[k], rooms[place][k]);
                return 0;
            }
        }
    }
    return 1;
}

static int passes(const struct trial *trial) {
    static const struct lent nothing = {"", 0, 0};
    size_t size = used(trial);
    if (size == 0) {
        tell(trial);
        printf("a length beyond that of every sheet\n");
        return 0;
    }
    for (int place = 0; place < PLACES; place++)
        fill(rooms[place], size, place == TRAY ? &nothing : &trial->lent[place]);
    uint64_t answer = trial->make(trial);
    if (!answer_is_expected(trial, answer)) {
        tell_answer(trial, answer);
        return 0;
    }
    return rooms_are_expected(trial, size);
}

/* Whether both lengths of a change are taken apart: each length that there can be, beside the least and the largest of the other. */
static int lengths_are_taken_apart(void) {
    for (size_t one = 0; one <= MIGRATION_INSTANCE_BYTES; one++) {
        for (int turn = 0; turn < 4; turn++) {
            size_t other = turn / 2 ? MIGRATION_INSTANCE_BYTES : 0;
            size_t run = turn % 2 ? one : other, pushed = turn % 2 ? other : one;
            uint64_t answer = 65536 * (uint64_t)run + pushed;
            if (!migration_accepted(answer) || migration_run_length(answer) != run || migration_pushed_length(answer) != pushed) {
                printf("expected a run of %lu bytes and a pushed sheet of %lu; found %lu and %lu\n", (unsigned long)run, (unsigned long)pushed,
                       (unsigned long)migration_run_length(answer), (unsigned long)migration_pushed_length(answer));
                return 0;
            }
        }
    }
    return 1;
}

/* Whether every answer that there can be is taken apart. */
static int answers_are_taken_apart(void) {
    const uint64_t refused = (uint64_t)1 << 32;
    if (!migration_accepted(0) || !migration_accepted(refused - 1)) {
        printf("migration_accepted: expected that every answer below 2^32 is accepted\n");
        return 0;
    }
    for (unsigned number = 0; number < 256; number++) {
        for (unsigned place = 0; place < 256; place++) {
            uint64_t answer = refused + 256 * number + place;
            if (migration_accepted(answer) || migration_number(answer) != number || migration_place(answer) != place) {
                printf("expected refused, %u at place %u; found %d, %u, %u\n", number, place, migration_accepted(answer),
                       migration_number(answer), migration_place(answer));
                return 0;
            }
        }
    }
    return 1;
}

int main(void) {
    const size_t count = sizeof trials / sizeof trials[0];
    if (!answers_are_taken_apart() || !lengths_are_taken_apart() || !numbers_are_expected())
        return 1;
    for (null_where_empty = 0; null_where_empty < 2; null_where_empty++)
        for (size_t k = 0; k < count; k++)
            if (!passes(&trials[k]))
                return 1;
    printf("%lu trials as expected\n", (unsigned long)count);
    return 0;
}
