/* Rows that come and go: a dent is added to the run of the base example and withdrawn again, and the pushed sheet is kept current.
 * Build and run: see run.sh beside this file. The sheets are explained in push_base.c; migration.h has their layout. */
#include "migration.h"

#include <stdio.h>
#include <string.h>

static const uint8_t vendor_schema[] = {0x18, 0x42, 0x00, 0x04, 0x84, 0x04, 0x84};
static const uint8_t operator_schema[] = {0x10, 0x21, 0x00, 0x04, 0x04};
static const uint8_t mapping[] = {0x01, 0x01, 0x00, 0x80, 0x00};
static const uint8_t first_run[] = {0x00, 0x80, 0x20, 0x04, 0x02, 0x00, 0x00, 0x80, 0x00, 0x01,
                                    0x5E, 0x00, 0x00, 0x00, 0x96, 0x00, 0x00, 0x01, 0x60, 0x80};

enum { DENT = 0, JOINT = 1 };

/* A dent at joint 0 (9 bits), station 500 (32 bits); and one at joint 2, where there are two joints. */
static const uint8_t dent[] = {0x00, 0x00, 0x00, 0x00, 0xFA, 0x00};
static const uint8_t dangling_dent[] = {0x01, 0x00, 0x00, 0x00, 0xFA, 0x00};

/* The run in its tray, with its byte length, and the pushed tray. */
static uint8_t run[MIGRATION_INSTANCE_BYTES], pushed[MIGRATION_INSTANCE_BYTES];
static uint64_t length;

/* What both changes are lent first. */
#define RUN vendor_schema, sizeof vendor_schema, operator_schema, sizeof operator_schema, mapping, sizeof mapping, run, sizeof run, length

/* Tells an answer. The run's new length is what the next change is lent. */
static void tell(const char *what, uint64_t answer) {
    if (!migration_accepted(answer)) {
        printf("%s: refused %u at sheet %u\n", what, migration_number(answer), migration_place(answer));
        return;
    }
    length = migration_run_length(answer);
    printf("%s: accepted, run %lu bytes, pushed %lu bytes\n", what, (unsigned long)length, (unsigned long)migration_pushed_length(answer));
    for (size_t i = 0; i < migration_pushed_length(answer); i++)
        printf("%02X%c", pushed[i], i + 1 < migration_pushed_length(answer) ? ' ' : '\n');
}

/* Whether the pushed sheet is Sigma of the run as it stands. */
static void compare(uint64_t changed) {
    static uint8_t fresh[MIGRATION_INSTANCE_BYTES];
    uint64_t answer = migration_sigma(vendor_schema, sizeof vendor_schema, operator_schema, sizeof operator_schema, mapping, sizeof mapping, run,
                                      (size_t)length, fresh, sizeof fresh);
    if (answer == migration_pushed_length(changed) && memcmp(fresh, pushed, (size_t)answer) == 0)
        printf("sigma of the changed run: the same bytes\n");
}

static void compare_with_first_run(void) {
    if (length == sizeof first_run && memcmp(run, first_run, sizeof first_run) == 0)
        printf("the run: as it was at first\n");
}

int main(void) {
    memcpy(run, first_run, sizeof first_run);
    length = sizeof first_run;

    uint64_t added = migration_add_row(RUN, DENT, dent, sizeof dent, pushed, sizeof pushed);
    tell("a dent more", added);
    if (!migration_accepted(added))
        return 1;
    compare(added);

    /* It is dent 2: dents 0 and 1 were there before. */
    tell("dent 2 withdrawn", migration_withdraw_row(RUN, DENT, 2, pushed, sizeof pushed));
    compare_with_first_run();

    /* Dent 0 and the loss link to joint 1; there is no dent 2 any more, no joint 2, and no table 3. */
    tell("joint 1 withdrawn", migration_withdraw_row(RUN, JOINT, 1, pushed, sizeof pushed));
    tell("dent 2 withdrawn again", migration_withdraw_row(RUN, DENT, 2, pushed, sizeof pushed));
    tell("a dent at joint 2", migration_add_row(RUN, DENT, dangling_dent, sizeof dangling_dent, pushed, sizeof pushed));
    tell("a row of table 3", migration_add_row(RUN, 3, dent, sizeof dent, pushed, sizeof pushed));
    compare_with_first_run();
    return 0;
}
