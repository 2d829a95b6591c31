/* Lays the pushed run of the base example against the operator's book, and turns the matching to the vendor's rows and back.
 * Build and run: see run.sh beside this file. The sheets are explained in push_base.c; migration.h has their layout. */
#include "migration.h"

#include <stdio.h>
#include <string.h>

static const uint8_t vendor_schema[] = {0x18, 0x42, 0x00, 0x04, 0x84, 0x04, 0x84};
static const uint8_t operator_schema[] = {0x10, 0x21, 0x00, 0x04, 0x04};
static const uint8_t mapping[] = {0x01, 0x01, 0x00, 0x80, 0x00};
static const uint8_t run[] = {0x00, 0x80, 0x20, 0x04, 0x02, 0x00, 0x00, 0x80, 0x00, 0x01,
                              0x5E, 0x00, 0x00, 0x00, 0x96, 0x00, 0x00, 0x01, 0x60, 0x80};
/* Three anomalies at joints 0, 1, 1, stations 300, 705, 700; two joints. */
static const uint8_t book[] = {0x00, 0xC0, 0x20, 0x00, 0x04, 0x02, 0x00, 0x00, 0x02,
                               0x58, 0x00, 0x00, 0x05, 0x82, 0x00, 0x00, 0x05, 0x78};
/* The book's rows 2 0 1 for the pushed anomalies, 0 1 for the joints. */
static const uint8_t pushed[] = {0x01, 0x00, 0x00, 0x20, 0x00, 0x08};

/* What all four calls are lent before the list. */
#define SIDES                                                                                                         \
    vendor_schema, sizeof vendor_schema, operator_schema, sizeof operator_schema, mapping, sizeof mapping, run,       \
        sizeof run, book, sizeof book

static void tell(const char *what, uint64_t answer) {
    if (migration_accepted(answer))
        printf("%s: accepted\n", what);
    else
        printf("%s: refused %u at sheet %u\n", what, migration_number(answer), migration_place(answer));
}

static void show(const char *what, const uint8_t *list, size_t length) {
    printf("%s:", what);
    for (size_t i = 0; i < length; i++)
        printf(" %02X", list[i]);
    printf("\n");
}

int main(void) {
    uint8_t raw[MIGRATION_MATCHING_BYTES], back[MIGRATION_MATCHING_BYTES];

    tell("pushed side", migration_check_pushed(SIDES, pushed, sizeof pushed));
    tell("the same list on the raw side", migration_check_raw(SIDES, pushed, sizeof pushed));

    uint64_t turned = migration_pushed_to_raw(SIDES, pushed, sizeof pushed, raw, sizeof raw);
    tell("turned", turned);
    if (!migration_accepted(turned))
        return 1;
    show("the book's rows 2 0 for the dents, 0 1 for the joints, 1 for the loss", raw, (size_t)turned);
    tell("raw side", migration_check_raw(SIDES, raw, (size_t)turned));

    uint64_t again = migration_raw_to_pushed(SIDES, raw, (size_t)turned, back, sizeof back);
    tell("turned back", again);
    if (again != sizeof pushed || memcmp(back, pushed, sizeof pushed) != 0)
        return 1;
    show("the first list again, byte for byte", back, sizeof pushed);
    return 0;
}
