/* Pulls the operator's book of the base example back to the vendor's tables: every anomaly stands as a dent and as a loss.
 * Build and run: see run.sh beside this file. The sheets are explained in push_base.c; migration.h has their layout. */
#include "migration.h"

#include <stdio.h>

static const uint8_t vendor_schema[] = {0x18, 0x42, 0x00, 0x04, 0x84, 0x04, 0x84};
static const uint8_t operator_schema[] = {0x10, 0x21, 0x00, 0x04, 0x04};
static const uint8_t mapping[] = {0x01, 0x01, 0x00, 0x80, 0x00};
/* Three anomalies at joints 1, 0, 1, stations 700, 300, 705; two joints. */
static const uint8_t book[] = {0x00, 0xC0, 0x20, 0x08, 0x00, 0x02, 0x00, 0x00, 0x05,
                               0x78, 0x00, 0x00, 0x02, 0x58, 0x00, 0x00, 0x05, 0x82};

static void tell(const char *what, uint64_t answer) {
    if (migration_accepted(answer))
        printf("%s: accepted, %llu bytes\n", what, (unsigned long long)answer);
    else
        printf("%s: refused %u at sheet %u\n", what, migration_number(answer), migration_place(answer));
}

static uint64_t pull(size_t book_len, uint8_t *tray, size_t tray_len) {
    return migration_delta(vendor_schema, sizeof vendor_schema, operator_schema, sizeof operator_schema, mapping,
                           sizeof mapping, book, book_len, tray, tray_len);
}

int main(void) {
    uint8_t tray[MIGRATION_INSTANCE_BYTES];

    uint64_t pulled = pull(sizeof book, tray, sizeof tray);
    tell("delta", pulled);
    if (!migration_accepted(pulled))
        return 1;
    size_t length = (size_t)pulled;
    for (size_t i = 0; i < length; i++)
        printf("%02X%c", tray[i], i + 1 < length ? ' ' : '\n');

    /* A tray one byte short, and a book cut in the middle. */
    tell("delta, small tray", pull(sizeof book, tray, length - 1));
    tell("delta, cut book", pull(12, tray, sizeof tray));
    return 0;
}
