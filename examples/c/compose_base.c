/* Two hops or one: the base example's mapping from the vendor's tables to an exchange schema, composed with one from there to an operator's tables.
 * The operator's book is pulled back along the composed mapping, and along both in turn. Build and run: see run.sh beside this file; migration.h has
 * the layout of the sheets. */
#include "migration.h"

#include <stdio.h>
#include <string.h>

/* S, the vendor's: tables Dent 0, Joint 1, Loss 2; links from Dent and from Loss to Joint; a station on Dent and on Loss. */
static const uint8_t vendor[] = {0x18, 0x42, 0x00, 0x04, 0x84, 0x04, 0x84};
/* T, for exchange: Anomaly 0, Joint 1; a link from Anomaly to Joint; a station on Anomaly. */
static const uint8_t exchange[] = {0x10, 0x21, 0x00, 0x04, 0x04};
/* U, the operator's: Anomaly 0, Weld 1, Joint 2; links from Anomaly to Weld and from Weld to Joint; a depth and a station on Anomaly. */
static const uint8_t operators[] = {0x18, 0x42, 0x00, 0x04, 0x48, 0x0C, 0x04};

/* F: dents and losses to anomalies. G: the link to a joint goes by way of the weld, the station is the second column. */
static const uint8_t f[] = {0x01, 0x01, 0x00, 0x80, 0x00};
static const uint8_t g[] = {0x02, 0x20, 0x04, 0x40};

/* Three anomalies at welds 2, 0, 1, depths 250, 100, 400, stations 700, 300, 705; three welds at joints 0, 1, 1; two joints. */
static const uint8_t book[] = {0x00, 0xC0, 0x30, 0x08, 0x04, 0x00, 0x00, 0x80, 0x00, 0x20, 0x10, 0x00, 0x00, 0x0F, 0xA0, 0x00, 0x00, 0x06,
                               0x40, 0x00, 0x00, 0x19, 0x00, 0x00, 0x00, 0x2B, 0xC0, 0x00, 0x00, 0x12, 0xC0, 0x00, 0x00, 0x2C, 0x10};

static void tell(const char *what, uint64_t answer) {
    if (migration_accepted(answer))
        printf("%s: accepted, %llu bytes\n", what, (unsigned long long)answer);
    else
        printf("%s: refused %u at sheet %u\n", what, migration_number(answer), migration_place(answer));
}

static void show(const uint8_t *bytes, size_t length) {
    for (size_t i = 0; i < length; i++)
        printf("%02X%c", bytes[i], i + 1 < length ? ' ' : '\n');
}

static uint64_t compose(size_t f_len, size_t g_len, uint8_t *tray, size_t tray_len) {
    return migration_compose(vendor, sizeof vendor, exchange, sizeof exchange, operators, sizeof operators, f, f_len, g, g_len, tray, tray_len);
}

/* The book pulled back along G and then along F. */
static uint64_t in_turn(uint8_t *tray, size_t tray_len) {
    uint8_t between[MIGRATION_INSTANCE_BYTES];
    uint64_t answer =
        migration_delta(exchange, sizeof exchange, operators, sizeof operators, g, sizeof g, book, sizeof book, between, sizeof between);
    if (migration_accepted(answer))
        answer = migration_delta(vendor, sizeof vendor, exchange, sizeof exchange, f, sizeof f, between, (size_t)answer, tray, tray_len);
    return answer;
}

int main(void) {
    uint8_t composed[MIGRATION_MAPPING_BYTES], one[MIGRATION_INSTANCE_BYTES], two[MIGRATION_INSTANCE_BYTES];

    uint64_t answer = compose(sizeof f, sizeof g, composed, sizeof composed);
    tell("compose", answer);
    if (!migration_accepted(answer))
        return 1;
    size_t length = (size_t)answer;
    show(composed, length);

    uint64_t pulled =
        migration_delta(vendor, sizeof vendor, operators, sizeof operators, composed, length, book, sizeof book, one, sizeof one);
    tell("delta along the composed mapping", pulled);
    if (!migration_accepted(pulled))
        return 1;
    show(one, (size_t)pulled);
    if (in_turn(two, sizeof two) == pulled && memcmp(one, two, (size_t)pulled) == 0)
        printf("delta along both in turn: the same bytes\n");

    /* A tray one byte short, a cut G, and a cut F with it, which is judged before. */
    tell("compose, small tray", compose(sizeof f, sizeof g, composed, length - 1));
    tell("compose, cut G", compose(sizeof f, 2, composed, sizeof composed));
    tell("compose, cut F and cut G", compose(3, 2, composed, sizeof composed));
    return 0;
}
