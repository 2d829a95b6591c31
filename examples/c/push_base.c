/* Pushes the run of the base example along its mapping: dents and losses become anomalies, each with its joint and its station.
 * Build and run: see run.sh beside this file. The sheets are those of the texts in examples/base; migration.h has their layout. */
#include "migration.h"

#include <stdio.h>

/* Tables Dent 0, Joint 1, Loss 2; links from Dent and from Loss to Joint; a station on Dent and on Loss. */
static const uint8_t vendor_schema[] = {0x18, 0x42, 0x00, 0x04, 0x84, 0x04, 0x84};
/* Tables Anomaly 0, Joint 1; a link from Anomaly to Joint; a station on Anomaly. */
static const uint8_t operator_schema[] = {0x10, 0x21, 0x00, 0x04, 0x04};
/* Dent and Loss to Anomaly, Joint to Joint, each link to the link, each station to the station. */
static const uint8_t mapping[] = {0x01, 0x01, 0x00, 0x80, 0x00};
/* Two dents at joints 1 and 0, stations 700 and 300; two joints; a loss at joint 1, station 705. */
static const uint8_t run[] = {0x00, 0x80, 0x20, 0x04, 0x02, 0x00, 0x00, 0x80, 0x00, 0x01,
                              0x5E, 0x00, 0x00, 0x00, 0x96, 0x00, 0x00, 0x01, 0x60, 0x80};

static void tell(const char *what, uint64_t answer) {
    if (migration_accepted(answer))
        printf("%s: accepted, %llu bytes\n", what, (unsigned long long)answer);
    else
        printf("%s: refused %u at sheet %u\n", what, migration_number(answer), migration_place(answer));
}

static uint64_t push(size_t mapping_len, size_t run_len, uint8_t *tray, size_t tray_len) {
    return migration_sigma(vendor_schema, sizeof vendor_schema, operator_schema, sizeof operator_schema, mapping,
                           mapping_len, run, run_len, tray, tray_len);
}

int main(void) {
    uint8_t tray[MIGRATION_INSTANCE_BYTES];

    uint64_t pushed = push(sizeof mapping, sizeof run, tray, sizeof tray);
    tell("sigma", pushed);
    if (!migration_accepted(pushed))
        return 1;
    size_t length = (size_t)pushed;
    for (size_t i = 0; i < length; i++)
        printf("%02X%c", tray[i], i + 1 < length ? ' ' : '\n');

    /* The result is an instance of the operator's schema. A check that accepts gives 0. */
    if (migration_check_instance(operator_schema, sizeof operator_schema, tray, length) == 0)
        printf("the result as an instance of the operator's schema: accepted\n");

    /* A tray one byte short, a mapping cut short, and a run with a byte too few. */
    tell("sigma, small tray", push(sizeof mapping, sizeof run, tray, length - 1));
    tell("sigma, cut mapping", push(3, sizeof run, tray, sizeof tray));
    tell("sigma, cut run", push(sizeof mapping, sizeof run - 1, tray, sizeof tray));
    return 0;
}
