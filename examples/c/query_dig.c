/* The dig sheet of the base example: its run projected, joined and united in one call. Each dent is joined with each loss at its joint, which
 * is a place to dig; dents and losses become anomalies. Build and run: see run.sh beside this file; migration.h has the layout of the sheets. */
#include "migration.h"

#include <stdio.h>
#include <string.h>

/* Tables Dent 0, Joint 1, Loss 2; links from Dent and from Loss to Joint; a station on Dent and on Loss. */
static const uint8_t vendor[] = {0x18, 0x42, 0x00, 0x04, 0x84, 0x04, 0x84};
/* Two dents at joints 1 and 0, stations 700 and 300; two joints; a loss at joint 1, station 705. */
static const uint8_t run[] = {0x00, 0x80, 0x20, 0x04, 0x02, 0x00, 0x00, 0x80, 0x00, 0x01,
                              0x5E, 0x00, 0x00, 0x00, 0x96, 0x00, 0x00, 0x01, 0x60, 0x80};

/* What is projected: the same tables as Dent 0, Loss 1, Joint 2, with their links and stations. */
static const uint8_t projected[] = {0x18, 0x42, 0x00, 0x08, 0x48, 0x04, 0x44};
static const uint8_t f[] = {0x02, 0x11, 0x00, 0x84, 0x04};

/* What is joined: besides these a table Site 3, with links to Dent and to Loss; the joint of its dent is that of its loss. */
static const uint8_t joined[] = {0x20, 0x82, 0x04, 0x08, 0x48, 0xC0, 0xC4, 0x04, 0x44, 0xC8, 0x40, 0x32, 0x18, 0x40};
static const uint8_t g[] = {0x01, 0x21, 0x00, 0x84, 0x04};

/* What is united: Anomaly 0, Joint 1, Site 2; a link from Anomaly to Joint, two from Site to Anomaly; a station on Anomaly. */
static const uint8_t united[] = {0x18, 0x61, 0x04, 0x04, 0x80, 0x80, 0x04, 0x88, 0x20, 0x22, 0x10, 0x00};
static const uint8_t h[] = {0x00, 0x12, 0x10, 0x08, 0x04, 0x22, 0x20, 0x00};

/* The next field of so many bits, most significant bit first. */
static unsigned long field(const uint8_t *sheet, size_t *at, int bits) {
    unsigned long value = 0;
    for (; bits > 0; bits--, ++*at)
        value = value << 1 | (sheet[*at / 8] >> (7 - *at % 8) & 1u);
    return value;
}

static void column(const char *what, const uint8_t *sheet, size_t *at, unsigned long rows, int bits) {
    printf("%s:", what);
    for (unsigned long row = 0; row < rows; row++)
        printf(" %lu", field(sheet, at, bits));
    printf("\n");
}

/* An instance of the last schema: row counts, then links, then values. */
static void show(const uint8_t *sheet) {
    size_t at = 0;
    unsigned long anomalies = field(sheet, &at, 10), joints = field(sheet, &at, 10), sites = field(sheet, &at, 10);
    printf("anomalies %lu, joints %lu, sites %lu\n", anomalies, joints, sites);
    column("joints of the anomalies", sheet, &at, anomalies, 9);
    column("dents of the sites, as anomalies", sheet, &at, sites, 9);
    column("losses of the sites, as anomalies", sheet, &at, sites, 9);
    column("stations of the anomalies", sheet, &at, anomalies, 32);
}

static void tell(const char *what, uint64_t answer) {
    if (migration_accepted(answer))
        printf("%s: accepted, %llu bytes\n", what, (unsigned long long)answer);
    else
        printf("%s: refused %u at sheet %u\n", what, migration_number(answer), migration_place(answer));
}

static uint64_t dig(const uint8_t *third, size_t third_len, size_t run_len, uint8_t *tray, size_t tray_len) {
    return migration_query(vendor, sizeof vendor, projected, sizeof projected, third, third_len, united, sizeof united, f, sizeof f, g, sizeof g,
                           h, sizeof h, run, run_len, tray, tray_len);
}

/* The same by three calls, each lent the result of the one before. */
static uint64_t in_turn(uint8_t *tray, size_t tray_len) {
    uint8_t one[MIGRATION_INSTANCE_BYTES], other[MIGRATION_INSTANCE_BYTES];
    uint64_t answer =
        migration_delta(projected, sizeof projected, vendor, sizeof vendor, f, sizeof f, run, sizeof run, one, sizeof one);
    if (migration_accepted(answer))
        answer = migration_pi(projected, sizeof projected, joined, sizeof joined, g, sizeof g, one, (size_t)answer, other, sizeof other);
    if (migration_accepted(answer))
        answer = migration_sigma(joined, sizeof joined, united, sizeof united, h, sizeof h, other, (size_t)answer, tray, tray_len);
    return answer;
}

int main(void) {
    uint8_t tray[MIGRATION_INSTANCE_BYTES], again[MIGRATION_INSTANCE_BYTES];

    uint64_t dug = dig(joined, sizeof joined, sizeof run, tray, sizeof tray);
    tell("query", dug);
    if (!migration_accepted(dug))
        return 1;
    size_t length = (size_t)dug;
    show(tray);
    if (in_turn(again, sizeof again) == dug && memcmp(tray, again, length) == 0)
        printf("delta, pi and sigma in turn: the same bytes\n");

    /* A tray one byte short, a cut run, and a cut third schema with it, which is judged before. */
    tell("query, small tray", dig(joined, sizeof joined, sizeof run, tray, length - 1));
    tell("query, cut run", dig(joined, sizeof joined, 12, tray, sizeof tray));
    tell("query, cut run and cut schema", dig(joined, 9, 12, tray, sizeof tray));
    return 0;
}
