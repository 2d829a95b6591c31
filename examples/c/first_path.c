/* Asks which path stands for all paths that are equal to one, and tells by that whether two paths are equal.
 * Build and run: see run.sh beside this file; migration.h has the layout of the sheets. */
#include "migration.h"

#include <stdio.h>
#include <string.h>

/* Tables Anomaly 0, Joint 1, Weld 2; links 0 from Anomaly to Joint, 1 from Anomaly to Weld, its reference, 2 from Joint to Weld, the one
 * upstream. Equation 0: the weld upstream of an anomaly's joint is its reference. */
static const uint8_t schema[] = {0x18, 0x60, 0x04, 0x04, 0x08, 0x48, 0x08, 0x02, 0x01, 0x08};
/* Paths from Anomaly: along links 0 and 2, along link 1, along link 0. */
static const uint8_t upstream[] = {0x02, 0x00, 0x80};
static const uint8_t reference[] = {0x01, 0x08};
static const uint8_t joint[] = {0x01, 0x00};

/* The next field of so many bits, most significant bit first. */
static unsigned field(const uint8_t *sheet, size_t *at, int bits) {
    unsigned value = 0;
    for (; bits > 0; bits--, ++*at)
        value = value << 1 | (sheet[*at / 8] >> (7 - *at % 8) & 1u);
    return value;
}

static void tell(const char *what, const uint8_t *p, size_t p_len) {
    uint8_t tray[MIGRATION_PATH_BYTES];
    uint64_t answer = migration_first_path(schema, sizeof schema, p, p_len, tray, sizeof tray);
    if (!migration_accepted(answer)) {
        printf("%s: refused %u at sheet %u\n", what, migration_number(answer), migration_place(answer));
        return;
    }
    size_t at = 0;
    unsigned start = field(tray, &at, 4), length = field(tray, &at, 4);
    printf("%s: first is from table %u along", what, start);
    for (unsigned k = 0; k < length; k++)
        printf(" %u", field(tray, &at, 5));
    printf("\n");
}

/* Whether two accepted paths are equal: their first paths are the same bytes. */
static int equal(const uint8_t *p, size_t p_len, const uint8_t *q, size_t q_len) {
    uint8_t one[MIGRATION_PATH_BYTES], other[MIGRATION_PATH_BYTES];
    uint64_t first = migration_first_path(schema, sizeof schema, p, p_len, one, sizeof one);
    uint64_t second = migration_first_path(schema, sizeof schema, q, q_len, other, sizeof other);
    return migration_accepted(first) && first == second && memcmp(one, other, (size_t)first) == 0;
}

int main(void) {
    tell("upstream", upstream, sizeof upstream);
    tell("reference", reference, sizeof reference);
    tell("joint", joint, sizeof joint);
    tell("a cut path", upstream, 2);
    printf("upstream and reference: %s\n", equal(upstream, sizeof upstream, reference, sizeof reference) ? "equal" : "unequal");
    printf("reference and joint: %s\n", equal(reference, sizeof reference, joint, sizeof joint) ? "equal" : "unequal");
    return 0;
}
