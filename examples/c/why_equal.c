/* Asks by which equations two paths of a schema are equal, and prints the steps from one to the other.
 * Build and run: see run.sh beside this file; migration.h has the layout of the sheets. */
#include "migration.h"

#include <stdio.h>

/* Tables Anomaly 0, Joint 1, Weld 2; links 0 from Anomaly to Joint, 1 from Anomaly to Weld, its reference, 2 from Joint to Weld, the one
 * upstream. Equation 0: the weld upstream of an anomaly's joint is its reference. */
static const uint8_t schema[] = {0x18, 0x60, 0x04, 0x04, 0x08, 0x48, 0x08, 0x02, 0x01, 0x08};
/* Paths from Anomaly: along links 0 and 2, along link 1, along link 0. */
static const uint8_t upstream[] = {0x02, 0x00, 0x80};
static const uint8_t reference[] = {0x01, 0x08};
static const uint8_t joint[] = {0x01, 0x00};

/* The next field of so many bits, most significant bit first. */
static unsigned field(const uint8_t *sheet, size_t *at, int bits) {
    unsigned value = 0;
    for (; bits > 0; bits--, ++*at)
        value = value << 1 | (sheet[*at / 8] >> (7 - *at % 8) & 1u);
    return value;
}

static void why(const char *what, const uint8_t *p, size_t p_len, const uint8_t *q, size_t q_len) {
    uint8_t tray[MIGRATION_CHAIN_BYTES];
    uint64_t answer = migration_path_chain(schema, sizeof schema, p, p_len, q, q_len, tray, sizeof tray);
    if (!migration_accepted(answer)) {
        printf("%s: refused %u at sheet %u\n", what, migration_number(answer), migration_place(answer));
        return;
    }
    if (answer == 0) {
        printf("%s: unequal\n", what);
        return;
    }
    size_t at = 0;
    unsigned steps = field(tray, &at, 8);
    printf("%s: equal, steps %u\n", what, steps);
    for (unsigned k = 0; k < steps; k++) {
        unsigned equation = field(tray, &at, 5), back = field(tray, &at, 1), before = field(tray, &at, 4);
        printf("  equation %u, %s, edges before %u\n", equation, back ? "right side to left" : "left side to right", before);
    }
}

int main(void) {
    why("upstream and reference", upstream, sizeof upstream, reference, sizeof reference);
    why("reference and upstream", reference, sizeof reference, upstream, sizeof upstream);
    why("reference and itself", reference, sizeof reference, reference, sizeof reference);
    why("reference and joint", reference, sizeof reference, joint, sizeof joint);
    why("reference and a cut path", reference, sizeof reference, upstream, 2);
    return 0;
}
