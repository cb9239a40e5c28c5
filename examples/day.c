/* A day from its lines to its inventory and its revision, in C. From the repository's root:

       tools/build archive
       cc -std=c99 -Iinclude examples/day.c target/staticlib/libseatpomelo.a -o day && ./day

   It prints examples/day.out. rust/examples/day.rs is the same program in Rust. */
#include <inttypes.h>
#include <stdio.h>
#include <stdlib.h>

#include "seatpomelo.h"

/* Ends the program if a call is refused. */
static void check(const char *call, uint8_t status) {
    if (status != SEATPOMELO_DONE) {
        fprintf(stderr, "%s: refused %u\n", call, (unsigned)status);
        exit(1);
    }
}

int main(void) {
    /* Document 01's file E: three users and their lines, one number of each list a line. */
    const uint16_t joining[] = {7, 9, 12};
    const uint16_t users[] = {7, 7, 9, 12};
    const uint8_t kinds[] = {SEATPOMELO_READ, SEATPOMELO_TYPE_1_TOLL_34, SEATPOMELO_TYPE_2, SEATPOMELO_ESTIMATED};
    const uint64_t consumptions[] = {300, 200, 150, 50}; /* kWh */
    const uint64_t coefficients[] = {1000, 0, 2000, 0};  /* parts of 100,000 */
    int64_t day[SEATPOMELO_DAY], out[SEATPOMELO_INVENTORY], amount;
    uint64_t accepted, losses, rows, within;

    check("fresh", seatpomelo_fresh(day, SEATPOMELO_DAY));
    for (size_t i = 0; i < 3; i++) check("join", seatpomelo_join(day, SEATPOMELO_DAY, joining[i]));
    check("lines", seatpomelo_lines(day, SEATPOMELO_DAY, users, 4, kinds, 4, consumptions, 4, coefficients, 4, &accepted, &losses));
    printf("%" PRIu64 " lines, losses %" PRIu64 "\n", accepted, losses);

    check("measure", seatpomelo_measure(day, SEATPOMELO_DAY, 1000, 100));
    check("allot", seatpomelo_allot(day, SEATPOMELO_DAY));
    check("inventory", seatpomelo_inventory(day, SEATPOMELO_DAY, out, SEATPOMELO_INVENTORY, &rows));
    for (uint64_t i = 0; i < rows; i++) {
        const int64_t *row = out + 5 * i;
        printf("user %" PRId64 " kind %" PRId64 ": consumption %" PRId64 ", losses %" PRId64 ", balance %" PRId64 "\n", row[0], row[1],
               row[2], row[3], row[4]);
    }

    /* A later measurement, and what it changes. */
    check("measure", seatpomelo_measure(day, SEATPOMELO_DAY, 1101, 100));
    check("revise", seatpomelo_revise(day, SEATPOMELO_DAY, &within, &amount));
    printf("revision %" PRId64 "%s\n", amount, within ? ", within tolerance" : "");
    for (int64_t s = 0; s < day[SEATPOMELO_USER_COUNT]; s++)
        printf("user %" PRId64 ": revision %" PRId64 "\n", day[SEATPOMELO_USERS + s], day[SEATPOMELO_REVISION + s]);
    return 0;
}
