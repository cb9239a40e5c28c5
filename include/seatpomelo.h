/* Seatpomelo: daily gas allocation by PD-02, for C and C++ on x86-64. `tools/build archive` proves the calls and writes
   target/staticlib/libseatpomelo.a; link that and nothing else. examples/day.c is a first program; docs/refusals.md says what to do about a
   refusal, docs/CONTRACTS.md what each call promises.

   Every call returns a status: 0, or the number of the refusal. It tests all that it is given, so that any numbers may be given. A refused
   call leaves the point-day, the values and the lists as they were; seatpomelo_lines alone keeps the lines before the refused one.

   A list is a pointer and the count of its elements. An optional value is a list of no number or of one. No pointer may be NULL, also not
   that of a list of count 0: give the address of any object of its type, which is then not looked at. What a call writes to (the point-day,
   `out`, each value) must not overlap anything else that the call is given. A call keeps no pointer and has no state of its own, so that
   threads may call at the same time, each on a point-day of its own.

   Energy is in kWh where nothing else is said. */
#ifndef SEATPOMELO_H
#define SEATPOMELO_H

#include <stddef.h>
#include <stdint.h>

#ifdef __cplusplus
extern "C" {
#endif

/* ---- Status. If several refusals apply, the lowest number decides, but 16 comes right after 2; and a point-day that is not taken is 2
   before any other test. */

#define SEATPOMELO_DONE 0                  /* The call was made. */
#define SEATPOMELO_WRONG_STAGE 1           /* The stage doesn't take the call, or a stand-in finds a user joined. */
#define SEATPOMELO_OUT_OF_RANGE 2          /* A value or list is outside its stated range, or the numbers are no point-day that is taken. */
#define SEATPOMELO_NOT_JOINED 3            /* A line for a user not joined. */
#define SEATPOMELO_ALREADY_JOINED 4        /* The user is already joined. */
#define SEATPOMELO_ALL_JOINED 5            /* All 64 users are joined. */
#define SEATPOMELO_ABOVE_LIMIT 6           /* The point-day's sum, or a computed consumption, is above 1,000,000,000; Type 2: 10^12 Wh. */
#define SEATPOMELO_UNMEASURED 7            /* Allot or stand-in of an unmeasured point-day. */
#define SEATPOMELO_NO_USER 8               /* Allot with no user. */
#define SEATPOMELO_NET_TOO_LOW 9           /* Stand-in with net at most 100. */
#define SEATPOMELO_NO_PAIR 10              /* No pair in the fifteen rows of a stand-in. */
#define SEATPOMELO_NEGATIVE_WEIGHT 11      /* A weight is negative: revise outside tolerance, stand-in, reading split. */
#define SEATPOMELO_AMOUNT_TOO_LARGE 12     /* A whole amount would pass 2,000,000,000 in size. */
#define SEATPOMELO_MALFORMED 13            /* The day file is malformed. */
#define SEATPOMELO_SHORT_BUFFER 14         /* `out` is under five numbers a row, one a day or party, or 8,192 bytes. */
#define SEATPOMELO_NO_BASIS 15             /* No basis for an estimate. */
#define SEATPOMELO_WRONG_ARRIVAL 16        /* An own value: the gas day has none of its three lengths, or it arrived after the day. */

/* ---- Kinds of consumption. */

#define SEATPOMELO_READ 1                  /* Read. */
#define SEATPOMELO_ESTIMATED 2             /* Telemetered but estimated. */
#define SEATPOMELO_TYPE_1_TOLL_34 3        /* Type 1, toll 3.4. */
#define SEATPOMELO_TYPE_1_OTHER_TOLL 4     /* Type 1, other toll. */
#define SEATPOMELO_TYPE_2 5                /* Type 2, tolls 3.1 to 3.3. */

/* ---- Stages. Each is first entering, then allotted. */

#define SEATPOMELO_PROVISIONAL 0           /* Provisional: where a fresh point-day begins; the stage that is revised. */
#define SEATPOMELO_FINAL_PROVISIONAL 1     /* Final provisional. */
#define SEATPOMELO_FINAL_DEFINITIVE 2      /* Final definitive: no stage follows. */

/* ---- A point-day: one point on one gas day, 1,094 numbers that the caller keeps and lends, with the places of each. */

#define SEATPOMELO_DAY 1094                /* How many numbers a point-day has: the `numbers` of every call. */
#define SEATPOMELO_STAGE 0                 /* The stage. */
#define SEATPOMELO_ALLOTTED 1              /* 0 entering, 1 allotted. */
#define SEATPOMELO_MEASURED 2              /* 0 unmeasured, 1 measured. */
#define SEATPOMELO_EMISSION 3              /* Emission. Of an unmeasured point-day it is in range too, and stays. */
#define SEATPOMELO_DOWNSTREAM 4            /* Downstream emission, at most the emission; likewise. */
#define SEATPOMELO_USER_COUNT 5            /* How many users have joined, 0 to 64. */
#define SEATPOMELO_USERS 6                 /* The 64 user numbers, in the order of joining; 0 past the last user. */
#define SEATPOMELO_CONSUMPTION 70          /* Consumption, 320: kind k of the user at place s is number 70 + 5 s + k - 1. */
#define SEATPOMELO_LOSSES 390              /* Losses, 320, likewise. */
#define SEATPOMELO_BALANCE 710             /* Balance, 320, likewise. */
#define SEATPOMELO_REVISION 1030           /* Revisions, 64, one a user. */

/* ---- Sizes. */

#define SEATPOMELO_MAX_USERS 64            /* Users of a point-day. */
#define SEATPOMELO_KINDS 5                 /* Kinds of consumption. */
#define SEATPOMELO_STAND_IN_ROWS 15        /* Rows of a stand-in. */
#define SEATPOMELO_STAND_IN_PAIRS 960      /* Places for pairs in the lists of a stand-in: 64 a row. */
#define SEATPOMELO_INVENTORY 1600          /* Numbers of the longest inventory: 320 rows of five. */
#define SEATPOMELO_REPORT 8192             /* Bytes of `out` that a day report asks for. */

/* ---- Calls on a point-day. */

/* Makes the numbers a fresh point-day: provisional, entering, empty, unmeasured. What they held before is not looked at. */
uint8_t seatpomelo_fresh(int64_t *day, size_t numbers);

/* Join (entering): adds a user, 1 to 65,535. */
uint8_t seatpomelo_join(int64_t *day, size_t numbers, uint16_t user);

/* Line (entering): adds consumption (kWh, 0 to 1,000,000,000) of a kind (1 to 5) to a user, and its losses by the coefficient (parts of
   100,000, 0 to 10,000). losses_added: the losses, kWh. */
uint8_t seatpomelo_line(int64_t *day, size_t numbers, uint16_t user, uint8_t kind, uint64_t consumption, uint64_t coefficient,
                        uint64_t *losses_added);

/* Many lines: line i is users[i], kinds[i], consumptions[i], coefficients[i], as in seatpomelo_line. Line after line until one is refused,
   whose number is the status; the lines before it stay entered. accepted (lines entered) and losses_added (kWh, in all) are written in
   every case. Lists of unequal lengths, or a point-day that is not taken: 2, nothing entered, 0 and 0. */
uint8_t seatpomelo_lines(int64_t *day, size_t numbers, const uint16_t *users, size_t user_count, const uint8_t *kinds, size_t kind_count,
                         const uint64_t *consumptions, size_t consumption_count, const uint64_t *coefficients, size_t coefficient_count,
                         uint64_t *accepted, uint64_t *losses_added);

/* Measure (entering; provisional allotted): emission (kWh, 0 to 1,000,000,000) and downstream emission (kWh, 0 to emission); the latest
   counts. Net is the difference. */
uint8_t seatpomelo_measure(int64_t *day, size_t numbers, uint64_t emission, uint64_t downstream);

/* Allot (entering; measured, with a user): shares net less consumption and losses among users and kinds, as balance. */
uint8_t seatpomelo_allot(int64_t *day, size_t numbers);

/* Stand-in (provisional entering, no user joined; measured): shares net by the nearest earlier day that has any pair, as revision. Row i,
   from 0, is the day i + 1 before: counts[i] pairs, 0 to 64; pair j is users[64 i + j] (rising in a row) and amounts[64 i + j] (kWh,
   -2,000,000,000 to 2,000,000,000). 15 counts, 960 users and 960 amounts; what stands past a row's count is not looked at.
   rows_looked_at: 1 to 15. */
uint8_t seatpomelo_stand_in(int64_t *day, size_t numbers, const size_t *counts, size_t count_count, const uint16_t *users,
                            size_t user_count, const int64_t *amounts, size_t amount_count, uint64_t *rows_looked_at);

/* Revise (provisional allotted): R is net less everything allotted. within: 1 if R lies in -100 to 100, and then nothing changes; 0 if R
   was added to the users' revisions. amount: R, kWh. */
uint8_t seatpomelo_revise(int64_t *day, size_t numbers, uint64_t *within, int64_t *amount);

/* Start-final (provisional or final provisional allotted): the next stage, entering; users and measurement stay, all else is zero. */
uint8_t seatpomelo_start_final(int64_t *day, size_t numbers);

/* The inventory of an allotted point-day: five numbers (user, kind, consumption, losses, balance) in `out` for each user and kind not all
   zero. rows: how many rows; later numbers of `out` stay. */
uint8_t seatpomelo_inventory(const int64_t *day, size_t numbers, int64_t *out, size_t room, uint64_t *rows);

/* ---- Day files. */

/* The report on a day file, as text in `out`, of at least 8,192 bytes: a line `point` with day, net, consumption, losses and balance, then
   a line `user` with number, consumption, losses, balance and whole amount for each user. written: its bytes; no 0 follows them, and later
   bytes of `out` stay. The file's own refusal comes before 14. */
uint8_t seatpomelo_day_report(const uint8_t *file, size_t bytes, uint8_t *out, size_t room, uint64_t *written);

/* ---- Calendar. Gas days are counted from 0, 1 January 2016, to 30,680, the end of 2099. Holidays: up to 2,000 rising gas days. */

#define SEATPOMELO_WORKING_DAY 0           /* A working day. */
#define SEATPOMELO_SATURDAY 1              /* A Saturday that is no holiday. */
#define SEATPOMELO_SUNDAY_OR_HOLIDAY 2     /* A Sunday or a holiday. */

/* The type of a gas day. */
uint8_t seatpomelo_day_type(uint32_t day, const uint32_t *holidays, size_t holiday_count, uint64_t *day_type);

/* The month of a gas day: its first gas day, its days, the mask of its working days (bit 0 for the first), and how many they are. */
uint8_t seatpomelo_month(uint32_t day, const uint32_t *holidays, size_t holiday_count, uint64_t *first, uint64_t *days, uint64_t *mask,
                         uint64_t *working);

/* ---- Consumption of a supply point, in kWh. Flows, readings and month consumption: 0 to 1,000,000,000 kWh. */

#define SEATPOMELO_OTHER_TOLL 0            /* Another toll than 3.4. */
#define SEATPOMELO_TOLL_34 1               /* Toll 3.4. */

#define SEATPOMELO_NOTHING 0               /* A day of a history without a value; its number in `values` is not looked at. */
#define SEATPOMELO_REAL_READING 1          /* A real reading. */
#define SEATPOMELO_ESTIMATED_READING 2     /* An estimated one. */
#define SEATPOMELO_OWN_VALUE 3             /* The user's own value. */

/* Telemetered. reading, own (the user's own value), yearly (Q_a, kWh a year) and daily (Q_d, kWh a day) are optional; factor is f_c, 0 to
   1,000 thousandths. An own value arrived at the minute `arrival` of the gas day, which has day_length minutes, 1,380, 1,440 or 1,500: it
   is used if that was no later than 720 minutes before the day's end, and else treated as not sent; where none is sent neither is looked
   at. The history, nearest day first, is two lists of one length, 0 to 400 and no more than `day`: tags and values (kWh).
   consumption; looked_at: the entries looked at. */
uint8_t seatpomelo_telemetered(uint32_t day, const uint32_t *holidays, size_t holiday_count, const uint64_t *reading, size_t reading_count,
                               const uint64_t *own, size_t own_count, uint32_t arrival, uint32_t day_length, uint8_t toll,
                               const uint64_t *yearly, size_t yearly_count, const uint64_t *daily, size_t daily_count, uint32_t factor,
                               const uint8_t *tags, size_t tag_count, const uint64_t *values, size_t value_count, uint64_t *consumption,
                               uint64_t *looked_at);

/* Type 1, toll 3.4. last_year (the same month last year), last_month and yearly (Q_a) are optional, kWh; g is the gas day's degree days,
   last_days those of last year's month, one a day; all in fortieths of a degree, 0 to 2,600. */
uint8_t seatpomelo_type_1_toll_34(uint32_t day, const uint64_t *last_year, size_t last_year_count, uint32_t g, const uint32_t *last_days,
                                  size_t last_day_count, const uint64_t *last_month, size_t last_month_count, const uint64_t *yearly,
                                  size_t yearly_count, uint64_t *consumption);

/* Type 1, other toll. last_year, last_month and daily (Q_d) are optional, kWh; c_c is 0 to 30,000 ten-thousandths, f_c and c_f 0 to 1,000
   thousandths. */
uint8_t seatpomelo_type_1_other_toll(uint32_t day, const uint32_t *holidays, size_t holiday_count, const uint64_t *last_year,
                                     size_t last_year_count, uint32_t c_c, const uint64_t *last_month, size_t last_month_count,
                                     const uint64_t *daily, size_t daily_count, uint32_t f_c, uint32_t c_f, uint64_t *consumption);

/* Type 2. consumers, 0 to 10,000,000; profile in Wh, 0 to 10^12; g, and the degree days of one winter's month or of two (winters: 1 or 2),
   28 to 31 days each, in fortieths of a degree. With one winter the second list is not looked at. */
uint8_t seatpomelo_type_2(uint32_t consumers, uint64_t profile, uint32_t g, uint8_t winters, const uint32_t *first, size_t first_count,
                          const uint32_t *second, size_t second_count, uint64_t *consumption);

/* A profile in Wh, from two years: month consumption f (kWh, 0 to 10^12), consumers nc (0 to 10,000,000) and days n (28 to 31). */
uint8_t seatpomelo_profile(uint64_t f1, uint64_t f2, uint32_t nc1, uint32_t nc2, uint32_t n1, uint32_t n2, uint64_t *wh);

/* ---- Temperature. */

/* Degree days, in fortieths of a degree, of tmin and tmax in tenths of a degree, -500 to 600, tmin at most tmax. */
uint8_t seatpomelo_degree_days(int32_t tmin, int32_t tmax, uint64_t *fortieths);

/* The zone, 1 to 4, of hundredths of a degree day, 0 to 1,000. */
uint8_t seatpomelo_zone(uint32_t hundredths, uint64_t *zone);

/* The value, in hundredths of a degree day, and the zone of a province, 1 to 48 in the order of section 1.6. */
uint8_t seatpomelo_province(uint32_t number, uint64_t *value, uint64_t *zone);

/* ---- Shares. */

/* Prorates an amount (-1,000,000,000 to 1,000,000,000) over 1 to 366 weights (0 to 2,000,000,000), each with a key, no two alike: of equal
   remainders the lower key's is served first. A share for each weight in `out`, whose later numbers stay. */
uint8_t seatpomelo_split(int64_t amount, const uint64_t *weights, size_t weight_count, const uint64_t *keys, size_t key_count, int64_t *out,
                         size_t room);

/* Spreads a reading (kWh, 0 to 1,000,000,000) over the 1 to 366 days of its period by their weights (kWh, -2,000,000,000 to 2,000,000,000;
   a negative one is 11). A share for each day in `out`, whose later numbers stay. */
uint8_t seatpomelo_spread(uint64_t reading, const int64_t *weights, size_t days, int64_t *out, size_t room);

#ifdef __cplusplus
}
#endif

#endif
