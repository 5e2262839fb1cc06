/* Every call on the shop example of docs/DEFINITION.md and on a few tables more. Each answer is
 * printed in words and compared with what the definition says; the program ends with 1 if any
 * differs. bindings/LAYOUT.md says what the numbers mean. */
#include "bwlchareg.h"

#include <inttypes.h>
#include <stdio.h>

enum { SHOP = 1, SCHOOL = 2, ANN = 4, BOB = 5, CLEO = 6, CLUB = 7 };        /* principals */
enum { DISCOUNT = 1, STUDENT = 2, ACCREDITED = 3, FRIEND = 4 };             /* role names */

/* The shop's four credentials. The parameters are the automata attached to the first and the third,
 * or 0:
 *   1: Shop.discount <- Shop.accredited.student
 *   2: Shop.accredited <- School
 *   3: School.student <- Ann
 *   4: Shop.discount <- Ann */
#define SHOP_CREDENTIALS(first, third) \
    SHOP, DISCOUNT, BWLCHAREG_LINKING, ACCREDITED, STUDENT, (first), \
    SHOP, ACCREDITED, BWLCHAREG_MEMBERSHIP, SCHOOL, 0, 0, \
    SCHOOL, STUDENT, BWLCHAREG_MEMBERSHIP, ANN, 0, (third), \
    SHOP, DISCOUNT, BWLCHAREG_MEMBERSHIP, ANN, 0, 0

/* Four credentials, no part cells, no automata, no edges. */
static const uint16_t T[] = {4, 0, 0, 0, SHOP_CREDENTIALS(0, 0)};

/* The third credential only for words that do not begin with Shop.discount. */
static const uint16_t U[] = {
    4, 0, 1, 2, SHOP_CREDENTIALS(0, 1),
    1, 2, BWLCHAREG_EVERY_WORD,                         /* starts in state 0, accepts in state 1 */
    1, 0, BWLCHAREG_OTHER_ROLES, SHOP, DISCOUNT, 1,     /* from 0 by all but Shop.discount to 1 */
    1, 1, BWLCHAREG_EVERY_ROLE, 0, 0, 1,                /* from 1 by every role to 1 */
};

/* The first credential only for words of Shop's own roles. */
static const uint16_t V[] = {
    4, 0, 1, 1, SHOP_CREDENTIALS(1, 0),
    1, 1, BWLCHAREG_EVERY_WORD,                         /* starts and accepts in state 0 */
    1, 0, BWLCHAREG_ROLES_OF_OWNER, SHOP, 0, 0,         /* from 0 by every role of Shop to 0 */
};

/* The first credential only if some word has a role of School. */
static const uint16_t S[] = {
    4, 0, 1, 3, SHOP_CREDENTIALS(1, 0),
    1, 2, BWLCHAREG_SOME_WORD,                          /* starts in state 0, accepts in state 1 */
    1, 0, BWLCHAREG_EVERY_ROLE, 0, 0, 0,                /* from 0 by every role to 0 */
    1, 0, BWLCHAREG_ROLES_OF_OWNER, SCHOOL, 0, 1,       /* from 0 by every role of School to 1 */
    1, 1, BWLCHAREG_EVERY_ROLE, 0, 0, 1,                /* from 1 by every role to 1 */
};

/* A club that counts the friends of its friends as its friends. */
static const uint16_t W[] = {
    4, 0, 0, 0,
    CLUB, FRIEND, BWLCHAREG_LINKING, FRIEND, FRIEND, 0, /* 1: Club.friend <- Club.friend.friend */
    CLUB, FRIEND, BWLCHAREG_MEMBERSHIP, ANN, 0, 0,      /* 2: Club.friend <- Ann */
    ANN, FRIEND, BWLCHAREG_MEMBERSHIP, BOB, 0, 0,       /* 3: Ann.friend <- Bob */
    BOB, FRIEND, BWLCHAREG_MEMBERSHIP, CLEO, 0, 0,      /* 4: Bob.friend <- Cleo */
};

/* Tables that are refused: there is no principal 65; label 4 takes no name; there is no mark 2,
 * which automaton 2 has; a table of the base layout has no marks at all. */
static const uint16_t stranger[] = {1, 0, 0, 0, SHOP, DISCOUNT, BWLCHAREG_MEMBERSHIP, 65, 0, 0};
static const uint16_t named[] = {
    0, 0, 1, 1, 1, 1, BWLCHAREG_EVERY_WORD, 1, 0, BWLCHAREG_ROLES_OF_OWNER, SHOP, DISCOUNT, 0,
};
static const uint16_t marked[] = {0, 0, 2, 0, 1, 1, BWLCHAREG_SOME_WORD, 1, 1, 2};
static const uint16_t base[] = {0, 0, 2, 0, 1, 1, 1, 1};

static const uint16_t empty[] = {0, 0, 0, 0};           /* accepted, but there is nothing in it */

/* Ann is in Shop.discount by credential 1, since School, the middle, is in Shop.accredited by
 * credential 2, and Ann is in School.student by credential 3. */
static const uint16_t record[] = {1, SCHOOL, 2, 0, 3, 0};
static const uint16_t misled[] = {1, ANN, 2, 0, 3, 0};  /* credential 2 does not name this middle */
static const uint16_t outright[] = {4, 0};              /* by credential 4 alone */

/* Cleo is in Club.friend through Bob, and Bob through Ann. */
static const uint16_t friends[] = {1, BOB, 1, ANN, 2, 0, 3, 0, 4, 0};
static const uint16_t circle[] = {1, BOB, 1, CLEO, 1, BOB}; /* through Bob, and he through Cleo */

/* The queries: Ann in Shop.discount, and Cleo in Club.friend. */
#define ANN_WITHIN(depth) ANN, SHOP, DISCOUNT, (depth)
#define CLEO_WITHIN(depth) CLEO, CLUB, FRIEND, (depth)

#define LENGTH(array) (sizeof(array) / sizeof((array)[0]))
#define SLICE(array) (array), LENGTH(array)
#define NOTHING NULL, 0                                 /* an empty slice may be a null pointer */

/* What is in cells and values before a call. No call writes these. */
#define UNCHANGED UINT32_MAX
#define UNWRITTEN UINT64_MAX
#define NO_NUMBER UINT16_MAX

static uint64_t value = UNWRITTEN;                      /* what a call writes */
static uint32_t cells[3] = {UNCHANGED, UNCHANGED, UNCHANGED};
static uint16_t numbers[8];                             /* two more than the longest record */
static int differing;                                   /* answers that are not the definition's */

/* Prints the answer to what was asked, and compares number and value with the definition's. */
static void tell(const char *asked, uint32_t number, uint32_t right_number, uint64_t right_value)
{
    const char *counted = bwlchareg_position_words(number);
    if (number == BWLCHAREG_ACCEPTED)
        printf("%s: accepted, value %" PRIu64 "\n", asked, value);
    else
        printf("%s: refused %" PRIu32 " at %" PRIu64 "%s%s: %s\n", asked, number, value,
               *counted ? ", " : "", counted, bwlchareg_refusal_words(number));
    if (number != right_number || value != right_value) {
        printf("  but the definition has %" PRIu32 ", %" PRIu64 "\n", right_number, right_value);
        differing++;
    }
    value = UNWRITTEN;
}

/* Prints the sets in the cells, compares all cells with the definition's, and clears them. */
static void tell_cells(uint32_t first, uint32_t second)
{
    const uint32_t right[] = {first, second, UNCHANGED};
    for (size_t i = 0; i < LENGTH(cells); i++) {
        if (cells[i] != UNCHANGED) {
            printf("  set %" PRIu32 " has credentials", cells[i]);
            for (int c = 1; c <= BWLCHAREG_MAX_CREDENTIALS; c++)
                if (cells[i] >> (c - 1) & 1) printf(" %d", c);
            printf("\n");
        }
        if (cells[i] != right[i]) {
            printf("  but the definition has %" PRIu32 " in cell %zu\n", right[i], i + 1);
            differing++;
        }
        cells[i] = UNCHANGED;
    }
}

/* Has the first record of a set written into so many cells, prints the answer and the record, and
 * compares both with the definition's. Where the call refuses the right record is nothing. */
static void tell_write(const char *asked, const uint16_t *table, size_t table_length,
                       uint32_t set, size_t lent,
                       uint32_t right_number, const uint16_t *right, size_t right_length)
{
    for (size_t i = 0; i < LENGTH(numbers); i++)
        numbers[i] = NO_NUMBER;
    tell(asked, bwlchareg_write(table, table_length, ANN_WITHIN(2), set, numbers, lent, &value),
         right_number, right_length);
    if (numbers[0] != NO_NUMBER) {
        printf("  record");
        for (size_t i = 0; i < LENGTH(numbers) && numbers[i] != NO_NUMBER; i++)
            printf(" %d", numbers[i]);
        printf("\n");
    }
    for (size_t i = 0; i < LENGTH(numbers); i++) {
        int right_cell = i < right_length ? right[i] : NO_NUMBER;
        if (numbers[i] != right_cell) {
            printf("  but the definition has %d in cell %zu\n", right_cell, i + 1);
            differing++;
        }
    }
}

static void check_tables(void)
{
    tell("check T", bwlchareg_check(SLICE(T), &value), 0, 0);
    tell("check U", bwlchareg_check(SLICE(U), &value), 0, 0);
    tell("check V", bwlchareg_check(SLICE(V), &value), 0, 0);
    tell("check S", bwlchareg_check(SLICE(S), &value), 0, 0);
    tell("check nothing", bwlchareg_check(NOTHING, &value), BWLCHAREG_REFUSED_SHORT_HEAD, 0);
    tell("check three numbers", bwlchareg_check(T, 3, &value), BWLCHAREG_REFUSED_SHORT_HEAD, 0);
    tell("check principal 65", bwlchareg_check(SLICE(stranger), &value),
         BWLCHAREG_REFUSED_CREDENTIAL, 1);
    tell("check label 4 with a name", bwlchareg_check(SLICE(named), &value),
         BWLCHAREG_REFUSED_EDGE, 1);
    tell("check mark 2", bwlchareg_check(SLICE(marked), &value), BWLCHAREG_REFUSED_MARK, 2);
    tell("check a table without marks", bwlchareg_check(SLICE(base), &value),
         BWLCHAREG_REFUSED_WRONG_LENGTH, 0);
    tell("check T, depth 0", bwlchareg_check_query(SLICE(T), ANN_WITHIN(0), &value),
         BWLCHAREG_REFUSED_QUERY, 4);
    tell("check T, depth 17", bwlchareg_check_query(SLICE(T), ANN_WITHIN(17), &value),
         BWLCHAREG_REFUSED_QUERY, 4);
    tell("check nothing, depth 0", bwlchareg_check_query(NOTHING, ANN_WITHIN(0), &value),
         BWLCHAREG_REFUSED_SHORT_HEAD, 0);
}

static void list_sets(void)
{
    tell("list T", bwlchareg_list(SLICE(T), ANN_WITHIN(2), SLICE(cells), &value), 0, 2);
    tell_cells(7, 8);
    tell("list T, depth 1", bwlchareg_list(SLICE(T), ANN_WITHIN(1), SLICE(cells), &value), 0, 1);
    tell_cells(8, UNCHANGED);
    tell("list U", bwlchareg_list(SLICE(U), ANN_WITHIN(2), SLICE(cells), &value), 0, 1);
    tell_cells(8, UNCHANGED);
    tell("list U, School.student",
         bwlchareg_list(SLICE(U), ANN, SCHOOL, STUDENT, 1, SLICE(cells), &value), 0, 1);
    tell_cells(4, UNCHANGED);
    tell("list V", bwlchareg_list(SLICE(V), ANN_WITHIN(2), SLICE(cells), &value), 0, 1);
    tell_cells(8, UNCHANGED);
    tell("list S", bwlchareg_list(SLICE(S), ANN_WITHIN(2), SLICE(cells), &value), 0, 2);
    tell_cells(7, 8);
    tell("list W", bwlchareg_list(SLICE(W), CLEO_WITHIN(3), SLICE(cells), &value), 0, 1);
    tell_cells(15, UNCHANGED);
    tell("list T, one cell", bwlchareg_list(SLICE(T), ANN_WITHIN(2), cells, 1, &value),
         BWLCHAREG_REFUSED_LONGER_LIST, 0);
    tell_cells(7, UNCHANGED);
    tell("list T, no cells", bwlchareg_list(SLICE(T), ANN_WITHIN(2), NOTHING, &value),
         BWLCHAREG_REFUSED_LONGER_LIST, 0);
    tell("list nothing, no cells", bwlchareg_list(NOTHING, ANN_WITHIN(2), NOTHING, &value),
         BWLCHAREG_REFUSED_SHORT_HEAD, 0);
    tell("list no credentials", bwlchareg_list(SLICE(empty), ANN_WITHIN(2), SLICE(cells), &value),
         BWLCHAREG_REFUSED_NO_MINIMAL_SET, 0);
    tell_cells(UNCHANGED, UNCHANGED);
}

/* The value of an accepted record is its used set: 7 is credentials 1, 2 and 3. */
static void verify_records(void)
{
    tell("verify with T", bwlchareg_verify(SLICE(T), ANN_WITHIN(2), SLICE(record), &value), 0, 7);
    tell("verify with U", bwlchareg_verify(SLICE(U), ANN_WITHIN(2), SLICE(record), &value),
         BWLCHAREG_REFUSED_WORD, 1);
    tell("verify with V", bwlchareg_verify(SLICE(V), ANN_WITHIN(2), SLICE(record), &value),
         BWLCHAREG_REFUSED_WORD, 1);
    tell("verify with S", bwlchareg_verify(SLICE(S), ANN_WITHIN(2), SLICE(record), &value), 0, 7);
    tell("verify with T, depth 1", bwlchareg_verify(SLICE(T), ANN_WITHIN(1), SLICE(record), &value),
         BWLCHAREG_REFUSED_BRANCH, 2);
    tell("verify two nodes of it", bwlchareg_verify(SLICE(T), ANN_WITHIN(2), record, 4, &value),
         BWLCHAREG_REFUSED_RECORD_LENGTH, 3);
    tell("verify nothing with T", bwlchareg_verify(SLICE(T), ANN_WITHIN(2), NOTHING, &value),
         BWLCHAREG_REFUSED_RECORD_LENGTH, 1);
    tell("verify nothing with nothing", bwlchareg_verify(NOTHING, ANN_WITHIN(2), NOTHING, &value),
         BWLCHAREG_REFUSED_SHORT_HEAD, 0);
    tell("verify another middle", bwlchareg_verify(SLICE(T), ANN_WITHIN(2), SLICE(misled), &value),
         BWLCHAREG_REFUSED_NODE, 2);
    tell("verify with W", bwlchareg_verify(SLICE(W), CLEO_WITHIN(3), SLICE(friends), &value),
         0, 15);
    tell("verify a circle", bwlchareg_verify(SLICE(W), CLEO_WITHIN(3), SLICE(circle), &value),
         BWLCHAREG_REFUSED_BRANCH, 3);
}

/* From the list to proofs: each listed set of T has its first record written and verified. */
static void write_records(void)
{
    static const struct { const uint16_t *record; size_t length; } right[] = {
        {SLICE(record)}, {SLICE(outright)},
    };
    uint32_t sets[LENGTH(right)] = {0};
    tell("list T again", bwlchareg_list(SLICE(T), ANN_WITHIN(2), SLICE(sets), &value), 0, 2);
    for (size_t i = 0; i < LENGTH(right); i++) {
        char asked[40];
        snprintf(asked, sizeof asked, "write set %" PRIu32 " of T", sets[i]);
        tell_write(asked, SLICE(T), sets[i], LENGTH(numbers), 0, right[i].record, right[i].length);
        tell("verify it",
             bwlchareg_verify(SLICE(T), ANN_WITHIN(2), numbers, right[i].length, &value),
             0, sets[i]);
    }
    tell_write("write set 7 of U", SLICE(U), 7, LENGTH(numbers),
               BWLCHAREG_REFUSED_NOT_LISTED, NOTHING);
    tell_write("write set 7 of T, five cells", SLICE(T), 7, 5,
               BWLCHAREG_REFUSED_LONGER_RECORD, NOTHING);
    tell("write set 7 of T, no cells", bwlchareg_write(SLICE(T), ANN_WITHIN(2), 7, NOTHING, &value),
         BWLCHAREG_REFUSED_LONGER_RECORD, 0);
    tell("write set 7 of nothing", bwlchareg_write(NOTHING, ANN_WITHIN(2), 7, NOTHING, &value),
         BWLCHAREG_REFUSED_SHORT_HEAD, 0);
}

int main(void)
{
    if (bwlchareg_version() / 100 != BWLCHAREG_VERSION_NUMBER / 100) {
        printf("the library is not of version " BWLCHAREG_VERSION "\n");
        return 1;
    }
    check_tables();
    list_sets();
    verify_records();
    write_records();
    printf("%d answers differ from the definition\n", differing);
    return differing != 0;
}
