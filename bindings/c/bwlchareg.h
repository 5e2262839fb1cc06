/* Bwlchareg: a compliance checker for usage-constrained RT0 credentials. For x86-64 Linux, as C99,
 * C11 or C++.
 *
 * In the repository, bindings/c/README.md says how to link, bindings/c/example.c makes every call,
 * bindings/LAYOUT.md says what the numbers of a table, a query, a record and a set mean, and
 * docs/DEFINITION.md how every input is answered.
 *
 * This holds of every call on a table, for every input of every length, and is proved
 * (crates/bwlchareg and the crates under it):
 *
 *   - The call ends. It reads only the numbers of the slices that it is lent, and writes only what
 *     is named here.
 *   - The result is 0, accepted, or the number of a refusal. The checks are made in the order of the
 *     table in docs/DEFINITION.md, "Where each input is stopped", and those of one row by ascending
 *     record number; the first that fails is told.
 *   - The last parameter gets the position of a refusal. On 0 it gets the call's value, or 0 where
 *     the call has none.
 *
 * This is left to the caller, and nothing checks it:
 *
 *   - A slice is a pointer and a length, in numbers. The pointer is aligned for its numbers and leads
 *     to as many as the length says. An empty slice may be a null pointer.
 *   - The last parameter is aligned and never null. Neither it nor a buffer overlaps anything else
 *     that the call is lent.
 *
 * A call keeps nothing for the next one and takes no memory but the stack, so several threads may
 * call at once.
 */
#ifndef BWLCHAREG_H
#define BWLCHAREG_H

#include <stddef.h>
#include <stdint.h>

#ifdef __cplusplus
extern "C" {
#endif

/* The version, also as 10000 * major + 100 * minor + patch. All versions 0.N.x have the same calls,
 * layouts and refusals. Version 0.(N+1).0 may have others, and CHANGELOG.md then says which. */
#define BWLCHAREG_VERSION "0.7.0"
#define BWLCHAREG_VERSION_MAJOR 0
#define BWLCHAREG_VERSION_MINOR 7
#define BWLCHAREG_VERSION_PATCH 0
#define BWLCHAREG_VERSION_NUMBER 700

/* The version number of the library itself. Library and header fit each other if this, divided by
 * 100, is BWLCHAREG_VERSION_NUMBER / 100. */
uint32_t bwlchareg_version(void);

/* Limits. The last two follow from the others: the length of the longest table, and how many sets
 * there can be of which none is part of another. */
enum {
    BWLCHAREG_MAX_CREDENTIALS = 20,
    BWLCHAREG_MAX_PART_CELLS = 63,
    BWLCHAREG_MAX_AUTOMATA = 8,
    BWLCHAREG_MAX_EDGES = 128,
    BWLCHAREG_MAX_PRINCIPAL = 64, /* principals are 1 to 64, */
    BWLCHAREG_MAX_NAME = 64,      /* role names too, */
    BWLCHAREG_MAX_STATE = 15,     /* the states of an automaton 0 to 15 */
    BWLCHAREG_MIN_PARTS = 2,
    BWLCHAREG_MAX_PARTS = 4,
    BWLCHAREG_MAX_DEPTH = 16,
    BWLCHAREG_MAX_TABLE_LENGTH = 1105,
    BWLCHAREG_MAX_SETS = 184756
};

/* How many numbers the head of a table, a record of each sort and a node of a proof record have. */
enum {
    BWLCHAREG_HEAD_LENGTH = 4,
    BWLCHAREG_CREDENTIAL_LENGTH = 6,
    BWLCHAREG_PART_CELL_LENGTH = 3,
    BWLCHAREG_AUTOMATON_LENGTH = 3,
    BWLCHAREG_EDGE_LENGTH = 6,
    BWLCHAREG_NODE_LENGTH = 2
};

/* The kind of a credential. */
enum {
    BWLCHAREG_MEMBERSHIP = 1,  /* A.r <- D */
    BWLCHAREG_CONTAINMENT = 2, /* A.r <- B.s */
    BWLCHAREG_LINKING = 3,     /* A.r <- A.s.t */
    BWLCHAREG_INTERSECTION = 4 /* A.r <- the roles of a chain of part cells */
};

/* The label of an edge: which roles it matches. */
enum {
    BWLCHAREG_THIS_ROLE = 1,
    BWLCHAREG_EVERY_ROLE = 2,
    BWLCHAREG_OTHER_ROLES = 3, /* every role but this one */
    BWLCHAREG_ROLES_OF_OWNER = 4
};

/* The mark of an automaton: which words of a record it must accept. */
enum {
    BWLCHAREG_EVERY_WORD = 0,
    BWLCHAREG_SOME_WORD = 1 /* at least one */
};

/* What a call returns. */
enum {
    BWLCHAREG_ACCEPTED = 0,
    BWLCHAREG_REFUSED_SHORT_HEAD = 1,
    BWLCHAREG_REFUSED_COUNT_OVER_LIMIT = 2,
    BWLCHAREG_REFUSED_WRONG_LENGTH = 3,
    BWLCHAREG_REFUSED_CREDENTIAL = 4,
    BWLCHAREG_REFUSED_PART_CELL = 5,
    BWLCHAREG_REFUSED_CHAIN = 6,
    BWLCHAREG_REFUSED_EDGE = 7,
    BWLCHAREG_REFUSED_QUERY = 8,
    BWLCHAREG_REFUSED_NO_MINIMAL_SET = 9,
    BWLCHAREG_REFUSED_LONGER_LIST = 10,
    BWLCHAREG_REFUSED_RECORD_LENGTH = 11,
    BWLCHAREG_REFUSED_NODE = 12,
    BWLCHAREG_REFUSED_BRANCH = 13,
    BWLCHAREG_REFUSED_WORD = 14,
    BWLCHAREG_REFUSED_NOT_LISTED = 15,
    BWLCHAREG_REFUSED_LONGER_RECORD = 16,
    BWLCHAREG_REFUSED_MARK = 17
};

/* What a call returned, in words: those of the table in docs/DEFINITION.md. */
static inline const char *bwlchareg_refusal_words(uint32_t number)
{
    switch (number) {
    case 0: return "accepted";
    case 1: return "the table has fewer than 4 numbers";
    case 2: return "a count of the table's head is over its limit";
    case 3: return "the table's length is not what its head says";
    case 4: return "a field of the credential is outside what its kind allows";
    case 5: return "the part cell's principal or name is out of range, or its next is neither 0 nor a later cell";
    case 6: return "the chain of the kind 4 credential does not have 2 to 4 cells";
    case 7: return "the edge's automaton, a state or the label is out of range, or owner and name are not as the label allows";
    case 8: return "the query's principal, owner, name or depth limit is out of range";
    case 9: return "there is no minimal set";
    case 10: return "there are more minimal sets than cells";
    case 11: return "fewer than two numbers remain for the node, or numbers remain after the tree";
    case 12: return "the node's credential or middle does not fit its goal";
    case 13: return "the node is deeper than the depth limit, or its principal and role are already on the branch";
    case 14: return "the automaton is not met: with mark 0 it rejects a word, with mark 1 every word";
    case 15: return "the set is not on the list";
    case 16: return "the record has more numbers than there are cells";
    case 17: return "the automaton's mark is neither 0 nor 1";
    default: return "not a refusal of version " BWLCHAREG_VERSION;
    }
}

/* What the position of a refusal counts, from 1, or "" where the position is 0. The fields of a query
 * are 1 principal, 2 owner, 3 name, 4 depth limit. Nodes count in the order of the record; for numbers
 * that remain after the tree the position is the number of nodes plus 1. */
static inline const char *bwlchareg_position_words(uint32_t number)
{
    switch (number) {
    case 4: case 6: return "the credential";
    case 5: return "the part cell";
    case 7: return "the edge";
    case 8: return "the field";
    case 11: case 12: case 13: return "the node";
    case 14: case 17: return "the automaton";
    default: return "";
    }
}

/* Whether a table is accepted. Refuses by the table's rows of docs/DEFINITION.md, "Where each input
 * is stopped". */
uint32_t bwlchareg_check(const uint16_t *table, size_t length, uint64_t *position);

/* Whether a table is accepted and a query valid. Refuses by the request's rows: the table's rows,
 * then 8. The calls below make these checks first. */
uint32_t bwlchareg_check_query(const uint16_t *table, size_t length,
                               uint16_t principal, uint16_t owner, uint16_t name, uint16_t depth,
                               uint64_t *position);

/* Verifies a proof record. On 0 the value is its used set: credential i counts 2^(i-1).
 *
 * The record is read node by node: 11, 12 and 13 are tested in this order at a node before its
 * children, then 11 for numbers that remain after the tree. Last comes 14, at the lowest automaton
 * that is not met. On an accepted table and a valid query the result is 0 exactly if the record
 * derives the queried membership by the rules of RT0, within the depth limit and with no pair of
 * principal and role twice on a branch, and every automaton attached to a credential that it uses is
 * met: one of mark 0 accepts every word of the record, one of mark 1 at least one.
 *
 * The stack is bounded by the depth limit, whatever the record's length.
 */
uint32_t bwlchareg_verify(const uint16_t *table, size_t table_length,
                          uint16_t principal, uint16_t owner, uint16_t name, uint16_t depth,
                          const uint16_t *record, size_t record_length,
                          uint64_t *value);

/* Lists all minimal sets. On 0 the value is their count, at least 1, and the first cells of `sets`
 * hold them in ascending order: credential i counts 2^(i-1).
 *
 * A minimal set is the used set of a record that bwlchareg_verify accepts with this table and query,
 * where no accepted record's used set is a proper part of it. The list has every minimal set once,
 * and nothing else. Minimal does not mean fewest credentials.
 *
 * Refuses with 9 if there is none, whatever the buffer's length, and with 10 if there are more than
 * cells; the buffer is then filled with the first of them. BWLCHAREG_MAX_SETS cells are always
 * enough. All other cells stay as they are.
 */
uint32_t bwlchareg_list(const uint16_t *table, size_t table_length,
                        uint16_t principal, uint16_t owner, uint16_t name, uint16_t depth,
                        uint32_t *sets, size_t sets_length,
                        uint64_t *value);

/* Writes the first record of a minimal set. On 0 the value is its length, two numbers for each node,
 * and the first cells of `record` hold it.
 *
 * bwlchareg_verify accepts this record, with exactly this set, and every other record that it accepts
 * and that uses only credentials of the set comes later: records are compared number by number, the
 * smaller first.
 *
 * Refuses with 15 if the set is not on the list of this table and query, and with 16 if the record
 * has more numbers than there are cells. All other cells stay as they are, and on a refusal all do.
 * A record may have more than a thousand million nodes; once the set is known to be on the list, 16
 * takes about as many steps as there are cells, times the work of a node.
 */
uint32_t bwlchareg_write(const uint16_t *table, size_t table_length,
                         uint16_t principal, uint16_t owner, uint16_t name, uint16_t depth,
                         uint32_t set,
                         uint16_t *record, size_t record_length,
                         uint64_t *value);

#ifdef __cplusplus
}
#endif

#endif
