/* The least that a verifier has to do at each node of a record: it moves eight state sets along the role, adds the credential to the
 * used set, and where a word ends looks which automata accept it. It checks nothing, and whatever depends on the credential alone is
 * prepared: how many children its nodes have, and the arcs of its role. `bench -- moves` compiles and loads it, times it beside the
 * library, and compares what it tells with the library's verdict. bench/src/moves/limit.rs has the same structs.
 */
#include <stddef.h>
#include <stdint.h>
#include <string.h>

enum { AUTOMATA = 8, LEVELS = 16, CREDENTIALS = 20 };

/* An automaton that is in a state of `from` goes to all of `to`. */
struct arc {
    uint16_t from, to;
};

/* A credential: its arcs are those before `ends[0]` of the first automaton, then those before `ends[1]` of the second, and so on. */
struct credential {
    uint32_t children;
    const struct arc *arcs;
    uint32_t ends[AUTOMATA];
};

struct sheet {
    uint16_t starting[AUTOMATA], accepting[AUTOMATA];
    struct credential credentials[CREDENTIALS];
};

/* The automata that accept every word, automaton i as 2^(i-1), as the used set has the credentials. */
struct told {
    uint64_t nodes;
    uint32_t used, accepting;
};

/* The state sets of a level's parent, and how many of its children are still to come. */
struct level {
    uint16_t sets[AUTOMATA];
    uint32_t left;
};

static void move(const struct credential *credential, const uint16_t *sets, uint16_t *moved)
{
    uint32_t at = 0;
    for (int automaton = 0; automaton < AUTOMATA; automaton++) {
        uint16_t set = sets[automaton], to = 0;
        for (; at < credential->ends[automaton]; at++)
            to |= set & credential->arcs[at].from ? credential->arcs[at].to : 0;
        moved[automaton] = to;
    }
}

static uint32_t accepted(const uint16_t *sets, const uint16_t *accepting)
{
    uint32_t all = 0;
    for (int automaton = 0; automaton < AUTOMATA; automaton++)
        all |= (uint32_t)((sets[automaton] & accepting[automaton]) != 0) << automaton;
    return all;
}

/* Walks a record of a whole tree of at most 16 levels. */
void bwlchareg_limit(const struct sheet *sheet, const uint16_t *record, size_t length, struct told *told)
{
    struct level levels[LEVELS + 1];
    struct level *level = levels;
    uint32_t used = 0, accepting = (1u << AUTOMATA) - 1;
    size_t at = 0;
    memcpy(level->sets, sheet->starting, sizeof level->sets);
    level->left = 1;
    while (at + 1 < length) {
        uint32_t index = record[at] - 1u;
        const struct credential *credential = &sheet->credentials[index];
        at += 2;
        used |= 1u << index;
        level->left--;
        move(credential, level->sets, level[1].sets);
        if (credential->children) {
            level++;
            level->left = credential->children;
            continue;
        }
        accepting &= accepted(level[1].sets, sheet->accepting);
        while (level > levels && !level->left)
            level--;
    }
    told->nodes = at / 2;
    told->used = used;
    told->accepting = accepting;
}
