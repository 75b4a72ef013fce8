/*
 * The C interface of the solver: libkgs.a, built by `tools/build kgs`, for x86-64.
 *
 * A sheet is lent as its bytes (docs/SHEET.md), any bytes: what is no fit sheet is refused, by a number and up to four
 * fields that docs/REFUSALS.md puts in plain words. docs/CALLS.md says what each call answers. All of this holds for
 * every call:
 *
 * - No pointer is null, not even one beside a length of 0, and each is aligned for its element type.
 * - What is lent stays the caller's. The sheet is only read; a buffer `out` is only written, and shares no byte with
 *   the sheet. After a refusal the buffer holds what it held, and so does always what lies past the count.
 * - Nothing is allocated, nothing is kept between calls and there are no globals, so calls may run at the same time.
 *   They may share a sheet, but not a buffer.
 * - The stack that a call needs is named with it. Of the C library only memcpy and memset are used.
 */
#ifndef KGS_H
#define KGS_H

#include <stddef.h>
#include <stdint.h>

#ifdef __cplusplus
extern "C" {
#endif

/* Why a call was refused. Number 0: it was not; fields that the number does not use are 0. */
typedef struct {
    uint64_t number;
    uint64_t a;
    uint64_t b;
    uint64_t c;
    uint64_t d;
} kgs_refusal;

/* A solve's answer. Unused entries are 0, and after a refusal so is every other member. */
typedef struct {
    kgs_refusal refusal;
    uint64_t has_terminal;  /* 1: the actions lead to `terminal`; 0: they lead to a chance point, and it is 0 */
    uint64_t terminal;      /* an entity */
    uint64_t action_count;
    uint32_t labels[64];    /* the label numbers of the actions to take, first to last */
    uint64_t payoff_count;
    double payoffs[8];      /* their worth to players 0, 1 and so on */
} kgs_solution;

/* How many u64s were written to the front of the buffer; 0 after a refusal. */
typedef struct {
    kgs_refusal refusal;
    uint64_t count;
} kgs_written;

/* Kuhn poker: player 0's average value and the bet share at the first move; 0 after a refusal. */
typedef struct {
    kgs_refusal refusal;
    double value;
    double bet_share;
} kgs_kuhn;

/*
 * The chance-weighted solve of the sheet's `len` bytes from the entity `start`. `limit` is the greatest depth, the
 * start being at depth 1: 1 to 64, or 0, which means 32. Returns the solution. Stack: 256 KB.
 */
kgs_solution kgs_solve(const uint8_t *sheet, size_t len, uint32_t start, uint64_t limit);

/* The solve of a game without chance: as kgs_solve, but a chance node is refused. Stack: 256 KB. */
kgs_solution kgs_solve_plain(const uint8_t *sheet, size_t len, uint32_t start, uint64_t limit);

/*
 * Lists the paths from `start` by action edges, at chance nodes too, depth first in edge order, into `out`, which has
 * room for `out_len` u64s; `limit` as in kgs_solve. Returns the count written. Each path is
 *   terminal, payoff count, action count, the label numbers first to last, the payoffs' bits.
 * Stack: 96 KB.
 */
kgs_written kgs_paths(const uint8_t *sheet, size_t len, uint32_t start, uint64_t limit, uint64_t *out, size_t out_len);

/*
 * Lists the sheet's information sets by rising id into `out`, which has room for `out_len` u64s. Returns the count
 * written. Each set is
 *   id, player, member count, action count, the members in row order, the label numbers of the first member's actions.
 * Stack: 32 KB.
 */
kgs_written kgs_sets(const uint8_t *sheet, size_t len, uint64_t *out, size_t out_len);

/*
 * Checks that the root and every target of an action or chance row are nodes, and then the tree that the child rows
 * make from the root. Returns the first fault. Stack: 384 KB.
 */
kgs_refusal kgs_topology(const uint8_t *sheet, size_t len);

/*
 * Kuhn poker by counterfactual regret minimization, in three variants: regrets added up; their positive part kept
 * (CFR+); regrets weighted by the iteration's number (linear CFR). The last two also weigh each iteration's strategy by
 * its number. Nothing is lent. Returns player 0's average value and the bet share at the first move, or the refusal of
 * more than 1,000,000 iterations. Stack: 16 KB.
 */
kgs_kuhn kgs_kuhn_vanilla(uint64_t iterations);
kgs_kuhn kgs_kuhn_cfr_plus(uint64_t iterations);
kgs_kuhn kgs_kuhn_linear_cfr(uint64_t iterations);

#ifdef __cplusplus
}
#endif

#endif
