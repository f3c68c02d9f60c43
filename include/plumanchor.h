/* Plumanchor for C and C++. Installed by `make install`, it is compiled and linked with what `pkg-config --cflags --libs plumanchor` says;
 * in this repository the library is target/staticlib/libplumanchor.a, which `install/archive` writes.
 *
 * No function keeps a pointer, allocates or fails: any bytes of any length are taken, and a length of 0 may come with any pointer.
 * Every operation is tested on a stack of 1 MiB.
 *
 * An answer is one number. Bits 0 to 7: the refusal number of document 01, 0 if accepted. Bits 8 to 15: a word. Bits 16 to 31 and
 * 32 to 63: two values; a refusal has its place in the first. The functions plumanchor_unpack_.. at the end take an answer apart, each
 * into a struct of its own:
 *
 *     plumanchor_solved solved = plumanchor_unpack_solved(plumanchor_solve_wide(sheet, length, first, room, second, room));
 *     if (solved.refusal != PLUMANCHOR_ACCEPTED) puts(plumanchor_refusal_text(solved.refusal));
 *
 * A sheet is narrow (numbers of 16 bits, up to 256 variables and 4,096 nodes) or wide (32 bits, 1,024 and 8,192); functions on wide sheets
 * end in _wide. Both pack their answers alike, since the larger numbers fit too: in LOW V is up to 1,024 and a place, the row of a sheet,
 * up to 9,216; in HIGH N is up to 8,192 and a length up to 46,088; the counts of Solve and the variable where it stopped, up to 1,024, have
 * 16 bits each. */
#ifndef PLUMANCHOR_H
#define PLUMANCHOR_H

#include <stddef.h>
#include <stdint.h>

#ifdef __cplusplus
extern "C" {
#endif

/* The version that this header is of: as a text, by its parts, and as one number that grows. */
#define PLUMANCHOR_VERSION "1.0.0"
#define PLUMANCHOR_VERSION_MAJOR 1
#define PLUMANCHOR_VERSION_MINOR 0
#define PLUMANCHOR_VERSION_PATCH 0
#define PLUMANCHOR_VERSION_NUMBER (PLUMANCHOR_VERSION_MAJOR * 10000 + PLUMANCHOR_VERSION_MINOR * 100 + PLUMANCHOR_VERSION_PATCH)

/* The limits of a format: bytes to a number, most variables (the highest number of one too), most nodes; bytes in front of the rows, and to
 * a row; bytes of the longest sheet, than which no output and no work buffer needs to be longer. */
#define PLUMANCHOR_NARROW_WIDTH 2
#define PLUMANCHOR_NARROW_VARIABLES 256
#define PLUMANCHOR_NARROW_NODES 4096
#define PLUMANCHOR_NARROW_HEADER 4
#define PLUMANCHOR_NARROW_ROW 3
#define PLUMANCHOR_NARROW_LONGEST 13060
#define PLUMANCHOR_WIDE_WIDTH 4
#define PLUMANCHOR_WIDE_VARIABLES 1024
#define PLUMANCHOR_WIDE_NODES 8192
#define PLUMANCHOR_WIDE_HEADER 8
#define PLUMANCHOR_WIDE_ROW 5
#define PLUMANCHOR_WIDE_LONGEST 46088

/* The most variables that Trial takes. */
#define PLUMANCHOR_TRIAL_VARIABLES 20

/* The parts of an answer. */
#define PLUMANCHOR_NUMBER(answer) ((unsigned)((answer) & 0xff))
#define PLUMANCHOR_WORD(answer) ((unsigned)((answer) >> 8 & 0xff))
#define PLUMANCHOR_LOW(answer) ((unsigned)((answer) >> 16 & 0xffff))
#define PLUMANCHOR_HIGH(answer) ((uint32_t)((answer) >> 32))

/* The parts of Strategy's, if it isn't refused: two counts of 12 bits, and 24 bits behind them. */
#define PLUMANCHOR_SETTLED(answer) ((unsigned)((answer) >> 16 & 0xfff))
#define PLUMANCHOR_EXPANDED(answer) ((unsigned)((answer) >> 28 & 0xfff))
#define PLUMANCHOR_LAST(answer) ((uint32_t)((answer) >> 40))

/* Refusal numbers: 1 to 25 of documents 01 and 02; 26 to 29 are ours. */
enum plumanchor_refusal {
    PLUMANCHOR_ACCEPTED = 0,
    PLUMANCHOR_TOO_SHORT = 1,        /* shorter than the two sizes */
    PLUMANCHOR_SIZE_OUTSIDE = 2,     /* a size outside its limits */
    PLUMANCHOR_WRONG_LENGTH = 3,     /* wrong length */
    PLUMANCHOR_BAD_KIND = 4,         /* a row's kind */
    PLUMANCHOR_BAD_NUMBER = 5,       /* a quantifier's number */
    PLUMANCHOR_BOUND_TWICE = 6,      /* a number bound twice */
    PLUMANCHOR_UNBOUND = 7,          /* a literal unbound */
    PLUMANCHOR_NOT_ONE_TREE = 8,     /* the rows are not one tree */
    PLUMANCHOR_NOT_TIDY = 9,         /* not tidy */
    PLUMANCHOR_NOT_IN_PREFIX = 10,   /* the variable is not in the prefix */
    PLUMANCHOR_WRONG_BLOCK = 11,     /* the variable is not in the innermost block, or not one block out */
    PLUMANCHOR_NOT_SETTLED = 12,     /* the variable may not be settled */
    PLUMANCHOR_NO_ROOM = 13,         /* no room for the sheet */
    PLUMANCHOR_TOO_MANY_TO_TRY = 14, /* too many variables to try */
    PLUMANCHOR_BAD_HEADER = 15,      /* a text's header */
    PLUMANCHOR_BAD_LISTS = 16,       /* a text that is not lists of numbers ended by 0 */
    PLUMANCHOR_BEYOND_HEADER = 17,   /* a variable or a number of clauses that a text's header doesn't allow */
    PLUMANCHOR_NO_NUMBERS_LEFT = 18, /* fewer unused numbers than variables to copy, or for Clauses to name */
    PLUMANCHOR_ABOVE_CEILING = 19,   /* more raw rows than the ceiling */
    PLUMANCHOR_NO_CLAUSES = 20,      /* not of the clause profile */
    PLUMANCHOR_BAD_VALUE = 21,       /* a value other than 0 and 1 */
    PLUMANCHOR_TOO_MANY_VALUES = 22, /* as many values as variables, or more; for Split and Join, more */
    PLUMANCHOR_ROOT_NOT_AND = 23,    /* the root is not AND */
    PLUMANCHOR_NOT_NARROW = 24,      /* outside the limits of a narrow sheet */
    PLUMANCHOR_WRONG_COUNTS = 25,    /* counts that don't add up */
    PLUMANCHOR_NOT_A_STRATEGY = 26,  /* not a strategy over the sheet's prefix */
    PLUMANCHOR_READS_BEYOND = 27,    /* a function that reads what it may not */
    PLUMANCHOR_WRONG_ANSWERS = 28,   /* not as many answers as lists of values */
    PLUMANCHOR_BAD_ANSWER = 29,      /* an answer other than 0, 1 and 2 */
};

/* The kinds of rows: a quantifier, a literal, an operator. */
enum plumanchor_kind {
    PLUMANCHOR_EXISTS = 1,
    PLUMANCHOR_FOR_ALL = 2,
    PLUMANCHOR_POSITIVE = 3,
    PLUMANCHOR_NEGATIVE = 4,
    PLUMANCHOR_AND = 5,
    PLUMANCHOR_OR = 6
};

/* The words of Trial, Solve, Resume and Guards. */
enum plumanchor_verdict {
    PLUMANCHOR_FALSE = 0,
    PLUMANCHOR_TRUE = 1,
    PLUMANCHOR_STOPPED = 2
};

/* The words of Force: with which values the owner of the turn gets the outcome wanted. */
enum plumanchor_outcome {
    PLUMANCHOR_WITH_NEITHER = 0,
    PLUMANCHOR_WITH_0 = 1,
    PLUMANCHOR_WITH_1 = 2,
    PLUMANCHOR_WITH_BOTH = 3,
    PLUMANCHOR_FORCE_STOPPED = 4 /* a value's run stopped */
};

/* The words of Compare. */
enum plumanchor_order {
    PLUMANCHOR_BEFORE = 0,
    PLUMANCHOR_EQUAL = 1,
    PLUMANCHOR_AFTER = 2
};

/* The words of Strategy. */
enum plumanchor_strategy_word {
    PLUMANCHOR_FALSE_WRITTEN = 0,
    PLUMANCHOR_TRUE_WRITTEN = 1,
    PLUMANCHOR_STRATEGY_STOPPED = 2,
    PLUMANCHOR_FALSE_TOO_LONG = 3, /* the strategy's sheet doesn't fit the output or the format */
    PLUMANCHOR_TRUE_TOO_LONG = 4
};

/* What Claim is given, one of which it refuses. */
enum plumanchor_claim_part {
    PLUMANCHOR_OF_OUTPUT = 0,
    PLUMANCHOR_OF_SHEET = 1,
    PLUMANCHOR_OF_STRATEGY = 2
};

/* The words of Certify and Join, and the answers that Join takes. */
enum plumanchor_known {
    PLUMANCHOR_KNOWN_FALSE = 0,
    PLUMANCHOR_KNOWN_TRUE = 1,
    PLUMANCHOR_UNKNOWN = 2
};

/* The words of Decide. */
enum plumanchor_decision {
    PLUMANCHOR_DECIDED_FALSE = 0,
    PLUMANCHOR_DECIDED_TRUE = 1,
    PLUMANCHOR_NO_PLACE = 2, /* no place left for a sheet that waits */
    PLUMANCHOR_SPENT = 3     /* the budget */
};

/* What a record of Steps does. */
enum plumanchor_step {
    PLUMANCHOR_SETTLE = 0,
    PLUMANCHOR_EXPAND = 1
};

/* Check. Accepted: V in LOW, N in HIGH. */
uint64_t plumanchor_check(const uint8_t *sheet, size_t length);

/* Trial. Accepted: the verdict in WORD (1 true, 0 false), the leaves tried in HIGH. */
uint64_t plumanchor_trial(const uint8_t *sheet, size_t length);

/* Part: how many kind bytes the subtree at a node covers, from sheet + 4 + V + node on. 0 if the sheet or the node is bad. */
size_t plumanchor_part(const uint8_t *sheet, size_t length, size_t node);

/* Tidy: the tidied sheet to the front of the output, zeros behind it. Accepted: the sheet's length in HIGH. Refused: no byte of the
 * output changes. The two may not overlap. */
uint64_t plumanchor_tidy(const uint8_t *sheet, size_t length, uint8_t *output, size_t room);

/* Settle x, any number, in the same way. */
uint64_t plumanchor_settle(const uint8_t *sheet, size_t length, size_t x, uint8_t *output, size_t room);

/* Expand x, any number, in the same way; the output must have room for the raw sheet. */
uint64_t plumanchor_expand(const uint8_t *sheet, size_t length, size_t x, uint8_t *output, size_t room);

/* Outer (N6): expands a universal x, any number, one block out: what has literals behind its row is any number of universal rows and
 * then at least one existential. The existential variables that depend on x are copied with it and get the smallest unused numbers. The
 * tidied sheet goes to the front of the output, zeros behind it. Accepted: the sheet's length in LOW, which it fits at both formats; how
 * many variables are copied in the lower 16 bits of HIGH, and the lowest of their old numbers, 0 if none, in its upper ones. Refused
 * (1 to 10; 11 x is no such variable; 18 fewer unused numbers are left than variables to copy; 13 the raw sheet doesn't fit): no byte of
 * the output changes. The two may not overlap. The second function is for wide sheets. */
uint64_t plumanchor_outer(const uint8_t *sheet, size_t length, size_t x, uint8_t *output, size_t room);
uint64_t plumanchor_outer_wide(const uint8_t *sheet, size_t length, size_t x, uint8_t *output, size_t room);

/* Quote: what expanding x, any number, costs. Accepted: the raw sheet's node rows in HIGH. Refused as Expand would be, whatever the
 * output. Nothing is written. */
uint64_t plumanchor_quote(const uint8_t *sheet, size_t length, size_t x);

/* Execute: Expand x if the raw sheet has at most so many node rows as the ceiling, any number, and else refuse with 19. */
uint64_t plumanchor_execute(const uint8_t *sheet, size_t length, size_t x, size_t ceiling, uint8_t *output, size_t room);

/* Reduce, in the same way: from each clause of a tidy AND of clauses the universal literals go that have no existential literal of that
 * clause after them in the prefix. The second function is for wider sheets. */
uint64_t plumanchor_reduce(const uint8_t *sheet, size_t length, uint8_t *output, size_t room);
uint64_t plumanchor_reduce_wide(const uint8_t *sheet, size_t length, uint8_t *output, size_t room);

/* Solve, in two work buffers; none of the three may overlap. Not refused: WORD is 1 for true, 0 for false and 2 for stopped, LOW the
 * number settled, HIGH the number expanded in its lower 16 bits and, where stopped, the variable in its upper ones. The first buffer
 * then holds the sheet reached and zeros, the second only zeros. Refused: no byte changes. */
uint64_t plumanchor_solve(const uint8_t *sheet, size_t length, uint8_t *first, size_t first_room, uint8_t *second,
                          size_t second_room);

/* The same operations on wide sheets. Part's kind bytes stand from sheet + 8 + V + node on. */
uint64_t plumanchor_check_wide(const uint8_t *sheet, size_t length);
uint64_t plumanchor_trial_wide(const uint8_t *sheet, size_t length);
size_t plumanchor_part_wide(const uint8_t *sheet, size_t length, size_t node);
uint64_t plumanchor_tidy_wide(const uint8_t *sheet, size_t length, uint8_t *output, size_t room);
uint64_t plumanchor_settle_wide(const uint8_t *sheet, size_t length, size_t x, uint8_t *output, size_t room);
uint64_t plumanchor_expand_wide(const uint8_t *sheet, size_t length, size_t x, uint8_t *output, size_t room);
uint64_t plumanchor_quote_wide(const uint8_t *sheet, size_t length, size_t x);
uint64_t plumanchor_execute_wide(const uint8_t *sheet, size_t length, size_t x, size_t ceiling, uint8_t *output, size_t room);
uint64_t plumanchor_solve_wide(const uint8_t *sheet, size_t length, uint8_t *first, size_t first_room, uint8_t *second,
                               size_t second_room);

/* Conversion to the wide format: the narrow sheet's rows as a wide sheet, to the front of the output, zeros behind it. Accepted: the wide
 * sheet's length in HIGH. Refused, with 13 for an output shorter than the wide sheet: no byte of the output changes. The two may not
 * overlap. */
uint64_t plumanchor_widen(const uint8_t *sheet, size_t length, uint8_t *output, size_t room);

/* Conversion to the narrow format: the wide sheet's rows as a narrow sheet, in the same way. 24 if a size or a variable's number is above
 * the narrow limits, before 13. */
uint64_t plumanchor_narrow(const uint8_t *sheet, size_t length, uint8_t *output, size_t room);

/* Force: with values for the first variables of the prefix, a byte each, whose turn is next and with which of 0 and 1 its owner forces
 * the outcome wanted, true for exists, false for all; in two work buffers, none of the four may overlap. Accepted: WORD is 0 for
 * neither, 1 for value 0, 2 for value 1, 3 for both and 4 for stopped; LOW is the turn, 1 exists, 2 for all; HIGH, where stopped, the
 * variable. Both buffers then hold zeros. Refused (21 a value isn't 0 or 1, 22 the values are as many as V or more): no byte changes.
 * plumanchor_force_wide takes a wide sheet. */
uint64_t plumanchor_force(const uint8_t *sheet, size_t length, const uint8_t *values, size_t count, uint8_t *first,
                          size_t first_room, uint8_t *second, size_t second_room);
uint64_t plumanchor_force_wide(const uint8_t *sheet, size_t length, const uint8_t *values, size_t count, uint8_t *first,
                               size_t first_room, uint8_t *second, size_t second_room);

/* Steps: a whole list of settle and expand steps on one sheet. Record i settles (operations[i] is 0) or expands (any other number) the
 * variable variables[i], any number, in the sheet that the steps before it left, with an output as long as the shorter buffer; what the
 * single call answers goes to numbers[i], the refusal number or 0, and values[i], the place or the new length. There are as many records
 * as the shortest of the four arrays holds; what the longer ones hold behind them stays. Accepted: the final sheet's length in HIGH, that
 * sheet and zeros in the first buffer, zeros in the second. Refused (1 to 8; 13 a buffer shorter than the sheet): no record and no byte
 * changes. No two of the arrays and buffers may overlap. */
uint64_t plumanchor_steps(const uint8_t *sheet, size_t length, const uint8_t *operations, size_t operation_count,
                          const size_t *variables, size_t variable_count, size_t *numbers, size_t number_count, size_t *values,
                          size_t value_count, uint8_t *first, size_t first_room, uint8_t *second, size_t second_room);

/* The same on a wide sheet. */
uint64_t plumanchor_steps_wide(const uint8_t *sheet, size_t length, const uint8_t *operations, size_t operation_count,
                               const size_t *variables, size_t variable_count, size_t *numbers, size_t number_count,
                               size_t *values, size_t value_count, uint8_t *first, size_t first_room, uint8_t *second,
                               size_t second_room);

/* Guards: of a sheet whose root is AND, the children to blame for its falsity. Each in turn is left out, for good if Solve still says
 * false of the others; a child whose run stops is kept and counted. WORD 0: the sheet of the children kept, with the old prefix and not
 * tidied, stands at the front of the output with zeros behind it, its length in HIGH and the count in LOW. WORD 1 or 2: the initial run
 * on the whole sheet said true or stopped, with its values as Solve has them, and the output is all zeros. The work buffers then hold
 * zeros. Refused (23: the root isn't AND; 13: a buffer is shorter than the sheet): no byte changes. No two of the four may overlap.
 * It takes as many runs of Solve as the root has children, and one more: for 500 guards 6 ms to 0.6 s were measured. */
uint64_t plumanchor_guards(const uint8_t *sheet, size_t length, uint8_t *output, size_t room, uint8_t *first, size_t first_room,
                           uint8_t *second, size_t second_room);

/* The same for a wide sheet. */
uint64_t plumanchor_guards_wide(const uint8_t *sheet, size_t length, uint8_t *output, size_t room, uint8_t *first,
                                size_t first_room, uint8_t *second, size_t second_room);

/* Resume: a stopped run goes on under the wide limits. STARTED is how many variables its first sheet has, SETTLED and EXPANDED are its
 * counts, of any size; the sheet reached is a wide one if NARROW is 0, else a narrow one. Answer and buffers are those of
 * plumanchor_solve_wide on that sheet, widened if it is narrow, with the counts given added to its own. A count comes back by its lower
 * 16 bits; Solve's own are at most 1,024, so the whole count is the one given plus what those bits are ahead of it, modulo 65,536.
 * Refused, no byte changes: 1 to 8 of the sheet's format; 25 if SETTLED, EXPANDED and V don't add up to STARTED; then 13 for a buffer
 * shorter than the widened sheet. None of the three may overlap. */
uint64_t plumanchor_resume(size_t started, size_t settled, size_t expanded, const uint8_t *sheet, size_t length, size_t narrow,
                           uint8_t *first, size_t first_room, uint8_t *second, size_t second_room);

/* Sort (N14): the sheet with all children in order to the front of the output, zeros behind it; the output must be as long as the
 * sheet. Accepted: the sheet's length in HIGH. Refused: no byte of the output changes. */
uint64_t plumanchor_sort(const uint8_t *sheet, size_t length, uint8_t *output, size_t room);
uint64_t plumanchor_sort_wide(const uint8_t *sheet, size_t length, uint8_t *output, size_t room);

/* Compare (N14) sheet a with sheet b, in two work buffers, the first as long as a and the second as b at least; none of the four may
 * overlap. Not refused: WORD is 0 where a stands before b, 1 where they are equal and 2 where a stands after b, and both buffers end as
 * zeros. Refused: WORD is 1 for a and 2 for b, and no byte changes. */
uint64_t plumanchor_compare(const uint8_t *a, size_t a_length, const uint8_t *b, size_t b_length, uint8_t *first,
                            size_t first_room, uint8_t *second, size_t second_room);
uint64_t plumanchor_compare_wide(const uint8_t *a, size_t a_length, const uint8_t *b, size_t b_length, uint8_t *first,
                                 size_t first_room, uint8_t *second, size_t second_room);

/* Response (Strategy 1): the function of x, any number, by which its owner can answer what the others are, as a sheet of the prefix without
 * x, to the front of the output, zeros behind it. With its value for x the matrix is what the owner can make of it. Accepted: the sheet's
 * length in HIGH. Refused (1 to 10; 11 x may neither be settled nor is it in the innermost block; 13 the raw sheet doesn't fit the output):
 * no byte of the output changes. The two may not overlap. The second function is for wide sheets. */
uint64_t plumanchor_response(const uint8_t *sheet, size_t length, size_t x, uint8_t *output, size_t room);
uint64_t plumanchor_response_wide(const uint8_t *sheet, size_t length, size_t x, uint8_t *output, size_t room);

/* Strategy (Strategy 1): Solve, in two work buffers that it leaves as Solve does, and where it ends the strategy by which the verdict's side
 * wins, exists of a true sheet and for all of a false one, as a sheet at the front of the output, zeros behind it: the first sheet's prefix,
 * and OR of one AND for each variable of the side, its positive literal and its function, in the order of the run, those of rows that are
 * left last. WORD is 0 for false and 1 for true, written; 2 for stopped; 3 for false and 4 for true where the strategy's sheet doesn't fit
 * the output or the format. SETTLED and EXPANDED are the counts, and LAST is the sheet's length if it is written, the variable if the run
 * stopped, and how many node rows the sheet has if it is too long. Unless it is written the output is all zeros. Refused (1 to 8; 13 a work buffer is shorter than the sheet): no byte changes. None of the four may overlap. The second function
 * is for wide sheets. */
uint64_t plumanchor_strategy(const uint8_t *sheet, size_t length, uint8_t *first, size_t first_room, uint8_t *second,
                             size_t second_room, uint8_t *output, size_t room);
uint64_t plumanchor_strategy_wide(const uint8_t *sheet, size_t length, uint8_t *first, size_t first_room, uint8_t *second,
                                  size_t second_room, uint8_t *output, size_t room);

/* Claim (Strategy 1): the claim that a strategy of any origin wins for a side, PLUMANCHOR_EXISTS or PLUMANCHOR_FOR_ALL (any other number is
 * taken for the latter), as a sheet of one quantifier, to the front of the output, zeros behind it. It has the truth that the side wants,
 * true for exists and false for all, exactly if the strategy wins, and then the sheet has it too. A strategy is a sheet of the same prefix
 * and format: OR of one AND for each variable of the side, its positive literal and its function, which reads the other side's variables
 * in front of its own in the prefix and variables whose pairs come later. Accepted: the claim's length in HIGH. Refused: WORD is 1 for the
 * sheet (1 to 8), 2 for the strategy (1 to 8; 26 no strategy over the sheet's prefix; 27 a function reads what it may not, its pair's row
 * in LOW) and 0 for the output (13), and no byte of it changes. None of the three may overlap. The second function is for wide sheets. */
uint64_t plumanchor_claim(const uint8_t *sheet, size_t length, size_t side, const uint8_t *strategy, size_t strategy_length,
                          uint8_t *output, size_t room);
uint64_t plumanchor_claim_wide(const uint8_t *sheet, size_t length, size_t side, const uint8_t *strategy, size_t strategy_length,
                               uint8_t *output, size_t room);

/* Certify: what a derivation of any origin shows of a verdict: if 0 is asked for, clauses that the sheet is false; if any other number,
 * cubes that it is true. Four words of `heads` say a step: 0 for a constraint that settles the matrix, or 1 and the code of the pivot; two
 * antecedents by their numbers, from 0 on; and where its codes end, which begin where those of the step before end. A literal's code is
 * twice its variable, and one more if it is negative. Any words are taken, and `heads` and `codes` are as long as so many words. Accepted:
 * WORD is 1 if the sheet is shown to be true, 0 if false, and 2 if neither; then HIGH is the number of the first step that isn't valid, of
 * all steps if only the last constraint isn't empty (its lower 32 bits, should there be more steps). Refused: 1 to 8 of the sheet. Nothing
 * is written. The second function is for wide sheets. */
uint64_t plumanchor_certify(const uint8_t *sheet, size_t length, size_t verdict, const uint32_t *heads, size_t head_count,
                            const uint32_t *codes, size_t code_count);
uint64_t plumanchor_certify_wide(const uint8_t *sheet, size_t length, size_t verdict, const uint32_t *heads, size_t head_count,
                                 const uint32_t *codes, size_t code_count);

/* Clauses: a sheet of the same truth whose matrix is AND of clauses, to the front of the output, zeros behind it. Under a root AND a literal
 * is a clause of its own and an OR one clause of its children's names; any other root is the one child of such an AND. A literal is its own
 * name, and every other operator has a new existential variable as its name, innermost, in preorder the smallest numbers that the prefix
 * hasn't, with the clauses that the name implies the operator of its children's names. Accepted: the sheet's length in HIGH. Refused (1 to
 * 8; 18 fewer unused numbers are left than names; 13 the sheet doesn't fit the output or the format): no byte of the output changes. The two
 * may not overlap. The second function is for wide sheets. */
uint64_t plumanchor_clauses(const uint8_t *sheet, size_t length, uint8_t *output, size_t room);
uint64_t plumanchor_clauses_wide(const uint8_t *sheet, size_t length, uint8_t *output, size_t room);

/* Decide: runs of Solve, at most so many as the budget; where one stops, both halves of the sheet that it reached, by its first variable,
 * value 0 first. One half waits on the stack, in a place as long as the shorter of the two work buffers: there are as many places as the
 * stack has room for, and more than V never change anything. Accepted: WORD is 1 for true, 0 for false, 2 where no place was left and 3
 * where the budget was spent, and HIGH is the number of runs (a budget above 4,294,967,295 is taken as that). All three buffers then hold
 * zeros. Refused (1 to 8; 13 a work buffer is shorter than the sheet): no byte changes. None of the four may overlap. The second function is
 * for wide sheets. */
uint64_t plumanchor_decide(const uint8_t *sheet, size_t length, size_t budget, uint8_t *first, size_t first_room, uint8_t *second,
                           size_t second_room, uint8_t *stack, size_t stack_room);
uint64_t plumanchor_decide_wide(const uint8_t *sheet, size_t length, size_t budget, uint8_t *first, size_t first_room,
                                uint8_t *second, size_t second_room, uint8_t *stack, size_t stack_room);

/* Split: the sheet under values, a byte each, for the first variables of the prefix, whose rows go, to the front of the output, zeros behind
 * it. It isn't tidied. Accepted: its length in HIGH. Refused (1 to 8; 21 a value isn't 0 or 1; 22 there are more than V; 13 the output is
 * shorter than that sheet): no byte of the output changes. None of the three may overlap. The second function is for wide sheets. */
uint64_t plumanchor_split(const uint8_t *sheet, size_t length, const uint8_t *values, size_t count, uint8_t *output, size_t room);
uint64_t plumanchor_split_wide(const uint8_t *sheet, size_t length, const uint8_t *values, size_t count, uint8_t *output,
                               size_t room);

/* Join: what is known of the verdict from an answer for each list of values of the first k variables, a byte each, those of lists that
 * begin with 0 first. Accepted: WORD is 1 for true, 0 for false and 2 for unknown. It is right if each answer but 2 is that of the sheet
 * which Split makes with those values. Refused: 1 to 8; 22 k is more than V; 28 the answers are not 2 to the power k; 29 one is above 2.
 * Nothing is written. The second function is for wide sheets. */
uint64_t plumanchor_join(const uint8_t *sheet, size_t length, size_t k, const uint8_t *answers, size_t count);
uint64_t plumanchor_join_wide(const uint8_t *sheet, size_t length, size_t k, const uint8_t *answers, size_t count);

/* QDIMACS in (N1): the sheet that a QDIMACS 1.1 text of any length says, to the front of the output, zeros behind it. Accepted: the
 * sheet's length in HIGH. Refused, with place 0 and each of the whole text before the next: 15 the header; 16 what stands below it isn't
 * lists of whole numbers ended by 0, or a quantifier list holds a negative number or comes after a clause; 17 a variable above the
 * header's count, or not as many clauses as it says; 6 bound twice; 2 too many nodes; 13 an output shorter than the sheet. No byte of the
 * output changes then. The two may not overlap. The second function writes a wide sheet. */
uint64_t plumanchor_qdimacs(const uint8_t *text, size_t length, uint8_t *output, size_t room);
uint64_t plumanchor_qdimacs_wide(const uint8_t *text, size_t length, uint8_t *output, size_t room);

/* Answers taken apart. Every struct begins with the refusal, 0 or a number of enum plumanchor_refusal, and its place; both are 0 if the call
 * was accepted, and all else is 0 if it was refused. */

/* Check. */
typedef struct plumanchor_sizes {
    unsigned refusal;
    unsigned place;
    unsigned variables;
    uint32_t nodes;
} plumanchor_sizes;

static inline plumanchor_sizes plumanchor_unpack_sizes(uint64_t answer) {
    plumanchor_sizes sizes = {PLUMANCHOR_NUMBER(answer), 0, 0, 0};
    if (sizes.refusal != 0) {
        sizes.place = PLUMANCHOR_LOW(answer);
        return sizes;
    }
    sizes.variables = PLUMANCHOR_LOW(answer);
    sizes.nodes = PLUMANCHOR_HIGH(answer);
    return sizes;
}

/* Trial. */
typedef struct plumanchor_tried {
    unsigned refusal;
    unsigned place;
    enum plumanchor_verdict verdict; /* true or false */
    uint32_t leaves;
} plumanchor_tried;

static inline plumanchor_tried plumanchor_unpack_tried(uint64_t answer) {
    plumanchor_tried tried = {PLUMANCHOR_NUMBER(answer), 0, PLUMANCHOR_FALSE, 0};
    if (tried.refusal != 0) {
        tried.place = PLUMANCHOR_LOW(answer);
        return tried;
    }
    tried.verdict = PLUMANCHOR_WORD(answer) == PLUMANCHOR_TRUE ? PLUMANCHOR_TRUE : PLUMANCHOR_FALSE;
    tried.leaves = PLUMANCHOR_HIGH(answer);
    return tried;
}

/* Tidy, Settle, Expand, Execute, Reduce, Sort, Steps, both conversions, QDIMACS, Response, Clauses and Split: the length of the sheet
 * written. */
typedef struct plumanchor_written {
    unsigned refusal;
    unsigned place;
    uint32_t length;
} plumanchor_written;

static inline plumanchor_written plumanchor_unpack_written(uint64_t answer) {
    plumanchor_written written = {PLUMANCHOR_NUMBER(answer), 0, 0};
    if (written.refusal != 0) {
        written.place = PLUMANCHOR_LOW(answer);
        return written;
    }
    written.length = PLUMANCHOR_HIGH(answer);
    return written;
}

/* Quote: the raw sheet's node rows. */
typedef struct plumanchor_quoted {
    unsigned refusal;
    unsigned place;
    uint32_t rows;
} plumanchor_quoted;

static inline plumanchor_quoted plumanchor_unpack_quoted(uint64_t answer) {
    plumanchor_quoted quoted = {PLUMANCHOR_NUMBER(answer), 0, 0};
    if (quoted.refusal != 0) {
        quoted.place = PLUMANCHOR_LOW(answer);
        return quoted;
    }
    quoted.rows = PLUMANCHOR_HIGH(answer);
    return quoted;
}

/* Outer: the length of the sheet written, how many variables are copied, and the lowest of their old numbers, 0 if none. */
typedef struct plumanchor_copied {
    unsigned refusal;
    unsigned place;
    unsigned length;
    unsigned copied;
    unsigned lowest;
} plumanchor_copied;

static inline plumanchor_copied plumanchor_unpack_copied(uint64_t answer) {
    plumanchor_copied copied = {PLUMANCHOR_NUMBER(answer), 0, 0, 0, 0};
    if (copied.refusal != 0) {
        copied.place = PLUMANCHOR_LOW(answer);
        return copied;
    }
    copied.length = PLUMANCHOR_LOW(answer);
    copied.copied = PLUMANCHOR_HIGH(answer) & 0xffff;
    copied.lowest = PLUMANCHOR_HIGH(answer) >> 16;
    return copied;
}

/* Solve and Resume. The variable is the one that a run stopped at, 0 with a verdict. */
typedef struct plumanchor_solved {
    unsigned refusal;
    unsigned place;
    enum plumanchor_verdict verdict;
    unsigned variable;
    size_t settled;
    size_t expanded;
} plumanchor_solved;

static inline plumanchor_solved plumanchor_unpack_solved(uint64_t answer) {
    plumanchor_solved solved = {PLUMANCHOR_NUMBER(answer), 0, PLUMANCHOR_FALSE, 0, 0, 0};
    if (solved.refusal != 0) {
        solved.place = PLUMANCHOR_LOW(answer);
        return solved;
    }
    if (PLUMANCHOR_WORD(answer) == PLUMANCHOR_STOPPED) {
        solved.verdict = PLUMANCHOR_STOPPED;
        solved.variable = PLUMANCHOR_HIGH(answer) >> 16;
    } else if (PLUMANCHOR_WORD(answer) == PLUMANCHOR_TRUE) {
        solved.verdict = PLUMANCHOR_TRUE;
    }
    solved.settled = PLUMANCHOR_LOW(answer);
    solved.expanded = PLUMANCHOR_HIGH(answer) & 0xffff;
    return solved;
}

/* Resume's whole count, from the one given to it and from its lower 16 bits in the answer. */
static inline size_t plumanchor_whole_count(size_t given, size_t lower) {
    return given + ((lower & 0xffff) + 65536 - (given & 0xffff)) % 65536;
}

/* Resume, with the counts that were given to it: the same with whole counts. */
static inline plumanchor_solved plumanchor_unpack_resumed(uint64_t answer, size_t settled, size_t expanded) {
    plumanchor_solved solved = plumanchor_unpack_solved(answer);
    if (solved.refusal == 0) {
        solved.settled = plumanchor_whole_count(settled, solved.settled);
        solved.expanded = plumanchor_whole_count(expanded, solved.expanded);
    }
    return solved;
}

/* Guards. False: the length of the sheet of the children kept, and how many runs stopped. True or stopped: counts and variable of the run
 * on the whole sheet, as Solve has them. */
typedef struct plumanchor_guarded {
    unsigned refusal;
    unsigned place;
    enum plumanchor_verdict verdict;
    uint32_t length;
    unsigned stops;
    unsigned variable;
    unsigned settled;
    unsigned expanded;
} plumanchor_guarded;

static inline plumanchor_guarded plumanchor_unpack_guarded(uint64_t answer) {
    plumanchor_guarded guarded = {PLUMANCHOR_NUMBER(answer), 0, PLUMANCHOR_FALSE, 0, 0, 0, 0, 0};
    if (guarded.refusal != 0) {
        guarded.place = PLUMANCHOR_LOW(answer);
        return guarded;
    }
    if (PLUMANCHOR_WORD(answer) != PLUMANCHOR_TRUE && PLUMANCHOR_WORD(answer) != PLUMANCHOR_STOPPED) {
        guarded.length = PLUMANCHOR_HIGH(answer);
        guarded.stops = PLUMANCHOR_LOW(answer);
        return guarded;
    }
    guarded.verdict = PLUMANCHOR_TRUE;
    if (PLUMANCHOR_WORD(answer) == PLUMANCHOR_STOPPED) {
        guarded.verdict = PLUMANCHOR_STOPPED;
        guarded.variable = PLUMANCHOR_HIGH(answer) >> 16;
    }
    guarded.settled = PLUMANCHOR_LOW(answer);
    guarded.expanded = PLUMANCHOR_HIGH(answer) & 0xffff;
    return guarded;
}

/* Force. The turn is PLUMANCHOR_EXISTS or PLUMANCHOR_FOR_ALL, 0 if refused; the variable is the one that a value's run stopped at, 0 with
 * a known outcome. */
typedef struct plumanchor_forced {
    unsigned refusal;
    unsigned place;
    unsigned turn;
    enum plumanchor_outcome outcome;
    uint32_t variable;
} plumanchor_forced;

static inline plumanchor_forced plumanchor_unpack_forced(uint64_t answer) {
    plumanchor_forced forced = {PLUMANCHOR_NUMBER(answer), 0, 0, PLUMANCHOR_WITH_NEITHER, 0};
    if (forced.refusal != 0) {
        forced.place = PLUMANCHOR_LOW(answer);
        return forced;
    }
    forced.turn = PLUMANCHOR_LOW(answer) == PLUMANCHOR_EXISTS ? PLUMANCHOR_EXISTS : PLUMANCHOR_FOR_ALL;
    switch (PLUMANCHOR_WORD(answer)) {
    case PLUMANCHOR_WITH_NEITHER:
        break;
    case PLUMANCHOR_WITH_0:
        forced.outcome = PLUMANCHOR_WITH_0;
        break;
    case PLUMANCHOR_WITH_1:
        forced.outcome = PLUMANCHOR_WITH_1;
        break;
    case PLUMANCHOR_WITH_BOTH:
        forced.outcome = PLUMANCHOR_WITH_BOTH;
        break;
    default:
        forced.outcome = PLUMANCHOR_FORCE_STOPPED;
        forced.variable = PLUMANCHOR_HIGH(answer);
    }
    return forced;
}

/* Compare. Refused: which of the two sheets is at fault, 1 or 2. */
typedef struct plumanchor_compared {
    unsigned refusal;
    unsigned place;
    unsigned sheet;
    enum plumanchor_order order;
} plumanchor_compared;

static inline plumanchor_compared plumanchor_unpack_compared(uint64_t answer) {
    plumanchor_compared compared = {PLUMANCHOR_NUMBER(answer), 0, 0, PLUMANCHOR_BEFORE};
    if (compared.refusal != 0) {
        compared.place = PLUMANCHOR_LOW(answer);
        compared.sheet = PLUMANCHOR_WORD(answer);
        return compared;
    }
    if (PLUMANCHOR_WORD(answer) != PLUMANCHOR_BEFORE) {
        compared.order = PLUMANCHOR_WORD(answer) == PLUMANCHOR_EQUAL ? PLUMANCHOR_EQUAL : PLUMANCHOR_AFTER;
    }
    return compared;
}

/* Strategy. The variable is the one that the run stopped at, else 0; the length is that of the strategy's sheet if it is written, and the
 * rows are its node rows if it is too long, else 0. */
typedef struct plumanchor_planned {
    unsigned refusal;
    unsigned place;
    enum plumanchor_verdict verdict;
    unsigned settled;
    unsigned expanded;
    unsigned variable;
    uint32_t length;
    uint32_t rows;
} plumanchor_planned;

static inline plumanchor_planned plumanchor_unpack_planned(uint64_t answer) {
    plumanchor_planned planned = {PLUMANCHOR_NUMBER(answer), 0, PLUMANCHOR_FALSE, 0, 0, 0, 0, 0};
    if (planned.refusal != 0) {
        planned.place = PLUMANCHOR_LOW(answer);
        return planned;
    }
    planned.settled = PLUMANCHOR_SETTLED(answer);
    planned.expanded = PLUMANCHOR_EXPANDED(answer);
    switch (PLUMANCHOR_WORD(answer)) {
    case PLUMANCHOR_TRUE_WRITTEN:
        planned.verdict = PLUMANCHOR_TRUE;
        planned.length = PLUMANCHOR_LAST(answer);
        break;
    case PLUMANCHOR_FALSE_WRITTEN:
        planned.length = PLUMANCHOR_LAST(answer);
        break;
    case PLUMANCHOR_STRATEGY_STOPPED:
        planned.verdict = PLUMANCHOR_STOPPED;
        planned.variable = PLUMANCHOR_LAST(answer);
        break;
    case PLUMANCHOR_TRUE_TOO_LONG:
        planned.verdict = PLUMANCHOR_TRUE;
        planned.rows = PLUMANCHOR_LAST(answer);
        break;
    default:
        planned.rows = PLUMANCHOR_LAST(answer);
    }
    return planned;
}

/* Claim: the length of the claim's sheet. Refused: what is at fault. */
typedef struct plumanchor_claimed {
    unsigned refusal;
    unsigned place;
    enum plumanchor_claim_part at;
    uint32_t length;
} plumanchor_claimed;

static inline plumanchor_claimed plumanchor_unpack_claimed(uint64_t answer) {
    plumanchor_claimed claimed = {PLUMANCHOR_NUMBER(answer), 0, PLUMANCHOR_OF_OUTPUT, 0};
    if (claimed.refusal != 0) {
        claimed.place = PLUMANCHOR_LOW(answer);
        if (PLUMANCHOR_WORD(answer) == PLUMANCHOR_OF_SHEET) {
            claimed.at = PLUMANCHOR_OF_SHEET;
        } else if (PLUMANCHOR_WORD(answer) == PLUMANCHOR_OF_STRATEGY) {
            claimed.at = PLUMANCHOR_OF_STRATEGY;
        }
        return claimed;
    }
    claimed.length = PLUMANCHOR_HIGH(answer);
    return claimed;
}

/* Certify. The step is the first that isn't valid, or the number of steps, where nothing is shown, and else 0. */
typedef struct plumanchor_certified {
    unsigned refusal;
    unsigned place;
    enum plumanchor_known verdict;
    uint32_t step;
} plumanchor_certified;

static inline plumanchor_certified plumanchor_unpack_certified(uint64_t answer) {
    plumanchor_certified certified = {PLUMANCHOR_NUMBER(answer), 0, PLUMANCHOR_KNOWN_FALSE, 0};
    if (certified.refusal != 0) {
        certified.place = PLUMANCHOR_LOW(answer);
        return certified;
    }
    if (PLUMANCHOR_WORD(answer) == PLUMANCHOR_UNKNOWN) {
        certified.verdict = PLUMANCHOR_UNKNOWN;
        certified.step = PLUMANCHOR_HIGH(answer);
    } else if (PLUMANCHOR_WORD(answer) == PLUMANCHOR_KNOWN_TRUE) {
        certified.verdict = PLUMANCHOR_KNOWN_TRUE;
    }
    return certified;
}

/* Decide. */
typedef struct plumanchor_decided {
    unsigned refusal;
    unsigned place;
    enum plumanchor_decision decision;
    uint32_t runs;
} plumanchor_decided;

static inline plumanchor_decided plumanchor_unpack_decided(uint64_t answer) {
    plumanchor_decided decided = {PLUMANCHOR_NUMBER(answer), 0, PLUMANCHOR_DECIDED_FALSE, 0};
    if (decided.refusal != 0) {
        decided.place = PLUMANCHOR_LOW(answer);
        return decided;
    }
    switch (PLUMANCHOR_WORD(answer)) {
    case PLUMANCHOR_DECIDED_TRUE:
        decided.decision = PLUMANCHOR_DECIDED_TRUE;
        break;
    case PLUMANCHOR_NO_PLACE:
        decided.decision = PLUMANCHOR_NO_PLACE;
        break;
    case PLUMANCHOR_SPENT:
        decided.decision = PLUMANCHOR_SPENT;
        break;
    default:
        break;
    }
    decided.runs = PLUMANCHOR_HIGH(answer);
    return decided;
}

/* Join. */
typedef struct plumanchor_joined {
    unsigned refusal;
    unsigned place;
    enum plumanchor_known verdict;
} plumanchor_joined;

static inline plumanchor_joined plumanchor_unpack_joined(uint64_t answer) {
    plumanchor_joined joined = {PLUMANCHOR_NUMBER(answer), 0, PLUMANCHOR_KNOWN_FALSE};
    if (joined.refusal != 0) {
        joined.place = PLUMANCHOR_LOW(answer);
        return joined;
    }
    if (PLUMANCHOR_WORD(answer) == PLUMANCHOR_UNKNOWN) {
        joined.verdict = PLUMANCHOR_UNKNOWN;
    } else if (PLUMANCHOR_WORD(answer) == PLUMANCHOR_KNOWN_TRUE) {
        joined.verdict = PLUMANCHOR_KNOWN_TRUE;
    }
    return joined;
}

/* What a refusal number means, in words. */
static inline const char *plumanchor_refusal_text(unsigned refusal) {
    switch (refusal) {
    case PLUMANCHOR_ACCEPTED:
        return "accepted";
    case PLUMANCHOR_TOO_SHORT:
        return "the sheet is shorter than its two sizes";
    case PLUMANCHOR_SIZE_OUTSIDE:
        return "a size is outside its limits";
    case PLUMANCHOR_WRONG_LENGTH:
        return "the sheet's length is not that of its sizes";
    case PLUMANCHOR_BAD_KIND:
        return "the row's kind is none that may stand there";
    case PLUMANCHOR_BAD_NUMBER:
        return "the quantifier's number is outside its limits";
    case PLUMANCHOR_BOUND_TWICE:
        return "a number is bound twice";
    case PLUMANCHOR_UNBOUND:
        return "the literal's variable is not bound";
    case PLUMANCHOR_NOT_ONE_TREE:
        return "the rows are not one tree";
    case PLUMANCHOR_NOT_TIDY:
        return "the sheet is not tidy";
    case PLUMANCHOR_NOT_IN_PREFIX:
        return "the variable is not in the prefix";
    case PLUMANCHOR_WRONG_BLOCK:
        return "the variable is not in the innermost block, or not universal and one block out";
    case PLUMANCHOR_NOT_SETTLED:
        return "the variable may not be settled";
    case PLUMANCHOR_NO_ROOM:
        return "a buffer has too little room, or the sheet would be above its limits";
    case PLUMANCHOR_TOO_MANY_TO_TRY:
        return "the sheet has more than 20 variables";
    case PLUMANCHOR_BAD_HEADER:
        return "the text has no header of 'p cnf' and two numbers, the first within the sheet's limits";
    case PLUMANCHOR_BAD_LISTS:
        return "the text is not lists of whole numbers ended by 0, quantified ones in front";
    case PLUMANCHOR_BEYOND_HEADER:
        return "a variable is above the header's count, or the clauses are not as many as it says";
    case PLUMANCHOR_NO_NUMBERS_LEFT:
        return "fewer unused numbers are left than new variables";
    case PLUMANCHOR_ABOVE_CEILING:
        return "the raw rows are above the ceiling";
    case PLUMANCHOR_NO_CLAUSES:
        return "the tree is not AND of literals and of ORs of literals";
    case PLUMANCHOR_BAD_VALUE:
        return "a value is neither 0 nor 1";
    case PLUMANCHOR_TOO_MANY_VALUES:
        return "there are too many values for the sheet's variables";
    case PLUMANCHOR_ROOT_NOT_AND:
        return "the root is not AND";
    case PLUMANCHOR_NOT_NARROW:
        return "a size or a variable's number is above the narrow limits";
    case PLUMANCHOR_WRONG_COUNTS:
        return "settled, expanded and variables left don't add up to the starting count";
    case PLUMANCHOR_NOT_A_STRATEGY:
        return "the second sheet is no strategy of that side over the first sheet's prefix";
    case PLUMANCHOR_READS_BEYOND:
        return "the function of the pair in the row reads what it may not";
    case PLUMANCHOR_WRONG_ANSWERS:
        return "there are not as many answers as lists of values";
    case PLUMANCHOR_BAD_ANSWER:
        return "an answer is neither 0 nor 1 nor 2";
    default:
        return "a refusal that this version has no words for";
    }
}

#ifdef __cplusplus
}
#endif

#endif
