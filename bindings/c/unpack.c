/* For the tests: what the header's functions make of packed answers. Each line of standard input is an answer and two counts, in hexadecimal;
 * each line of standard output has all structs. With an argument: the header's constants and words instead. */
#include <inttypes.h>
#include <plumanchor.h>
#include <stdio.h>

static void constants(void) {
    unsigned refusal;
    printf("version %s %d %d %d %d\n", PLUMANCHOR_VERSION, PLUMANCHOR_VERSION_MAJOR, PLUMANCHOR_VERSION_MINOR,
           PLUMANCHOR_VERSION_PATCH, PLUMANCHOR_VERSION_NUMBER);
    printf("narrow %d %d %d %d %d %d\n", PLUMANCHOR_NARROW_WIDTH, PLUMANCHOR_NARROW_VARIABLES, PLUMANCHOR_NARROW_NODES,
           PLUMANCHOR_NARROW_HEADER, PLUMANCHOR_NARROW_ROW, PLUMANCHOR_NARROW_LONGEST);
    printf("wide %d %d %d %d %d %d\n", PLUMANCHOR_WIDE_WIDTH, PLUMANCHOR_WIDE_VARIABLES, PLUMANCHOR_WIDE_NODES,
           PLUMANCHOR_WIDE_HEADER, PLUMANCHOR_WIDE_ROW, PLUMANCHOR_WIDE_LONGEST);
    printf("trial %d\n", PLUMANCHOR_TRIAL_VARIABLES);
    printf("steps %d %d\n", PLUMANCHOR_SETTLE, PLUMANCHOR_EXPAND);
    for (refusal = 0; refusal < 256; refusal++)
        printf("%u %s\n", refusal, plumanchor_refusal_text(refusal));
}

static void unpack(uint64_t answer, size_t settled, size_t expanded) {
    plumanchor_sizes sizes = plumanchor_unpack_sizes(answer);
    plumanchor_tried tried = plumanchor_unpack_tried(answer);
    plumanchor_written written = plumanchor_unpack_written(answer);
    plumanchor_quoted quoted = plumanchor_unpack_quoted(answer);
    plumanchor_copied copied = plumanchor_unpack_copied(answer);
    plumanchor_solved solved = plumanchor_unpack_solved(answer);
    plumanchor_solved resumed = plumanchor_unpack_resumed(answer, settled, expanded);
    plumanchor_guarded guarded = plumanchor_unpack_guarded(answer);
    plumanchor_forced forced = plumanchor_unpack_forced(answer);
    plumanchor_compared compared = plumanchor_unpack_compared(answer);
    plumanchor_planned planned = plumanchor_unpack_planned(answer);
    plumanchor_claimed claimed = plumanchor_unpack_claimed(answer);
    plumanchor_certified certified = plumanchor_unpack_certified(answer);
    plumanchor_decided decided = plumanchor_unpack_decided(answer);
    plumanchor_joined joined = plumanchor_unpack_joined(answer);
    printf("sizes %u %u %u %" PRIu32, sizes.refusal, sizes.place, sizes.variables, sizes.nodes);
    printf(" tried %u %u %d %" PRIu32, tried.refusal, tried.place, (int)tried.verdict, tried.leaves);
    printf(" written %u %u %" PRIu32, written.refusal, written.place, written.length);
    printf(" quoted %u %u %" PRIu32, quoted.refusal, quoted.place, quoted.rows);
    printf(" copied %u %u %u %u %u", copied.refusal, copied.place, copied.length, copied.copied, copied.lowest);
    printf(" solved %u %u %d %u %zu %zu", solved.refusal, solved.place, (int)solved.verdict, solved.variable, solved.settled,
           solved.expanded);
    printf(" resumed %u %u %d %u %zu %zu", resumed.refusal, resumed.place, (int)resumed.verdict, resumed.variable,
           resumed.settled, resumed.expanded);
    printf(" guarded %u %u %d %" PRIu32 " %u %u %u %u", guarded.refusal, guarded.place, (int)guarded.verdict, guarded.length,
           guarded.stops, guarded.variable, guarded.settled, guarded.expanded);
    printf(" forced %u %u %u %d %" PRIu32, forced.refusal, forced.place, forced.turn, (int)forced.outcome, forced.variable);
    printf(" compared %u %u %u %d", compared.refusal, compared.place, compared.sheet, (int)compared.order);
    printf(" planned %u %u %d %u %u %u %" PRIu32 " %" PRIu32, planned.refusal, planned.place, (int)planned.verdict,
           planned.settled, planned.expanded, planned.variable, planned.length, planned.rows);
    printf(" claimed %u %u %d %" PRIu32, claimed.refusal, claimed.place, (int)claimed.at, claimed.length);
    printf(" certified %u %u %d %" PRIu32, certified.refusal, certified.place, (int)certified.verdict, certified.step);
    printf(" decided %u %u %d %" PRIu32, decided.refusal, decided.place, (int)decided.decision, decided.runs);
    printf(" joined %u %u %d\n", joined.refusal, joined.place, (int)joined.verdict);
}

int main(int count, char **arguments) {
    uint64_t answer, settled, expanded;
    (void)arguments;
    if (count > 1) {
        constants();
        return 0;
    }
    while (scanf("%" SCNx64 " %" SCNx64 " %" SCNx64, &answer, &settled, &expanded) == 3)
        unpack(answer, (size_t)settled, (size_t)expanded);
    return 0;
}
