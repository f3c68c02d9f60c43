/* Solves the wide sheet in a file and writes the program's line. In C or in C++, once Plumanchor is installed:
 *
 *     cc solve.c $(pkg-config --cflags --libs plumanchor) -o solve && ./solve press-line.sheet
 */
#include <plumanchor.h>
#include <stdio.h>

static uint8_t sheet[PLUMANCHOR_WIDE_LONGEST + 1], first[PLUMANCHOR_WIDE_LONGEST], second[PLUMANCHOR_WIDE_LONGEST];

int main(int count, char **arguments) {
    static const char *const verdicts[] = {"false", "true", "stopped"};
    FILE *file = count == 2 ? fopen(arguments[1], "rb") : NULL;
    if (file == NULL) {
        fputs("Usage: solve SHEET\n", stderr);
        return 2;
    }
    /* A byte more than the longest sheet has: one that is too long is refused as such. */
    size_t length = fread(sheet, 1, sizeof sheet, file);
    fclose(file);
    plumanchor_solved solved =
        plumanchor_unpack_solved(plumanchor_solve_wide(sheet, length, first, sizeof first, second, sizeof second));
    if (solved.refusal != PLUMANCHOR_ACCEPTED) {
        fprintf(stderr, "refused %u: %s\n", solved.refusal, plumanchor_refusal_text(solved.refusal));
        return 1;
    }
    printf("%s %lu %lu %u\n", verdicts[solved.verdict], (unsigned long)solved.settled, (unsigned long)solved.expanded,
           solved.variable);
    return 0;
}
