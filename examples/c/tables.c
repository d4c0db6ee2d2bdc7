/* Holds teakpool_tables.h against recorded values of ln gamma and digamma, and all its bits against a recorded hash. The file named
 * on the command line has both; the Rust crate is held against the same file. */
#include "teakpool_tables.h"
#include "bytes.h"

#include <stdlib.h>
#include <string.h>

static double g[TEAKPOOL_MAX_TABLE], d[TEAKPOOL_MAX_TABLE];

static uint64_t bits(double value)
{
    uint64_t word;
    memcpy(&word, &value, sizeof word);
    return word;
}

/* A recorded value is read correctly rounded, so that a neighbour of it is less than 2 units in the last place from the true one. */
static int is_close(double value, double recorded)
{
    return bits(value) + 1 - bits(recorded) <= 2;
}

static uint64_t hash_on(uint64_t hash, const double *table)
{
    for (size_t k = 0; k < TEAKPOOL_MAX_TABLE; k++) {
        hash = (hash ^ bits(table[k])) * 1099511628211u;
    }
    return hash;
}

static void hold_against(FILE *recorded)
{
    char line[256], first[64], second[64], third[64];
    int values = 0, hashes = 0;
    while (fgets(line, sizeof line, recorded) != NULL) {
        int words = sscanf(line, "%63s %63s %63s", first, second, third);
        if (words == 2 && strcmp(first, "hash") == 0) {
            hashes++;
            expect(hash_on(hash_on(14695981039346656037u, g), d) == strtoull(second, NULL, 16), "the hash of all bits");
        } else if (words == 3 && first[0] != '#') {
            size_t k = strtoul(first, NULL, 10);
            values++;
            if (k == 0 || k >= TEAKPOOL_MAX_TABLE || !is_close(g[k], strtod(second, NULL)) ||
                !is_close(d[k], strtod(third, NULL))) {
                printf("not as expected: at %s: %.17g and %.17g\n", first, g[k], d[k]);
                failures++;
            }
        }
    }
    expect(values > 20 && hashes == 1, "the file has values and one hash");
}

int main(int count, char **words)
{
    FILE *recorded = count == 2 ? fopen(words[1], "r") : NULL;
    if (recorded == NULL) {
        printf("tables: the file of recorded values is to be named\n");
        return 1;
    }
    struct teakpool_tables tables = teakpool_gamma_tables(g, d, TEAKPOOL_MAX_TABLE);
    expect(tables.g.at == g && tables.d.at == d && tables.g.length == TEAKPOOL_MAX_TABLE, "the tables are those that were filled");
    expect(teakpool_tables_check(tables) == TEAKPOOL_DONE, "tables keep their rules");
    hold_against(recorded);
    fclose(recorded);
    double two[2] = {7.0, 7.0}, past[2] = {7.0, 7.0};
    tables = teakpool_gamma_tables(two, past, 1);
    expect(two[0] == 0.0 && past[0] == 0.0 && two[1] == 7.0 && past[1] == 7.0, "nothing is written past the length");
    expect(teakpool_tables_check(tables) == TEAKPOOL_TABLE_LENGTHS, "tables of one entry");
    expect(teakpool_tables_check(teakpool_gamma_tables(NULL, NULL, 0)) == TEAKPOOL_TABLE_LENGTHS, "tables of none");
    expect(teakpool_tables_check(teakpool_gamma_tables(NULL, two, 2)) == TEAKPOOL_TABLE_LENGTHS, "no table of ln gamma");
    expect(teakpool_tables_check(teakpool_gamma_tables(two, NULL, 2)) == TEAKPOOL_TABLE_LENGTHS, "no table of digamma");
    expect(two[0] == 0.0 && two[1] == 7.0, "nothing is written where one of the two is missing");
    if (failures == 0) {
        printf("tables: ln gamma and digamma are the recorded ones\n");
    }
    return failures == 0 ? 0 : 1;
}
