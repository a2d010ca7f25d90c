/* The options, known here alone. With ALONE defined this is a program that needs no library: it prints the help or tells what is
 * wrong, and ends with status 1 or 2; or with 0 if the options are good. */
#include "options.h"

#include <errno.h>
#include <inttypes.h>
#include <stdio.h>
#include <stdlib.h>
#include <string.h>

enum { TAKEN = 0, HELP = 1, WRONG = 2, MOST_OPERATIONS = 1000000 };

/* Zero moves and no number of operations stand for what goes with other options. */
static const struct options usual = {1, 0, 16, 16, 512, 0, UINT32_MAX, 2, 0, 100000, 0, 0};

static void print_help(void)
{
    printf("Moves random pages, but for some that are pinned and some that are dropped, on a flash chip in memory whose power fails again\n"
           "and again, and compares every page.\n"
           "\n"
           "  --seed N         the same seed gives the same run, 0 to %" PRIu64 " (1)\n"
           "  --moves N        moves to make, each on a chip that is filled anew, 1 to 1000 (1; with --raw 20)\n"
           "  --blocks N       data blocks, 1 to 64 (16)\n"
           "  --pages N        pages a block, 1 to 64 (16)\n"
           "  --page-bytes N   bytes a page, 1 to 4096 (512)\n"
           "  --letter N       the mark of the data blocks before the first move, 0, 1 or 2 (0)\n"
           "  --cut-within N   the power fails within so many chip operations: 2 x pages + 3 or more, or no block would ever be\n"
           "                   done, to %d; or 0 for never (4 x pages + 4)\n"
           "  --tears KIND     what a cut leaves: 'rude', bits that changed in any order, as on a real chip; or 'plain', pages whose\n"
           "                   marks are no letters, which is what the library asks for (rude)\n"
           "  --raw            marks are bare bytes, without code words and checksums (docs/CHIPS.md): rude tears then lose pages\n"
           "  --wear N         erases that each block has had before, 0 to %" PRIu32 " (0)\n"
           "  --limit N        erases that a block stands: where a move would take one past it, no move is begun any more, 0 to\n"
           "                   %" PRIu32 " (100000)\n"
           "  --pause N        milliseconds after each step on a terminal, 0 to 999 (2)\n"
           "  --help           this text\n"
           "\n"
           "Ends with status 0 if every page of every move was right, with 1 if not, with 2 if an option is wrong, and with 3 if the module\n"
           "is worn.\n",
           UINT64_MAX, MOST_OPERATIONS, UINT32_MAX, UINT32_MAX);
}

/* Tells what an option takes and what it got, which may be nothing. */
static int refuse(const char *name, const char *takes, const char *given)
{
    fprintf(stderr, "demo: %s takes %s", name, takes);
    if (given == NULL)
        fprintf(stderr, ", and nothing follows it");
    else
        fprintf(stderr, ", not '%s'", given);
    fprintf(stderr, " (./demo --help lists the options)\n");
    return WRONG;
}

/* The number that follows an option, in decimal digits and within its range. */
static int take_number(const char *name, const char *text, uint64_t low, uint64_t high, uint64_t *number)
{
    char takes[80];
    errno = 0;
    if (text != NULL && *text != '\0' && text[strspn(text, "0123456789")] == '\0') {
        *number = strtoull(text, NULL, 10);
        if (errno == 0 && low <= *number && *number <= high)
            return TAKEN;
    }
    snprintf(takes, sizeof takes, "a number from %" PRIu64 " to %" PRIu64, low, high);
    return refuse(name, takes, text);
}

static int take_tears(struct options *o, const char *text)
{
    if (text == NULL || (strcmp(text, "plain") != 0 && strcmp(text, "rude") != 0))
        return refuse("--tears", "'rude' or 'plain'", text);
    o->plain = strcmp(text, "plain") == 0;
    return TAKEN;
}

/* An option that something follows. */
static int take_pair(struct options *o, const char *name, const char *text)
{
    const struct {
        const char *name;
        uint32_t low, high, *value;
    } known[] = {
        {"--moves", 1, 1000, &o->moves},
        {"--blocks", 1, 64, &o->blocks},
        {"--pages", 1, 64, &o->pages},
        {"--page-bytes", 1, 4096, &o->page_bytes},
        {"--letter", 0, 2, &o->letter},
        {"--cut-within", 0, MOST_OPERATIONS, &o->cut_within},
        {"--pause", 0, 999, &o->pause},
        {"--wear", 0, UINT32_MAX, &o->wear},
        {"--limit", 0, UINT32_MAX, &o->limit},
    };
    if (strcmp(name, "--tears") == 0)
        return take_tears(o, text);
    if (strcmp(name, "--seed") == 0)
        return take_number(name, text, 0, UINT64_MAX, &o->seed);
    for (size_t i = 0; i < sizeof known / sizeof *known; i++) {
        uint64_t number = 0;
        int status;
        if (strcmp(name, known[i].name) != 0)
            continue;
        status = take_number(name, text, known[i].low, known[i].high, &number);
        *known[i].value = (uint32_t)number;
        return status;
    }
    fprintf(stderr, "demo: there is no option '%s' (./demo --help lists the options)\n", name);
    return WRONG;
}

/* What goes with other options, which may be given later. */
static int take_rest(struct options *o)
{
    uint32_t least = 2 * o->pages + 3;
    char takes[80], given[24];
    if (o->moves == usual.moves)
        o->moves = o->raw ? 20 : 1;
    if (o->cut_within == usual.cut_within)
        o->cut_within = 4 * o->pages + 4;
    if (o->cut_within == 0 || o->cut_within >= least)
        return TAKEN;
    snprintf(takes, sizeof takes, "0 or, with %" PRIu32 " page%s a block, a number from %" PRIu32 " to %d", o->pages,
             o->pages == 1 ? "" : "s", least, MOST_OPERATIONS);
    snprintf(given, sizeof given, "%" PRIu32, o->cut_within);
    return refuse("--cut-within", takes, given);
}

int take_options(struct options *o, int count, char **words)
{
    int status = TAKEN;
    *o = usual;
    for (int i = 1; i < count; i++)
        if (strcmp(words[i], "--help") == 0 || strcmp(words[i], "-h") == 0) {
            print_help();
            return HELP;
        }
    for (int i = 1; i < count && status == TAKEN; i++) {
        if (strcmp(words[i], "--raw") == 0) {
            o->raw = 1;
        } else {
            status = take_pair(o, words[i], i + 1 < count ? words[i + 1] : NULL);
            i++;
        }
    }
    return status == TAKEN ? take_rest(o) : status;
}

#ifdef ALONE
int main(int count, char **words)
{
    struct options options;
    return take_options(&options, count, words);
}
#endif
