/* streams SHAPE MACHINES LINKS FORM PLANS: prints a stream of plans, as `labels` reads it: trees of a shape, each with one batch
   of links between any two machines. FORM is what of a plan stands in the stream: `tree`, `batch` (and the tree), `report`
   (and both), or `refused`: the tree and a batch of one link from a machine to itself, which the last check of Add refuses. Without words it prints the names of the shapes. All is by chance and yet the same in every run: a plan has the
   same tree in every form and with any number of links, and the same links in every form. */
#include <stdint.h>
#include <stdio.h>
#include <stdlib.h>
#include <string.h>

enum { MOST_MACHINES = 4096, MOST_BYTES = 16384 };

enum tree { RANDOM, PATH, STAR, CATERPILLAR, DEEP, COMB, SLANTED_COMB };

/* How the machines of a tree are numbered: from the hub on, towards the hub, or by chance. */
enum numbers { RISING, FALLING, MIXED };

static const struct shape {
    const char *name;
    enum tree tree;
    enum numbers numbers;
} shapes[] = {
    {"random-tree", RANDOM, MIXED},
    {"path", PATH, RISING},
    {"mixed-path", PATH, MIXED},
    {"star", STAR, RISING},
    {"caterpillar", CATERPILLAR, RISING},
    {"deep-tree", DEEP, RISING},
    {"comb", COMB, RISING},
    {"comb-against", COMB, FALLING},
    {"slanted-comb", SLANTED_COMB, FALLING},
};

enum { SHAPES = sizeof shapes / sizeof shapes[0] };

enum form { TREE, REFUSED, BATCH, REPORT, FORMS };

static const char *const forms[FORMS] = {"tree", "refused", "batch", "report"};

/* The state of a splitmix generator. */
static uint64_t chance;

static unsigned below(unsigned bound)
{
    uint64_t z = chance += 0x9e3779b97f4a7c15;
    z = (z ^ z >> 30) * 0xbf58476d1ce4e5b9;
    z = (z ^ z >> 27) * 0x94d049bb133111eb;
    return (z ^ z >> 31) % bound;
}

/* The up of machine v of a comb whose teeth all end at one depth: each is one machine shorter than the one before. */
static unsigned slanted(unsigned v, unsigned n)
{
    unsigned tooth = 0, back = 0, before = 0;

    while ((tooth + 1) * (tooth + 2) / 2 < n)
        tooth++;
    for (; v > back + tooth; tooth--) {
        before = back;
        back += tooth + 1;
    }
    return v == back ? before : v - 1;
}

/* The up of machine v, which is not the hub, where n machines are numbered from the hub on. */
static unsigned up_of(enum tree tree, unsigned v, unsigned n)
{
    switch (tree) {
    case PATH:
        return v - 1;
    case STAR:
        return 0;
    case CATERPILLAR: /* half the machines are a path, and the others hang on it anywhere */
        return v < n / 2 ? v - 1 : below(n / 2);
    case DEEP:
        return v - 1 - below(v < 3 ? v : 3);
    case COMB: /* every 64th machine is one of the back, and the 63 behind it are its tooth */
        return v % 64 == 0 ? v - 64 : v - 1;
    case SLANTED_COMB:
        return slanted(v, n);
    default:
        return below(v);
    }
}

static void make_tree(const struct shape *shape, unsigned n, uint16_t up[])
{
    static uint16_t name[MOST_MACHINES];

    for (unsigned v = 0; v < n; v++)
        name[v] = shape->numbers == FALLING ? n - 1 - v : v;
    for (unsigned v = n - 1; v > 0 && shape->numbers == MIXED; v--) {
        unsigned w = below(v + 1);
        uint16_t kept = name[v];
        name[v] = name[w];
        name[w] = kept;
    }
    up[name[0]] = name[0];
    for (unsigned v = 1; v < n; v++)
        up[name[v]] = name[up_of(shape->tree, v, n)];
}

static void put_number(unsigned value)
{
    putchar(value % 256);
    putchar(value / 256);
}

static void put_plan(const uint16_t up[], unsigned n, unsigned links, enum form form)
{
    put_number(3 + 3 * n + (form == REFUSED ? 6 : form >= BATCH ? 5 * links + 1 : 0) + (form >= REPORT));
    putchar(1);
    put_number(n);
    for (unsigned v = 0; v < n; v++) {
        putchar(2);
        put_number(up[v]);
    }
    if (form == REFUSED) {
        putchar(3);
        put_number(0);
        put_number(0);
        putchar(4);
    }
    if (form >= BATCH) {
        for (unsigned i = 0; i < links; i++) {
            unsigned a = below(n);
            putchar(3);
            put_number(a);
            put_number((a + 1 + below(n - 1)) % n);
        }
        putchar(4);
    }
    if (form >= REPORT)
        putchar(5);
}

static void refuse(const char *what, const char *word)
{
    fprintf(stderr, "streams: %s: %s\n", word, what);
    exit(2);
}

/* The number that a word is. */
static unsigned number(const char *word, unsigned least, unsigned most)
{
    char *end;
    unsigned long value = strtoul(word, &end, 10);
    if (*end != '\0' || value < least || value > most)
        refuse("not a number that can stand here", word);
    return value;
}

int main(int words, char **word)
{
    static uint16_t up[MOST_MACHINES];
    unsigned shape = 0, form = 0;

    if (words == 1) {
        while (shape < SHAPES)
            puts(shapes[shape++].name);
        return 0;
    }
    if (words != 6)
        refuse("takes SHAPE MACHINES LINKS FORM PLANS", "streams");
    while (shape < SHAPES && strcmp(shapes[shape].name, word[1]) != 0)
        shape++;
    if (shape == SHAPES)
        refuse("not a shape", word[1]);
    unsigned n = number(word[2], 2, MOST_MACHINES);
    unsigned links = number(word[3], 0, (MOST_BYTES - 5 - 3 * n) / 5); /* so that a plan is a file */
    while (form < FORMS && strcmp(forms[form], word[4]) != 0)
        form++;
    if (form == FORMS)
        refuse("not a form", word[4]);
    unsigned plans = number(word[5], 0, 1000000);
    for (unsigned plan = 0; plan < plans; plan++) {
        chance = plan;
        make_tree(&shapes[shape], n, up);
        put_plan(up, n, links, form);
    }
    return 0;
}
