/* recompute: prints for a stream of plans what `labels` prints, each report found anew by one depth-first search over all
   cables. tools/bench holds `labels` to it, to its lines and to its time. It is for good files: one that is refused ends it
   with status 2, but for ups that never come to the hub (code 5), which it does not look for. */
#include <stdint.h>
#include <stdio.h>
#include <stdlib.h>
#include <string.h>

enum {
    MOST_MACHINES = 4096,
    MOST_BATCH = 1024,
    MOST_BYTES = 16384,
    MOST_LINKS = MOST_BYTES / 5, /* the record of a link has five bytes */
    MOST_TEXT = 24 * MOST_MACHINES, /* an M line and an L line for each machine, and the T line of a report */
    STREAM_BUFFER = 1 << 18
};

static unsigned n, hub;
static uint16_t up[MOST_MACHINES];

/* The ends of link i are ends[2 * i] and ends[2 * i + 1]. */
static unsigned links;
static uint16_t ends[2 * MOST_LINKS];

/* The machines that the cables of v lead to, one for each cable, are other[first[v]] up to other[first[v + 1] - 1]. */
static uint16_t first[MOST_MACHINES + 1];
static uint16_t other[2 * (MOST_MACHINES + MOST_LINKS)];

/* What a report names: the reason of each machine, and whether its uplink is a choke. */
static uint8_t reason[MOST_MACHINES];
static uint8_t uplink[MOST_MACHINES];

static void refuse(const char *what)
{
    fprintf(stderr, "recompute: %s\n", what);
    exit(2);
}

/* Counts the cables of each machine, adds up to where each part of `other` ends, and fills it from there down. */
static void lay_cables(void)
{
    memset(first, 0, sizeof first);
    for (unsigned v = 0; v < n; v++)
        if (v != hub) {
            first[v]++;
            first[up[v]]++;
        }
    for (unsigned i = 0; i < 2 * links; i++)
        first[ends[i]]++;
    for (unsigned v = 1; v <= n; v++)
        first[v] += first[v - 1];
    for (unsigned v = 0; v < n; v++)
        if (v != hub) {
            other[--first[v]] = up[v];
            other[--first[up[v]]] = v;
        }
    for (unsigned i = 0; i < 2 * links; i++)
        other[--first[ends[i]]] = ends[i ^ 1];
}

/* One depth-first search from the hub. The machines are met in an order from 1 on; low[v] is the earliest that a cable leads to
   from v or from a machine met behind v, other than the cable by which v was met. If that is v itself, this cable is the only
   way to v, so it is the uplink of v: the tree alone has a way there. */
static void search(void)
{
    static uint16_t order[MOST_MACHINES], low[MOST_MACHINES], from[MOST_MACHINES], next[MOST_MACHINES];
    static uint8_t back[MOST_MACHINES]; /* 1 once the cable by which v was met is passed over at v; one more to from[v] counts */
    unsigned met = 1, branches = 0, v = hub;

    memset(order, 0, sizeof order);
    memset(back, 0, sizeof back);
    memset(reason, 0, sizeof reason);
    memset(uplink, 0, sizeof uplink);
    memcpy(next, first, sizeof next);
    order[hub] = low[hub] = 1;
    for (;;) {
        if (next[v] < first[v + 1]) {
            unsigned w = other[next[v]++];
            if (order[w] == 0) {
                order[w] = low[w] = ++met;
                from[w] = v;
                v = w;
            } else if (v != hub && w == from[v] && !back[v]) {
                back[v] = 1;
            } else if (order[w] < low[v]) {
                low[v] = order[w];
            }
        } else if (v != hub) {
            unsigned w = from[v];
            if (low[v] == order[v])
                uplink[v] = 1;
            if (w == hub)
                branches++;
            else if (low[v] >= order[w])
                reason[w] = 1;
            if (low[v] < low[w])
                low[w] = low[v];
            v = w;
        } else {
            break;
        }
    }
    if (branches > 1)
        reason[hub] = 2;
}

/* A space and a number from `to` on; answers where it ends. */
static char *number(char *to, unsigned value)
{
    char digits[5];
    int k = 0;

    *to++ = ' ';
    do
        digits[k++] = '0' + value % 10;
    while (value /= 10);
    while (k > 0)
        *to++ = digits[--k];
    return to;
}

/* A letter, two numbers and a line end, likewise. */
static char *line(char *to, char letter, unsigned a, unsigned b)
{
    *to++ = letter;
    to = number(to, a);
    to = number(to, b);
    *to++ = '\n';
    return to;
}

static void report(void)
{
    static char text[MOST_TEXT];
    char *to = text;
    unsigned machines = 0, uplinks = 0;

    lay_cables();
    search();
    for (unsigned v = 0; v < n; v++)
        if (reason[v]) {
            to = line(to, 'M', v, reason[v]);
            machines++;
        }
    for (unsigned v = 0; v < n; v++)
        if (uplink[v]) {
            to = line(to, 'L', v, up[v]);
            uplinks++;
        }
    to = line(to, 'T', machines, uplinks);
    fwrite(text, 1, to - text, stdout);
}

static unsigned word(const uint8_t *bytes)
{
    return bytes[0] + 256u * bytes[1];
}

/* The records of kinds 1 and 2; answers how many bytes they take. */
static size_t read_tree(const uint8_t *file, size_t length)
{
    if (length < 3 || file[0] != 1)
        refuse("a file does not begin with its number of machines");
    n = word(file + 1);
    if (n == 0 || n > MOST_MACHINES || length < 3 + 3 * n)
        refuse("a file does not have its machines");
    hub = n;
    for (unsigned v = 0; v < n; v++) {
        const uint8_t *record = file + 3 + 3 * v;
        up[v] = word(record + 1);
        if (record[0] != 2 || up[v] >= n || (up[v] == v && hub < n))
            refuse("a machine has no up, or there are two hubs");
        if (up[v] == v)
            hub = v;
    }
    if (hub == n)
        refuse("no machine is the hub");
    return 3 + 3 * n;
}

static void answer(const uint8_t *file, size_t length)
{
    size_t at = read_tree(file, length);
    unsigned closed = 0; /* so many links are of closed batches */

    links = 0;
    while (at < length) {
        const uint8_t *record = file + at;
        if (record[0] == 3 && length - at >= 5 && links - closed < MOST_BATCH) {
            unsigned a = word(record + 1), b = word(record + 3);
            if (a >= n || b >= n || a == b)
                refuse("a link is none");
            ends[2 * links] = a;
            ends[2 * links + 1] = b;
            links++;
            at += 5;
        } else if (record[0] == 4) {
            closed = links;
            at++;
        } else if (record[0] == 5 && closed == links) {
            report();
            at++;
        } else {
            refuse("a record is out of place");
        }
    }
    if (closed < links)
        refuse("a batch is not closed");
}

int main(void)
{
    static uint8_t head[2], file[MOST_BYTES];

    setvbuf(stdin, NULL, _IOFBF, STREAM_BUFFER);
    while (fread(head, 1, 2, stdin) == 2) {
        size_t length = word(head);
        if (length > MOST_BYTES || fread(file, 1, length, stdin) < length)
            refuse("a file is too long, or cut short");
        answer(file, length);
        fputs(".\n", stdout);
    }
    return 0;
}
