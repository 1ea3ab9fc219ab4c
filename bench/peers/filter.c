// A plain filter: it tests each condition, a list of ranges, until one range doesn't hold.
//   filter ROWS EVENTS SECONDS HITS TOOK
// ROWS has a line `number symbol low high least` for each condition, and EVENTS a line `symbol price volume` for each event. It
// answers events until so many seconds have passed, and writes for each of them the numbers of the conditions that hold, as a
// line of HITS. TOOK gets how many events those were, and the seconds.
#include <limits.h>
#include <stdio.h>
#include <stdlib.h>
#include <string.h>
#include <time.h>

enum { SYMBOL, PRICE, VOLUME, ATTRIBUTES };

struct range {
    int attribute, low, high;
};

struct condition {
    int number, first, end; // its ranges
};

static struct range *ranges;
static struct condition *conditions;
static int range_count, condition_count;

static FILE *opened(const char *name, const char *how) {
    FILE *file = fopen(name, how);
    if (!file) {
        fprintf(stderr, "filter: %s can't be opened\n", name);
        exit(1);
    }
    return file;
}

static void *grown(void *memory, size_t count, size_t size) {
    // a power of two is full
    if (count & (count - 1)) return memory;
    memory = realloc(memory, (count ? 2 * count : 1) * size);
    if (!memory) exit(1);
    return memory;
}

static void add(int attribute, int low, int high) {
    ranges = grown(ranges, (size_t)range_count, sizeof *ranges);
    ranges[range_count++] = (struct range){attribute, low, high};
}

static void read_conditions(const char *name) {
    FILE *file = opened(name, "r");
    int number, symbol, low, high, least;
    while (fscanf(file, "%d %d %d %d %d", &number, &symbol, &low, &high, &least) == 5) {
        conditions = grown(conditions, (size_t)condition_count, sizeof *conditions);
        struct condition *condition = &conditions[condition_count++];
        *condition = (struct condition){number, range_count, 0};
        add(SYMBOL, symbol, symbol);
        add(PRICE, low, high);
        if (least > 0) add(VOLUME, least, INT_MAX);
        condition->end = range_count;
    }
    fclose(file);
}

static int holds(const struct condition *condition, const int *event) {
    for (int i = condition->first; i < condition->end; i++) {
        int value = event[ranges[i].attribute];
        if (value < ranges[i].low || value > ranges[i].high) return 0;
    }
    return 1;
}

static void answer(const char *line, FILE *hits) {
    int event[ATTRIBUTES];
    char *rest = (char *)line;
    const char *gap = "";
    for (int i = 0; i < ATTRIBUTES; i++) event[i] = (int)strtol(rest, &rest, 10);
    for (int i = 0; i < condition_count; i++) {
        if (!holds(&conditions[i], event)) continue;
        fprintf(hits, "%s%d", gap, conditions[i].number);
        gap = " ";
    }
    fputc('\n', hits);
}

static double seconds_now(void) {
    struct timespec time;
    clock_gettime(CLOCK_MONOTONIC, &time);
    return (double)time.tv_sec + (double)time.tv_nsec / 1e9;
}

int main(int count, char **words) {
    if (count != 6) return 2;
    read_conditions(words[1]);
    FILE *events = opened(words[2], "r"), *hits = opened(words[4], "w"), *took = opened(words[5], "w");
    char line[256];
    double since = seconds_now(), most = atof(words[3]);
    long answered = 0;
    while (seconds_now() - since < most && fgets(line, sizeof line, events)) {
        answer(line, hits);
        answered++;
    }
    fflush(hits);
    fprintf(took, "%ld %.6f\n", answered, seconds_now() - since);
    return 0;
}
