// The clients of the scripts of this folder, over connections to a port of 127.0.0.1, which is tried until it is listened at.
//   client trips PORT CONNECTIONS SECONDS FILE   each connection sends a line of FILE and waits for its reply, again and again
//   client mixed PORT CONNECTIONS SECONDS FILE   likewise; each tenth line is a SUB or an UNSUB of a name of its own
//       Both print: trips a second, the median and the 99th percentile of a trip in microseconds.
//   client every PORT SECONDS FILE   one connection; prints the median of each sixteenth trip where that is longest, and of the others
//   client bulk PORT FILE PID        all lines at once, while the replies are read; prints the seconds, and the most memory, in KiB,
//                                    that the process PID has had meanwhile
//   client answers PORT SECONDS FILE OUT   one connection that waits for each reply, and writes it to OUT; prints how many, and the seconds
//   client beside PORT SECONDS CONDITION FLOOD   one connection makes a name with this condition and removes it after a millisecond,
//                                    again and again; prints the median and the 99th percentile of a removal in microseconds.
//                                    With FLOOD 1 another one sends LFs alone meanwhile.
//   client held PORT CALLS FILE OWN  one connection sends the lines of OWN, and then those of FILE in so many equal parts, a call each,
//                                    and waits for the replies of each. Another one makes a name and removes it meanwhile, again and
//                                    again. Prints the longest trip of that one beside a call, in microseconds: the middle of all calls
#include <arpa/inet.h>
#include <errno.h>
#include <netinet/tcp.h>
#include <pthread.h>
#include <stdarg.h>
#include <stdatomic.h>
#include <stdbool.h>
#include <stdint.h>
#include <stdio.h>
#include <stdlib.h>
#include <string.h>
#include <time.h>
#include <unistd.h>

enum { BUFFER = 1 << 16, ROUND = 16, TENTH = 10, BATCH = 256, MOST_CONNECTIONS = 64 };

static void fail(const char *text, ...) {
    va_list words;
    va_start(words, text);
    fputs("client: ", stderr);
    vfprintf(stderr, text, words);
    fputc('\n', stderr);
    exit(1);
}

static void *made(size_t size) {
    void *memory = malloc(size);
    if (!memory) fail("out of memory");
    return memory;
}

static uint64_t now(void) {
    struct timespec time;
    clock_gettime(CLOCK_MONOTONIC, &time);
    return (uint64_t)time.tv_sec * 1000000000u + (uint64_t)time.tv_nsec;
}

// The lines of a file, each with its LF.

struct lines {
    char *bytes;
    size_t size, count;
    char **starts; // one more than there are lines
};

static struct lines lines_of(const char *name) {
    FILE *file = fopen(name, "rb");
    struct lines lines = {0};
    if (!file) fail("%s can't be read", name);
    fseek(file, 0, SEEK_END);
    lines.size = (size_t)ftell(file);
    rewind(file);
    lines.bytes = made(lines.size + 1);
    if (fread(lines.bytes, 1, lines.size, file) != lines.size) fail("%s can't be read", name);
    fclose(file);
    for (size_t i = 0; i < lines.size; i++) lines.count += lines.bytes[i] == '\n';
    if (!lines.count) fail("%s has no line", name);
    lines.starts = made((lines.count + 1) * sizeof(char *));
    char *next = lines.bytes;
    for (size_t i = 0; i <= lines.count; i++) {
        lines.starts[i] = next;
        char *end = memchr(next, '\n', (size_t)(lines.bytes + lines.size - next));
        if (end) next = end + 1;
    }
    return lines;
}

// A connection, and what was read of it.

struct connection {
    int socket;
    size_t begin, end;
    char bytes[BUFFER];
};

static struct connection *connected(int port) {
    struct connection *connection = made(sizeof *connection);
    struct sockaddr_in address = {.sin_family = AF_INET, .sin_port = htons((uint16_t)port)};
    address.sin_addr.s_addr = htonl(INADDR_LOOPBACK);
    connection->begin = connection->end = 0;
    for (int tries = 0; tries < 6000; tries++) {
        connection->socket = socket(AF_INET, SOCK_STREAM, 0);
        if (connection->socket < 0) fail("no socket: %s", strerror(errno));
        if (connect(connection->socket, (struct sockaddr *)&address, sizeof address) == 0) {
            int yes = 1;
            setsockopt(connection->socket, IPPROTO_TCP, TCP_NODELAY, &yes, sizeof yes);
            return connection;
        }
        close(connection->socket);
        usleep(10000);
    }
    fail("nobody listens at port %d", port);
    return NULL;
}

static void sends(struct connection *connection, const char *bytes, size_t count) {
    while (count) {
        ssize_t sent = send(connection->socket, bytes, count, MSG_NOSIGNAL);
        if (sent < 0 && errno == EINTR) continue;
        if (sent <= 0) fail("the server doesn't take a line: %s", strerror(errno));
        bytes += sent;
        count -= (size_t)sent;
    }
}

static void fills(struct connection *connection) {
    ssize_t got = recv(connection->socket, connection->bytes, BUFFER, 0);
    if (got <= 0) fail("the server ended a connection");
    connection->begin = 0;
    connection->end = (size_t)got;
}

// Reads one line, and returns its first byte.
static char reads(struct connection *connection) {
    char first = 0;
    for (;;) {
        if (connection->begin == connection->end) fills(connection);
        char *bytes = connection->bytes + connection->begin;
        char *end = memchr(bytes, '\n', connection->end - connection->begin);
        if (!first) first = *bytes;
        if (end) {
            connection->begin = (size_t)(end + 1 - connection->bytes);
            return first;
        }
        connection->begin = connection->end;
    }
}

static void reads_all(struct connection *connection, size_t count) {
    while (count) {
        if (connection->begin == connection->end) fills(connection);
        while (connection->begin < connection->end && count) count -= connection->bytes[connection->begin++] == '\n';
    }
}

// Sends a line, waits for its reply, and returns the nanoseconds. The reply is one to a PUB, a SUB or an UNSUB that is taken.
static uint64_t trip(struct connection *connection, const char *line, size_t size) {
    uint64_t since = now();
    sends(connection, line, size);
    char first = reads(connection);
    uint64_t took = now() - since;
    // HIT, OK and HELD
    if (first != 'H' && first != 'O') fail("a line had another reply, which begins with %c: %.*s", first, (int)size, line);
    return took;
}

// Times of trips, in nanoseconds.

struct times {
    uint64_t *all;
    size_t count, room;
};

static void puts_time(struct times *times, uint64_t took) {
    if (times->count == times->room) {
        times->room = times->room ? 2 * times->room : 4096;
        times->all = realloc(times->all, times->room * sizeof *times->all);
        if (!times->all) fail("out of memory");
    }
    times->all[times->count++] = took;
}

static int rising(const void *left, const void *right) {
    uint64_t a = *(const uint64_t *)left, b = *(const uint64_t *)right;
    return (a > b) - (a < b);
}

// The time, in microseconds, that this part of them is below.
static double percentile(struct times *times, double part) {
    if (!times->count) fail("no trip was made");
    qsort(times->all, times->count, sizeof *times->all, rising);
    size_t place = (size_t)(part * (double)times->count);
    return (double)times->all[place < times->count ? place : times->count - 1] / 1000;
}

// trips and mixed

struct work {
    pthread_t thread;
    struct connection *connection;
    const struct lines *lines;
    int number;
    bool changes;
    uint64_t length; // nanoseconds
    pthread_barrier_t *start;
    struct times times;
};

// The n-th line of a name of this connection's own: a SUB, and then an UNSUB.
static size_t change(char *line, const struct work *work, uint64_t n) {
    if (n % 2) return (size_t)sprintf(line, "UNSUB own%d\n", work->number);
    int low = (int)((n * 7919 + (uint64_t)work->number * 104729) % 90000);
    return (size_t)sprintf(line, "SUB own%d symbol = %d and price between %d and %d\n", work->number, (int)(n * 31 % 10000), low, low + 5000);
}

static void *works(void *argument) {
    struct work *work = argument;
    const struct lines *lines = work->lines;
    size_t next = lines->count / MOST_CONNECTIONS * (size_t)work->number;
    char line[256];
    trip(work->connection, "PUB -\n", 6);
    pthread_barrier_wait(work->start);
    uint64_t since = now();
    for (uint64_t n = 0; now() - since < work->length; n++) {
        if (work->changes && n % TENTH == TENTH - 1) {
            size_t size = change(line, work, n / TENTH);
            puts_time(&work->times, trip(work->connection, line, size));
        } else {
            next = (next + 1) % lines->count;
            puts_time(&work->times, trip(work->connection, lines->starts[next], (size_t)(lines->starts[next + 1] - lines->starts[next])));
        }
    }
    return NULL;
}

static void trips(int port, int connections, double seconds, const char *file, bool changes) {
    struct lines lines = lines_of(file);
    struct work *all = calloc((size_t)connections, sizeof *all);
    struct times times = {0};
    pthread_barrier_t start;
    if (!all) fail("out of memory");
    pthread_barrier_init(&start, NULL, (unsigned)connections + 1);
    for (int i = 0; i < connections; i++) {
        all[i] = (struct work){.connection = connected(port), .lines = &lines, .number = i, .changes = changes,
                               .length = (uint64_t)(seconds * 1e9), .start = &start};
        if (pthread_create(&all[i].thread, NULL, works, &all[i])) fail("no thread");
    }
    pthread_barrier_wait(&start);
    uint64_t since = now();
    for (int i = 0; i < connections; i++) pthread_join(all[i].thread, NULL);
    double took = (double)(now() - since) / 1e9;
    for (int i = 0; i < connections; i++)
        for (size_t j = 0; j < all[i].times.count; j++) puts_time(&times, all[i].times.all[j]);
    printf("%.0f %.1f %.1f\n", (double)times.count / took, percentile(&times, 0.5), percentile(&times, 0.99));
}

// every

static void every(int port, double seconds, const char *file) {
    struct lines lines = lines_of(file);
    struct connection *connection = connected(port);
    struct times at[ROUND] = {{0}};
    // the first half of the time is for whatever the server still has to do
    uint64_t since = now(), half = (uint64_t)(seconds * 5e8);
    for (uint64_t n = 0; now() - since < 2 * half; n++) {
        size_t next = n % lines.count;
        uint64_t took = trip(connection, lines.starts[next], (size_t)(lines.starts[next + 1] - lines.starts[next]));
        if (now() - since > half) puts_time(&at[n % ROUND], took);
    }
    int longest = 0;
    for (int i = 1; i < ROUND; i++)
        if (percentile(&at[i], 0.5) > percentile(&at[longest], 0.5)) longest = i;
    struct times others = {0};
    for (int i = 0; i < ROUND; i++)
        for (size_t j = 0; i != longest && j < at[i].count; j++) puts_time(&others, at[i].all[j]);
    printf("%.1f %.1f\n", percentile(&at[longest], 0.5), percentile(&others, 0.5));
}

// bulk

struct sending {
    struct connection *connection;
    const struct lines *lines;
};

static void *sends_all(void *argument) {
    struct sending *sending = argument;
    sends(sending->connection, sending->lines->bytes, sending->lines->size);
    return NULL;
}

static long most_memory(const char *process) {
    char name[64], line[256];
    long most = 0;
    snprintf(name, sizeof name, "/proc/%s/status", process);
    FILE *file = fopen(name, "r");
    while (file && fgets(line, sizeof line, file)) sscanf(line, "VmHWM: %ld", &most);
    if (file) fclose(file);
    return most;
}

static void bulk(int port, const char *file, const char *process) {
    struct lines lines = lines_of(file);
    struct sending sending = {.connection = connected(port), .lines = &lines};
    pthread_t sender;
    trip(sending.connection, "PUB -\n", 6);
    uint64_t since = now();
    if (pthread_create(&sender, NULL, sends_all, &sending)) fail("no thread");
    reads_all(sending.connection, lines.count);
    double took = (double)(now() - since) / 1e9;
    pthread_join(sender, NULL);
    printf("%.4f %ld\n", took, most_memory(process));
}

// answers

// Reads one line, and writes it, with its LF, to the file.
static void copies(struct connection *connection, FILE *out) {
    for (;;) {
        if (connection->begin == connection->end) fills(connection);
        char *bytes = connection->bytes + connection->begin;
        char *end = memchr(bytes, '\n', connection->end - connection->begin);
        size_t size = end ? (size_t)(end + 1 - bytes) : connection->end - connection->begin;
        fwrite(bytes, 1, size, out);
        connection->begin += size;
        if (end) return;
    }
}

static void answers(int port, double seconds, const char *file, const char *name) {
    struct lines lines = lines_of(file);
    struct connection *connection = connected(port);
    FILE *out = fopen(name, "wb");
    if (!out) fail("%s can't be written", name);
    trip(connection, "PUB -\n", 6);
    uint64_t since = now();
    size_t next = 0;
    for (; next < lines.count && now() - since < (uint64_t)(seconds * 1e9); next++) {
        sends(connection, lines.starts[next], (size_t)(lines.starts[next + 1] - lines.starts[next]));
        copies(connection, out);
    }
    double took = (double)(now() - since) / 1e9;
    if (fclose(out)) fail("%s can't be written", name);
    printf("%zu %.6f\n", next, took);
}

// beside

static atomic_bool ended;

// Keeps from BATCH to twice as many LFs with the server, until it is told to end.
static void *floods(void *argument) {
    struct connection *connection = argument;
    char batch[BATCH];
    memset(batch, '\n', BATCH);
    sends(connection, batch, BATCH);
    while (!ended) {
        sends(connection, batch, BATCH);
        reads_all(connection, BATCH);
    }
    reads_all(connection, BATCH);
    return NULL;
}

static void beside(int port, double seconds, const char *condition, bool flood) {
    struct connection *own = connected(port), *other = connected(port);
    struct times times = {0};
    pthread_t flooding;
    char subscribe[256];
    const char remove[] = "UNSUB own\n";
    size_t size = (size_t)snprintf(subscribe, sizeof subscribe, "SUB own %s\n", condition);
    if (size >= sizeof subscribe) fail("the condition is too long");
    trip(own, "PUB -\n", 6);
    trip(other, "PUB -\n", 6);
    if (flood && pthread_create(&flooding, NULL, floods, other)) fail("no thread");
    uint64_t since = now();
    uint64_t pause = 20111;
    do {
        trip(own, subscribe, size);
        // from half a millisecond to one and a half, so that a removal comes at any time of what the other one causes
        pause = pause * 16807 % 2147483647;
        usleep((useconds_t)(500 + pause % 1000));
        puts_time(&times, trip(own, remove, sizeof remove - 1));
    } while (now() - since < (uint64_t)(seconds * 1e9));
    ended = true;
    if (flood) pthread_join(flooding, NULL);
    printf("%.1f %.1f\n", percentile(&times, 0.5), percentile(&times, 0.99));
}

// held

struct trips {
    struct connection *connection;
    struct times begins, ends;
};

static void *makes_and_removes(void *argument) {
    struct trips *trips = argument;
    const char *lines[] = {"SUB held all\n", "UNSUB held\n"};
    for (uint64_t n = 0; !ended; n++) {
        const char *line = lines[n % 2];
        uint64_t took = trip(trips->connection, line, strlen(line)), end = now();
        puts_time(&trips->begins, end - took);
        puts_time(&trips->ends, end);
    }
    return NULL;
}

// Reads replies to the end of the one to a COST, or to the end of the connection.
static void reads_to_cost(struct connection *connection) {
    char first = 0;
    for (;;) {
        if (connection->begin == connection->end) {
            ssize_t got = recv(connection->socket, connection->bytes, BUFFER, 0);
            if (got <= 0) return;
            connection->begin = 0;
            connection->end = (size_t)got;
        }
        char letter = connection->bytes[connection->begin++];
        if (!first) first = letter;
        if (letter != '\n') continue;
        if (first == 'C') return;
        first = 0;
    }
}

static void held(int port, int calls, const char *file, const char *own) {
    struct lines lines = lines_of(file), before = lines_of(own);
    struct connection *connection = connected(port);
    struct trips other = {.connection = connected(port)};
    struct sending sending = {.connection = connection, .lines = &before};
    struct times from = {0}, to = {0}, longest = {0};
    pthread_t sender, changing;
    if (calls < 1 || lines.count < (size_t)calls) fail("from 1 to %zu calls", lines.count);
    if (pthread_create(&sender, NULL, sends_all, &sending)) fail("no thread");
    reads_all(connection, before.count);
    pthread_join(sender, NULL);
    if (pthread_create(&changing, NULL, makes_and_removes, &other)) fail("no thread");
    size_t part = lines.count / (size_t)calls;
    for (size_t i = 0; i < (size_t)calls; i++) {
        usleep(20000);
        char *begin = lines.starts[i * part], *end = lines.starts[(i + 1) * part];
        puts_time(&from, now());
        sends(connection, begin, (size_t)(end - begin));
        sends(connection, "COST -\n", 7);
        reads_to_cost(connection);
        // what the next change of the other one has to do of it counts too
        usleep(5000);
        puts_time(&to, now());
    }
    ended = true;
    pthread_join(changing, NULL);
    for (size_t i = 0, next = 0; i < from.count; i++) {
        uint64_t most = 0;
        while (next < other.ends.count && other.ends.all[next] < from.all[i]) next++;
        for (; next < other.ends.count && other.begins.all[next] < to.all[i]; next++) {
            uint64_t took = other.ends.all[next] - other.begins.all[next];
            if (took > most) most = took;
        }
        puts_time(&longest, most);
    }
    printf("%.1f\n", percentile(&longest, 0.5));
}

int main(int count, char **words) {
    const char *word = count > 2 ? words[1] : "";
    int port = count > 2 ? atoi(words[2]) : 0;
    bool is_mixed = strcmp(word, "mixed") == 0;
    if (count == 6 && (is_mixed || strcmp(word, "trips") == 0)) {
        int connections = atoi(words[3]);
        if (connections < 1 || connections > MOST_CONNECTIONS) fail("from 1 to %d connections", MOST_CONNECTIONS);
        trips(port, connections, atof(words[4]), words[5], is_mixed);
    } else if (count == 5 && strcmp(word, "every") == 0) {
        every(port, atof(words[3]), words[4]);
    } else if (count == 5 && strcmp(word, "bulk") == 0) {
        bulk(port, words[3], words[4]);
    } else if (count == 6 && strcmp(word, "answers") == 0) {
        answers(port, atof(words[3]), words[4], words[5]);
    } else if (count == 6 && strcmp(word, "beside") == 0) {
        beside(port, atof(words[3]), words[4], atoi(words[5]) != 0);
    } else if (count == 6 && strcmp(word, "held") == 0) {
        held(port, atoi(words[3]), words[4], words[5]);
    } else {
        fail("the words have no reading");
    }
    return 0;
}
