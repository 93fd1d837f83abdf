/* Puts load on a target over its link, or, where it is built with OVER_ISCSI, over iSCSI: so many
   sessions at once, each of which sends one command and waits for its reply. For each row and number of
   sessions it prints a line of fields with tabs between them: the row, sessions, commands a second, and
   blocks a second. Both are 0 for a row of which the first command isn't GOOD.

   load HOST:PORT SECONDS SESSIONS...

   The environment's ROWS, where it is set, is a part of the names of the rows that are wanted.
   It logs in under 64 names, which all register before the keys are read and unregister at the end.
   The unit has at least 65,536 blocks (32 MiB); 4,096 are each session's own. */
#include <pthread.h>
#include <stdint.h>
#include <stdio.h>
#include <stdlib.h>
#include <string.h>
#include <time.h>

enum { NAMES = 64, BLOCK = 512, MOST = 1024, OWN = 4096 };
enum { TEST_UNIT_READY = 0x00, READ = 0x28, WRITE = 0x2A, RESERVE_IN = 0x5E, RESERVE_OUT = 0x5F };

struct row {
    const char *name;
    uint8_t operation;
    uint32_t blocks;
    uint8_t keeps; /* APTPL */
};

static const struct row rows[] = {
    { "TEST UNIT READY", TEST_UNIT_READY, 0, 0 },
    { "REGISTER AND IGNORE", RESERVE_OUT, 0, 0 },
    { "REGISTER AND IGNORE, APTPL one", RESERVE_OUT, 0, 1 },
    { "READ KEYS of 64", RESERVE_IN, 0, 0 },
    { "READ of 8 blocks", READ, 8, 0 },
    { "WRITE of 8 blocks", WRITE, 8, 0 },
    { "READ of 1,024 blocks", READ, MOST, 0 },
    { "WRITE of 1,024 blocks", WRITE, MOST, 0 },
};

struct session {
    int socket;              /* over the link */
    uint32_t tag;
    uint8_t status[4];       /* of a command: status and sense length; of a login: its code */
    void *context;           /* over iSCSI */
    uint32_t number;
    uint64_t turn, done;
    uint8_t *out, *in;       /* MOST blocks each */
    uint32_t in_length;      /* the data-in that came */
    const struct row *row;
    double until;
    pthread_t thread;
};

static struct session sessions[NAMES];

static void fail(const char *what)
{
    fprintf(stderr, "load: %s\n", what);
    exit(1);
}

static void put(uint8_t *at, uint64_t value, int bytes)
{
    while (bytes--) {
        at[bytes] = (uint8_t)value;
        value >>= 8;
    }
}

static double now(void)
{
    struct timespec time;
    clock_gettime(CLOCK_MONOTONIC, &time);
    return (double)time.tv_sec + (double)time.tv_nsec / 1e9;
}

#ifdef OVER_ISCSI
#include "over_iscsi.h"
#else
#include "over_link.h"
#endif

/* REGISTER AND IGNORE EXISTING KEY; a zero key unregisters. */
static uint8_t registration(struct session *s, uint64_t key, uint8_t keeps)
{
    uint8_t cdb[10] = { RESERVE_OUT, 6, 0, 0, 0, 0, 0, 0, 24 };
    memset(s->out, 0, 24);
    put(s->out + 8, key, 8);
    s->out[20] = keeps;
    return command(s, cdb, 10, 24, 0);
}

static uint8_t read_keys(struct session *s)
{
    const uint8_t cdb[10] = { RESERVE_IN, 0, 0, 0, 0, 0, 0, 0x04 };
    uint8_t status = command(s, cdb, 10, 0, 1024);
    if (!status && s->in_length != 8 + 8 * NAMES)
        fail("not 64 keys");
    return status;
}

static uint8_t transfer(struct session *s)
{
    uint8_t cdb[10] = { s->row->operation };
    uint32_t bytes = s->row->blocks * BLOCK;
    put(cdb + 2, s->number * OWN + s->turn * s->row->blocks % OWN, 4);
    put(cdb + 7, s->row->blocks, 2);
    int writes = s->row->operation == WRITE;
    uint8_t status = command(s, cdb, 10, writes ? bytes : 0, writes ? 0 : bytes);
    if (!status && s->row->operation == READ && s->in_length != bytes)
        fail("fewer blocks than were asked for");
    return status;
}

static uint8_t test_unit_ready(struct session *s)
{
    const uint8_t cdb[6] = { TEST_UNIT_READY };
    return command(s, cdb, 6, 0, 0);
}

/* The keys of two turns in a row differ, so that with APTPL one each changes what is kept. */
static uint64_t key_of(const struct session *s)
{
    return 0x9000000000000001 + 2 * s->number + s->turn % 2;
}

static uint8_t once(struct session *s)
{
    switch (s->row->operation) {
    case TEST_UNIT_READY: return test_unit_ready(s);
    case RESERVE_OUT: return registration(s, key_of(s), s->row->keeps);
    case RESERVE_IN: return read_keys(s);
    default: return transfer(s);
    }
}

static void *load(void *of)
{
    struct session *s = of;
    for (s->done = 0; now() < s->until; s->done++, s->turn++)
        if (once(s))
            fail("a command isn't GOOD");
    return NULL;
}

static void measure(const struct row *row, int count, double seconds)
{
    uint64_t done = 0;
    for (int i = 0; i < NAMES; i++)
        sessions[i].row = row;
    if (once(&sessions[0])) {
        printf("%s\t%d\t0\t0\n", row->name, count);
        return;
    }
    double from = now();
    for (int i = 0; i < count; i++) {
        sessions[i].until = from + seconds;
        if (pthread_create(&sessions[i].thread, NULL, load, &sessions[i]))
            fail("no thread");
    }
    for (int i = 0; i < count; i++) {
        pthread_join(sessions[i].thread, NULL);
        done += sessions[i].done;
    }
    double rate = (double)done / (now() - from);
    printf("%s\t%d\t%.0f\t%.0f\n", row->name, count, rate, rate * row->blocks);
    fflush(stdout);
}

/* Logs in, and takes the unit attentions that wait. */
static void begin(struct session *s, uint32_t number, const char *address)
{
    *s = (struct session){ .number = number, .out = calloc(MOST, BLOCK), .in = calloc(MOST, BLOCK) };
    if (!s->out || !s->in)
        fail("no memory");
    memset(s->out, 0x5A, MOST * BLOCK);
    log_in(s, address);
    for (int tries = 0; test_unit_ready(s); tries++)
        if (tries == 8)
            fail("the unit isn't ready");
}

static void end(struct session *s)
{
    if (registration(s, 0, 0))
        fail("a session doesn't end");
    log_out(s);
}

int main(int count, char **words)
{
    if (count < 4) {
        fprintf(stderr, "usage: load HOST:PORT SECONDS SESSIONS...\n");
        return 2;
    }
    const char *wanted = getenv("ROWS");
    for (uint32_t i = 0; i < NAMES; i++)
        begin(&sessions[i], i, words[1]);
    for (int word = 3; word < count; word++) {
        int number = atoi(words[word]);
        if (number < 1 || number > 16)
            fail("1 to 16 sessions at once");
        for (size_t i = 0; i < sizeof rows / sizeof *rows; i++) {
            if (wanted && !strstr(rows[i].name, wanted))
                continue;
            for (int j = 0; rows[i].operation == RESERVE_IN && j < NAMES; j++)
                if (registration(&sessions[j], key_of(&sessions[j]), 0))
                    fail("a registration is refused");
            measure(&rows[i], number, atof(words[2]));
        }
    }
    for (int i = 0; i < NAMES; i++)
        end(&sessions[i]);
    return 0;
}
