/* The link of the target that is measured: frames over TCP, as docs/FORMATS.md has them. */
#include <arpa/inet.h>
#include <netinet/tcp.h>
#include <sys/uio.h>
#include <unistd.h>

enum { HEAD = 12, COMMAND = 20, STATUS = 4, SENSE = 18 };
enum { LOGIN = 0x01, COMMAND_KIND = 0x02, LOGOUT = 0x03, REPLY = 0x80 };

static uint32_t get(const uint8_t *at)
{
    return (uint32_t)at[0] << 24 | (uint32_t)at[1] << 16 | (uint32_t)at[2] << 8 | at[3];
}

static int dial(const char *address)
{
    char host[64] = "";
    const char *colon = strrchr(address, ':');
    struct sockaddr_in to = { .sin_family = AF_INET };
    int one = 1, connection = socket(AF_INET, SOCK_STREAM, 0);
    if (!colon || colon - address >= (long)sizeof host)
        fail("an address is HOST:PORT");
    memcpy(host, address, (size_t)(colon - address));
    to.sin_port = htons((uint16_t)atoi(colon + 1));
    if (inet_pton(AF_INET, host, &to.sin_addr) != 1)
        fail("a host is four numbers");
    setsockopt(connection, IPPROTO_TCP, TCP_NODELAY, &one, sizeof one);
    if (connect(connection, (struct sockaddr *)&to, sizeof to))
        fail("no connection");
    return connection;
}

static void send_all(int connection, struct iovec *parts, int count)
{
    while (count) {
        ssize_t sent = writev(connection, parts, count);
        if (sent <= 0)
            fail("the target takes no more");
        for (; count && (size_t)sent >= parts->iov_len; parts++, count--)
            sent -= (ssize_t)parts->iov_len;
        if (count) {
            parts->iov_base = (char *)parts->iov_base + sent;
            parts->iov_len -= (size_t)sent;
        }
    }
}

static void receive_all(int connection, void *at, size_t bytes)
{
    if (bytes && recv(connection, at, bytes, MSG_WAITALL) != (ssize_t)bytes)
        fail("the target has ended the connection");
}

/* Sends a frame and receives the reply's head, with what begins each body but that of a Logout reply;
   says how many bytes follow. */
static uint32_t exchange(struct session *s, uint8_t kind, uint8_t *body, uint32_t length, uint32_t out)
{
    uint8_t head[HEAD] = { 0 }, reply[HEAD + STATUS] = { 0 };
    uint32_t first = kind == LOGOUT ? HEAD : HEAD + STATUS;
    struct iovec parts[] = { { head, HEAD }, { body, length }, { s->out, out } };
    put(head, HEAD - 4 + length + out, 4);
    head[4] = kind;
    put(head + 8, ++s->tag, 4);
    send_all(s->socket, parts, 3);
    receive_all(s->socket, reply, first);
    if (get(reply) + 4 < first || reply[4] != (kind | REPLY) || get(reply + 8) != s->tag)
        fail("not the reply to what was asked");
    memcpy(s->status, reply + HEAD, STATUS);
    return get(reply) + 4 - first;
}

/* Sends a command; its status, and its data-in in the session. So many bytes of that may come at most. */
static uint8_t command(struct session *s, const uint8_t *cdb, uint8_t cdb_length, uint32_t out, uint32_t most)
{
    uint8_t body[COMMAND] = { cdb_length }, sense[SENSE];
    memcpy(body + 4, cdb, cdb_length);
    uint32_t rest = exchange(s, COMMAND_KIND, body, COMMAND, out);
    uint8_t sense_length = s->status[1];
    if (sense_length > rest || (sense_length && sense_length != SENSE))
        fail("sense data of another length");
    receive_all(s->socket, sense, sense_length);
    s->in_length = rest - sense_length;
    if (s->in_length > most)
        fail("more data than was asked for");
    receive_all(s->socket, s->in, s->in_length);
    return s->status[0];
}

/* Logs in, under a name of the session's own. */
static void log_in(struct session *s, const char *address)
{
    uint8_t login[12] = { 1, 0, 0, 1 };
    put(login + 4, 0x1000 + s->number, 8);
    s->socket = dial(address);
    if (exchange(s, LOGIN, login, sizeof login, 0) || s->status[0])
        fail("a login is refused");
}

static void log_out(struct session *s)
{
    if (exchange(s, LOGOUT, NULL, 0, 0))
        fail("a session doesn't end");
    close(s->socket);
}
