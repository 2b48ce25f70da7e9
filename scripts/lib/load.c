// Sends commands to a port of this host, and prints how long each took. One thread serves all clients, each of which
// has one connection and one command under way. It is one program for the desk, for etcd and for bare nodes, so that
// what the client itself takes is the same beside each.
//
//     load lines|etcd PORT CLIENTS COUNT WARM SESSION
//
// COUNT commands of all clients together are measured, after WARM that are not. The sessions of the clients are SESSION
// and those after it, and their numbers begin with 1. A command is a document line of 150 bytes with its newline. With
// `lines` it is sent so, and its reply is a line with "ok" and its number. With `etcd` it is the value of a new key: a
// Put by gRPC, which is a request of HTTP/2, here written by hand.
//
// First it prints the nanoseconds from the last reply that is not measured to the last of all, then those of each
// command. Where one is refused or gets no reply, it prints what came, and ends with status 1.
#include <arpa/inet.h>
#include <errno.h>
#include <netinet/tcp.h>
#include <poll.h>
#include <stdint.h>
#include <stdio.h>
#include <stdlib.h>
#include <string.h>
#include <sys/socket.h>
#include <time.h>
#include <unistd.h>

enum { COMMAND_BYTES = 150, READ_BYTES = 1 << 16, MOST_CLIENTS = 64, PATIENCE_MS = 10000 };

struct client {
    int connection, length, has_data;
    uint32_t stream;
    unsigned long long session, number;
    long long began;
    unsigned char bytes[READ_BYTES];
};

static int port;

static _Noreturn void fail(const char *what, const void *bytes, int length) {
    fprintf(stderr, "load: %s: %.*s\n", what, length, (const char *)bytes);
    exit(1);
}

static _Noreturn void fail_call(const char *what) {
    fail(what, strerror(errno), 100);
}

static long long now(void) {
    struct timespec it;
    clock_gettime(CLOCK_MONOTONIC, &it);
    return it.tv_sec * 1000000000LL + it.tv_nsec;
}

static void connect_client(struct client *it) {
    int on = 1;
    struct sockaddr_in address = {.sin_family = AF_INET, .sin_port = htons(port)};
    address.sin_addr.s_addr = htonl(INADDR_LOOPBACK);
    it->connection = socket(AF_INET, SOCK_STREAM, 0);
    if (connect(it->connection, (void *)&address, sizeof address)) fail_call("connect");
    setsockopt(it->connection, IPPROTO_TCP, TCP_NODELAY, &on, sizeof on);
}

// A command is far less than what a connection's buffer takes, so no send is cut short.
static void send_bytes(struct client *it, const void *bytes, int length) {
    if (send(it->connection, bytes, length, MSG_NOSIGNAL) != length) fail_call("send");
}

static void read_bytes(struct client *it) {
    ssize_t got = recv(it->connection, it->bytes + it->length, READ_BYTES - it->length, 0);
    if (got <= 0) fail("the connection ended after", it->bytes, it->length);
    it->length += got;
}

static void drop(struct client *it, int length) {
    memmove(it->bytes, it->bytes + length, it->length - length);
    it->length -= length;
}

// Writes the line of the client's command without its newline, and gives its length.
static int write_command(const struct client *it, char *to) {
    int at = sprintf(to, "{\"session\":%llu,\"number\":%llu,\"at\":\"2026-03-01T12:00:00Z\",\"do\":\"open\","
        "\"kind\":\"fire\",\"where\":\"12 Elm St", it->session, it->number);
    while (at < COMMAND_BYTES - 3) to[at++] = ' ';
    to[at++] = '"';
    to[at++] = '}';
    return at;
}

static void send_line(struct client *it) {
    char line[2 * COMMAND_BYTES];
    int length = write_command(it, line);
    line[length++] = '\n';
    send_bytes(it, line, length);
}

static int has_line(struct client *it) {
    unsigned char *end = memchr(it->bytes, '\n', it->length);
    if (!end) return 0;
    *end = 0;
    const char *line = (char *)it->bytes, *number = strstr(line, "\"number\":");
    if (!strstr(line, "\"ok\":") || !number || strtoull(number + 9, NULL, 10) != it->number)
        fail("a reply", line, end - it->bytes);
    drop(it, end - it->bytes + 1);
    return 1;
}

// HTTP/2 has these kinds of frames, and flags of these.
enum { DATA, HEADERS, RESET = 3, SETTINGS, PING = 6, LEAVE, WINDOW };
enum { END_OF_STREAM = 1, ACKNOWLEDGED = 1, END_OF_HEADERS = 4, FRAME_HEAD = 9 };

static int write_number(unsigned char *to, uint32_t number) {
    number = htonl(number);
    memcpy(to, &number, 4);
    return 4;
}

static uint32_t number_at(const unsigned char *from) {
    uint32_t number;
    memcpy(&number, from, 4);
    return ntohl(number);
}

static int write_head(unsigned char *to, int length, int kind, int flags, uint32_t stream) {
    to[0] = length >> 16;
    to[1] = length >> 8;
    to[2] = length;
    to[3] = kind;
    to[4] = flags;
    write_number(to + 5, stream);
    return FRAME_HEAD;
}

// A text of fewer than 128 bytes after its length, as headers have them.
static int write_text(unsigned char *to, const char *text) {
    to[0] = strlen(text);
    memcpy(to + 1, text, to[0]);
    return 1 + to[0];
}

// A field of the message of a Put: its tag and its length, in sevens of bits, are before it.
static int write_field(unsigned char *to, int tag, const char *bytes, int length) {
    int at = 0;
    to[at++] = tag;
    if (length > 127) to[at++] = length | 128;
    to[at++] = length > 127 ? length >> 7 : length;
    memcpy(to + at, bytes, length);
    return at + length;
}

static void open_etcd(struct client *it) {
    static const char preface[] = "PRI * HTTP/2.0\r\n\r\nSM\r\n\r\n";
    unsigned char to[128];
    int at = sizeof preface - 1;
    memcpy(to, preface, at);
    at += write_head(to + at, 0, SETTINGS, 0, 0);
    // replies of all commands fit in this window, so it is never opened again
    at += write_head(to + at, 4, WINDOW, 0, 0);
    at += write_number(to + at, 1 << 30);
    send_bytes(it, to, at);
    it->stream = 1;
}

// The headers by the numbers of HPACK's own table where it has them: POST, http, a path, a host, a kind of content.
static int write_headers(unsigned char *to) {
    char host[32];
    int at = 0;
    snprintf(host, sizeof host, "127.0.0.1:%d", port);
    to[at++] = 0x83;
    to[at++] = 0x86;
    to[at++] = 0x04;
    at += write_text(to + at, "/etcdserverpb.KV/Put");
    to[at++] = 0x01;
    at += write_text(to + at, host);
    to[at++] = 0x0f;
    to[at++] = 0x10;
    at += write_text(to + at, "application/grpc");
    to[at++] = 0x00;
    at += write_text(to + at, "te");
    return at + write_text(to + at, "trailers");
}

static void send_put(struct client *it) {
    unsigned char to[1024], headers[256], message[512];
    char key[64], value[2 * COMMAND_BYTES];
    int size = write_headers(headers);
    int at = write_head(to, size, HEADERS, END_OF_HEADERS, it->stream);
    memcpy(to + at, headers, size);
    at += size;
    size = write_field(message, 0x0a, key, sprintf(key, "log/%llu/%llu", it->session, it->number));
    size += write_field(message + size, 0x12, value, write_command(it, value));
    at += write_head(to + at, 5 + size, DATA, END_OF_STREAM, it->stream);
    // a message of gRPC is not compressed, and its length is before it
    to[at++] = 0;
    at += write_number(to + at, size);
    memcpy(to + at, message, size);
    it->has_data = 0;
    send_bytes(it, to, at + size);
}

// Takes a frame of etcd, and gives whether the reply ends with it. One to a Put that was refused has no data.
static int take_frame(struct client *it, const unsigned char *frame, int length) {
    unsigned char back[FRAME_HEAD + 8];
    int kind = frame[3], flags = frame[4], is_own = number_at(frame + 5) == it->stream;
    if (kind == RESET || kind == LEAVE) fail("etcd ends a stream", frame + FRAME_HEAD, length);
    if (kind == DATA && is_own) it->has_data = 1;
    if ((kind == SETTINGS || kind == PING) && !(flags & ACKNOWLEDGED)) {
        int size = kind == PING ? 8 : 0;
        memcpy(back + write_head(back, size, kind, ACKNOWLEDGED, 0), frame + FRAME_HEAD, size);
        send_bytes(it, back, FRAME_HEAD + size);
    }
    if (kind != HEADERS || !is_own || !(flags & END_OF_STREAM)) return 0;
    if (!it->has_data) fail("etcd refuses a Put", frame + FRAME_HEAD, length);
    it->stream += 2;
    return 1;
}

static int has_put(struct client *it) {
    int at = 0, has_ended = 0;
    while (it->length - at >= FRAME_HEAD) {
        const unsigned char *frame = it->bytes + at;
        int length = frame[0] << 16 | frame[1] << 8 | frame[2];
        if (it->length - at < FRAME_HEAD + length) break;
        has_ended |= take_frame(it, frame, length);
        at += FRAME_HEAD + length;
    }
    drop(it, at);
    return has_ended;
}

static struct client clients[MOST_CLIENTS];
static struct pollfd polled[MOST_CLIENTS];
static int client_count, is_etcd;

static void open_clients(unsigned long long session) {
    for (int k = 0; k < client_count; k++) {
        clients[k].session = session + k;
        connect_client(&clients[k]);
        if (is_etcd) open_etcd(&clients[k]);
        polled[k] = (struct pollfd){.fd = clients[k].connection, .events = POLLIN};
    }
}

static void ask(struct client *it) {
    it->number++;
    it->began = now();
    if (is_etcd) send_put(it); else send_line(it);
}

static int has_reply(struct client *it) {
    read_bytes(it);
    return is_etcd ? has_put(it) : has_line(it);
}

// Has so many commands done, and notes how long each took. It gives when the last that is not measured was.
static long long run(long long *took, long all, long warm) {
    long sent = 0, done = 0;
    long long measured = now();
    for (; sent < client_count && sent < all; sent++) ask(&clients[sent]);
    while (done < all) {
        if (poll(polled, client_count, PATIENCE_MS) <= 0) fail("no reply for", "ten seconds", 11);
        for (int k = 0; k < client_count; k++) {
            if (!polled[k].revents || !has_reply(&clients[k])) continue;
            took[done++] = now() - clients[k].began;
            if (done == warm) measured = now();
            if (sent == all) continue;
            sent++;
            ask(&clients[k]);
        }
    }
    return measured;
}

int main(int words, char **word) {
    is_etcd = words == 7 && !strcmp(word[1], "etcd");
    client_count = words == 7 ? atoi(word[3]) : 0;
    if (client_count < 1 || client_count > MOST_CLIENTS || (!is_etcd && strcmp(word[1], "lines"))) {
        fputs("usage: load lines|etcd PORT CLIENTS COUNT WARM SESSION\n", stderr);
        return 2;
    }
    port = atoi(word[2]);
    long warm = atol(word[5]), all = atol(word[4]) + warm;
    long long *took = malloc(all * sizeof *took);
    if (!took) fail_call("malloc");
    open_clients(strtoull(word[6], NULL, 10));
    long long measured = run(took, all, warm);
    printf("%lld\n", now() - measured);
    for (long k = warm; k < all; k++) printf("%lld\n", took[k]);
    return 0;
}
