// A node that does only a part of what a desk's does: it saves and sends in the same order, without documents, a board
// or the state of a protocol. Three of these show which part of a command's time goes to saves and messages.
//
//     bare_nodes MODE PORT FILE                          a backup
//     bare_nodes MODE PORT FILE BACKUP_PORT BACKUP_PORT  the primary, once both backups are ready
//
// It prints "ready", and runs until its standard input ends. Clients send lines to the primary, and get a line like a
// reply of the desk for each. The primary saves a command, then sends it to both backups; each saves it, and then
// acknowledges it. Once one has, the primary saves that it is committed, replies, and tells both backups, which save
// that. So a command has six saves, of which three come one after the other, and no two commands share a save.
//
// By MODE `saves` writes over a file of zeros, so that a sync has nothing to write but data; `sqlite` has SQLite keep
// two tables, in WAL mode with synchronous = FULL, where it is compiled WITH_SQLITE; `messages` saves nothing.
#define _GNU_SOURCE
#include <arpa/inet.h>
#include <errno.h>
#include <fcntl.h>
#include <netinet/tcp.h>
#include <poll.h>
#include <stddef.h>
#include <stdint.h>
#include <stdio.h>
#include <stdlib.h>
#include <string.h>
#include <sys/socket.h>
#include <unistd.h>
#ifdef WITH_SQLITE
#include <sqlite3.h>
#endif

enum { FILE_BYTES = 16 << 20, READ_BYTES = 1 << 16, BACKUPS = 2, MOST_CLIENTS = 64, MOST_LINE = 1024 };

static _Noreturn void fail(const char *what, const char *why) {
    fprintf(stderr, "bare_nodes: %s: %s\n", what, why);
    exit(1);
}

static _Noreturn void fail_call(const char *what) {
    fail(what, strerror(errno));
}

// Saves a command at its place, or, where the place is 0, only up to which place all are committed.
static void (*save)(uint64_t place, uint64_t committed, const void *bytes, int length);

static void save_nowhere(uint64_t place, uint64_t committed, const void *bytes, int length) {
    (void)place, (void)committed, (void)bytes, (void)length;
}

static int file;
static off_t file_at;

static void save_in_file(uint64_t place, uint64_t committed, const void *bytes, int length) {
    (void)place, (void)committed;
    if (file_at + length > FILE_BYTES) file_at = 0;
    if (pwrite(file, bytes, length, file_at) != length) fail_call("pwrite");
    if (fdatasync(file)) fail_call("fdatasync");
    file_at += length;
}

static void fill_file(const char *name) {
    // in small pieces: of a large one ext4 would keep a large folio, and write all of it for each command
    static char zeros[4096];
    file = open(name, O_RDWR | O_CREAT | O_TRUNC, 0600);
    if (file < 0) fail_call(name);
    for (off_t at = 0; at < FILE_BYTES; at += sizeof zeros)
        if (pwrite(file, zeros, sizeof zeros, at) != sizeof zeros) fail_call("pwrite");
    if (fsync(file)) fail_call("fsync");
}

#ifdef WITH_SQLITE
static sqlite3 *base;
static sqlite3_stmt *begin, *insert, *update, *commit;

static void execute(const char *statement) {
    if (sqlite3_exec(base, statement, NULL, NULL, NULL)) fail(statement, sqlite3_errmsg(base));
}

static sqlite3_stmt *prepared(const char *statement) {
    sqlite3_stmt *it;
    if (sqlite3_prepare_v2(base, statement, -1, &it, NULL)) fail(statement, sqlite3_errmsg(base));
    return it;
}

static void step(sqlite3_stmt *it) {
    if (sqlite3_step(it) != SQLITE_DONE) fail("sqlite3_step", sqlite3_errmsg(base));
    sqlite3_reset(it);
}

static void save_in_tables(uint64_t place, uint64_t committed, const void *bytes, int length) {
    step(begin);
    if (place) {
        sqlite3_bind_int64(insert, 1, place);
        sqlite3_bind_blob(insert, 2, bytes, length, SQLITE_STATIC);
        step(insert);
    }
    sqlite3_bind_int64(update, 1, committed);
    step(update);
    step(commit);
}

// The tables node and entry of docs/FORMATS.md.
static void make_tables(const char *name) {
    if (sqlite3_open(name, &base)) fail(name, sqlite3_errmsg(base));
    execute("PRAGMA journal_mode = WAL; PRAGMA synchronous = FULL;"
        "CREATE TABLE node (slot INTEGER PRIMARY KEY CHECK (slot = 1), version INTEGER NOT NULL, id INTEGER NOT NULL,"
        " n INTEGER NOT NULL, domain TEXT NOT NULL, view_no INTEGER NOT NULL, normal_no INTEGER NOT NULL,"
        " commit_no INTEGER NOT NULL);"
        "CREATE TABLE entry (place INTEGER PRIMARY KEY, client INTEGER NOT NULL, number INTEGER NOT NULL,"
        " body BLOB NOT NULL);"
        "INSERT INTO node VALUES (1, 1, 0, 3, 'desk.example', 0, 0, 0)");
    begin = prepared("BEGIN IMMEDIATE");
    insert = prepared("INSERT INTO entry VALUES (?1, 7, ?1, ?2)");
    update = prepared("UPDATE node SET commit_no = ?1 WHERE slot = 1");
    commit = prepared("COMMIT");
}
#endif

// Whether it can save so.
static int open_store(const char *mode, const char *name) {
    if (!strcmp(mode, "messages")) {
        save = save_nowhere;
    } else if (!strcmp(mode, "saves")) {
        save = save_in_file;
        fill_file(name);
#ifdef WITH_SQLITE
    } else if (!strcmp(mode, "sqlite")) {
        save = save_in_tables;
        make_tables(name);
#endif
    }
    return save != NULL;
}

struct connection {
    int stream, length;
    char bytes[READ_BYTES];
};

static void send_at_once(int stream) {
    int on = 1;
    setsockopt(stream, IPPROTO_TCP, TCP_NODELAY, &on, sizeof on);
}

static struct sockaddr_in address_of(int port) {
    struct sockaddr_in address = {.sin_family = AF_INET, .sin_port = htons(port)};
    address.sin_addr.s_addr = htonl(INADDR_LOOPBACK);
    return address;
}

static int listen_at(int port) {
    int stream = socket(AF_INET, SOCK_STREAM, 0), on = 1;
    struct sockaddr_in address = address_of(port);
    setsockopt(stream, SOL_SOCKET, SO_REUSEADDR, &on, sizeof on);
    if (bind(stream, (void *)&address, sizeof address) || listen(stream, MOST_CLIENTS)) fail_call("listen");
    return stream;
}

static int connect_to(int port) {
    int stream = socket(AF_INET, SOCK_STREAM, 0);
    struct sockaddr_in address = address_of(port);
    if (connect(stream, (void *)&address, sizeof address)) fail_call("connect");
    send_at_once(stream);
    return stream;
}

static int accept_from(int listener) {
    int stream = accept(listener, NULL, NULL);
    if (stream < 0) fail_call("accept");
    send_at_once(stream);
    return stream;
}

// What is sent is far less than what a connection's buffer takes, so no send is cut short. Whoever has gone gets none.
static void send_bytes(int stream, const void *bytes, int length) {
    send(stream, bytes, length, MSG_NOSIGNAL);
}

static int has_read(struct connection *it) {
    ssize_t got = recv(it->stream, it->bytes + it->length, READ_BYTES - it->length, 0);
    if (got > 0) it->length += got;
    return got > 0;
}

static void drop(struct connection *it, int length) {
    memmove(it->bytes, it->bytes + length, it->length - length);
    it->length -= length;
}

static int has_ended(const struct pollfd *input) {
    char bytes[64];
    return input->revents && read(0, bytes, sizeof bytes) <= 0;
}

static void say_ready(void) {
    puts("ready");
    fflush(stdout);
}

// What the primary sends a backup: a line at its place, or, where the place is 0, only up to which all are committed.
struct message {
    uint64_t length, place, committed;
    char line[MOST_LINE];
};
enum { MESSAGE_HEAD = offsetof(struct message, line) };

static void take_message(int primary, const struct message *it) {
    static uint64_t committed;
    int is_news = it->committed > committed;
    if (is_news) committed = it->committed;
    if (it->place || is_news) save(it->place, committed, it, MESSAGE_HEAD + it->length);
    if (it->place) send_bytes(primary, &it->place, sizeof it->place);
}

static int run_backup(int port) {
    static struct connection primary;
    int listener = listen_at(port);
    say_ready();
    primary.stream = accept_from(listener);
    for (;;) {
        struct pollfd polled[] = {{0, POLLIN, 0}, {primary.stream, POLLIN, 0}};
        poll(polled, 2, -1);
        if (has_ended(&polled[0])) return 0;
        if (!polled[1].revents) continue;
        if (!has_read(&primary)) return 0;
        struct message it;
        while (primary.length >= MESSAGE_HEAD) {
            memcpy(&it, primary.bytes, MESSAGE_HEAD);
            if (primary.length < MESSAGE_HEAD + (int)it.length) break;
            memcpy(it.line, primary.bytes + MESSAGE_HEAD, it.length);
            drop(&primary, MESSAGE_HEAD + it.length);
            take_message(primary.stream, &it);
        }
    }
}

static struct connection backups[BACKUPS], clients[MOST_CLIENTS];
static uint64_t last, committed;

// Who waits for the replies at the last places, and for which number.
enum { WAITING = 1 << 12 };
static struct { int stream; unsigned long long number; } waiting[WAITING];

static void send_backups(const struct message *it) {
    for (int k = 0; k < BACKUPS; k++) send_bytes(backups[k].stream, it, MESSAGE_HEAD + it->length);
}

static void take_line(struct connection *client, const char *line, int length) {
    struct message it = {.length = length < MOST_LINE ? length : MOST_LINE, .place = ++last, .committed = committed};
    memcpy(it.line, line, it.length);
    const char *number = memmem(line, length, "\"number\":", 9);
    waiting[last % WAITING].stream = client->stream;
    waiting[last % WAITING].number = number ? strtoull(number + 9, NULL, 10) : 0;
    save(last, committed, &it, MESSAGE_HEAD + it.length);
    send_backups(&it);
}

static void reply(uint64_t place) {
    char line[200];
    int length = snprintf(line, sizeof line, "{\"incident\":\"urn:emergency:uid:incidentid:%012llu:desk.example\","
        "\"number\":%llu,\"ok\":\"opened\",\"place\":%llu,\"session\":7}\n", (unsigned long long)place,
        waiting[place % WAITING].number, (unsigned long long)place);
    send_bytes(waiting[place % WAITING].stream, line, length);
}

static void take_acknowledgement(uint64_t place) {
    if (place <= committed) return;
    struct message it = {.committed = place};
    save(0, place, &it, MESSAGE_HEAD);
    while (committed < place) reply(++committed);
    send_backups(&it);
}

static void read_backup(struct connection *it) {
    if (!has_read(it)) fail("a backup", "it has ended");
    uint64_t place;
    while (it->length >= (int)sizeof place) {
        memcpy(&place, it->bytes, sizeof place);
        drop(it, sizeof place);
        take_acknowledgement(place);
    }
}

static void read_client(struct connection *it) {
    if (!has_read(it)) {
        close(it->stream);
        it->stream = -1;
        it->length = 0;
        return;
    }
    char *end;
    while ((end = memchr(it->bytes, '\n', it->length))) {
        int length = end - it->bytes + 1;
        take_line(it, it->bytes, length);
        drop(it, length);
    }
}

static void accept_client(int listener) {
    int stream = accept_from(listener);
    for (int k = 0; k < MOST_CLIENTS; k++) {
        if (clients[k].stream >= 0) continue;
        clients[k].stream = stream;
        return;
    }
    close(stream);
}

static int run_primary(int port, int first, int second) {
    enum { CLIENTS_AT = 2 + BACKUPS, POLLED = CLIENTS_AT + MOST_CLIENTS };
    int listener = listen_at(port);
    backups[0].stream = connect_to(first);
    backups[1].stream = connect_to(second);
    for (int k = 0; k < MOST_CLIENTS; k++) clients[k].stream = -1;
    say_ready();
    for (;;) {
        struct pollfd polled[POLLED] = {{0, POLLIN, 0}, {listener, POLLIN, 0}};
        for (int k = 0; k < BACKUPS; k++) polled[2 + k] = (struct pollfd){backups[k].stream, POLLIN, 0};
        for (int k = 0; k < MOST_CLIENTS; k++) polled[CLIENTS_AT + k] = (struct pollfd){clients[k].stream, POLLIN, 0};
        poll(polled, POLLED, -1);
        if (has_ended(&polled[0])) return 0;
        for (int k = 0; k < BACKUPS; k++) if (polled[2 + k].revents) read_backup(&backups[k]);
        for (int k = 0; k < MOST_CLIENTS; k++) if (polled[CLIENTS_AT + k].revents) read_client(&clients[k]);
        if (polled[1].revents) accept_client(listener);
    }
}

int main(int words, char **word) {
    if ((words != 4 && words != 6) || !open_store(word[1], word[3])) {
        fputs("usage: bare_nodes saves|sqlite|messages PORT FILE [BACKUP_PORT BACKUP_PORT]\n", stderr);
        return 2;
    }
    int port = atoi(word[2]);
    return words == 4 ? run_backup(port) : run_primary(port, atoi(word[4]), atoi(word[5]));
}
