/* An inetd in small, as an example of the gate's calls. Listens on the loopback addresses, takes all connections that wait, up to 32, reads
 * the sheet anew, asks the gate for all of them in one call, tells each client the word, and logs to standard error, with the command of the
 * rule as it would be run. Runs nothing.
 *   inetd [-p PORT] [-i IDENT_PORT] [-t MILLISECONDS] SHEET DAEMON
 * PORT 0 is any free port; the ports are written to standard output. The client's user is asked of its ident server (RFC 1413) only when
 * the gate says "ask" and that the name matters, and is unknown where no sound answer comes in time. Names are not looked up, so rules by
 * name match nothing.
 *
 * The sheet's index is kept in memory, and made again where the gate says that it is not this sheet's [21]. So nothing has to be watched: a
 * file's times may stay while its bytes change, and an index in a file of its own would be one more file that can be old, cut or missing,
 * while making it costs no more than a check of the sheet. */
#define _GNU_SOURCE
#include <arpa/inet.h>
#include <errno.h>
#include <fcntl.h>
#include <netinet/in.h>
#include <poll.h>
#include <stdio.h>
#include <stdlib.h>
#include <string.h>
#include <sys/socket.h>
#include <sys/wait.h>
#include <time.h>
#include <unistd.h>
#include "gate.h"

enum { MOST_CHILDREN = 64, IDENT_LINE = 1000 };

static const char *sheet_path, *daemon_name;
static unsigned long port, ident_port = 113, timeout = 3000;

struct connection {
    int fd;
    struct sockaddr_storage client, server;
    socklen_t client_len, server_len;
};

/* The sheet as it was read last, and the index that was made last. */
static uint8_t sheet[GATE_SHEET_LIMIT + 1], sheet_index[GATE_INDEX_ROOM];
static size_t sheet_len, index_len;

static void fail(const char *what) {
    perror(what);
    exit(2);
}

/* Log lines begin with daemon and client as %d and %c write them: whatever bytes an ident server sends, the log stays one line. */
static void log_line(const struct gate_request *request, const char *what) {
    char who[GATE_DAEMON_LIMIT + 2 + GATE_USER_LIMIT + 1 + GATE_NAME_LIMIT];
    struct gate_written w = gate_expand_for(who, sizeof who, "%d: %c", 6, request, 0);
    dprintf(2, "%.*s: %s\n", w.number == GATE_ANSWERED ? (int)w.count : 0, who, what);
}

static in_port_t *port_of(struct sockaddr_storage *address) {
    return address->ss_family == AF_INET ? &((struct sockaddr_in *)address)->sin_port : &((struct sockaddr_in6 *)address)->sin6_port;
}

static struct gate_host host_of(const struct sockaddr_storage *address) {
    if (address->ss_family == AF_INET)
        return gate_host_ipv4(&((const struct sockaddr_in *)address)->sin_addr);
    return gate_host_ipv6(&((const struct sockaddr_in6 *)address)->sin6_addr);
}

/* Ident */

static long milliseconds(void) {
    struct timespec now;
    clock_gettime(CLOCK_MONOTONIC, &now);
    return now.tv_sec * 1000 + now.tv_nsec / 1000000;
}

/* Is fd ready before the deadline? */
static int ready(int fd, short events, long deadline) {
    struct pollfd p = {.fd = fd, .events = events};
    long left = deadline - milliseconds();
    return left > 0 && poll(&p, 1, (int)left) == 1;
}

/* A connection from our end's address to the client's ident server, or -1. */
static int ident_connect(const struct connection *c, long deadline) {
    struct sockaddr_storage from = c->server, to = c->client;
    int fault = 0, fd = socket(to.ss_family, SOCK_STREAM | SOCK_NONBLOCK, 0);
    socklen_t fault_len = sizeof fault;
    *port_of(&from) = 0;
    *port_of(&to) = htons((uint16_t)ident_port);
    if (fd >= 0 && bind(fd, (struct sockaddr *)&from, c->server_len) == 0 &&
        (connect(fd, (struct sockaddr *)&to, c->client_len) == 0 || errno == EINPROGRESS) && ready(fd, POLLOUT, deadline) &&
        getsockopt(fd, SOL_SOCKET, SO_ERROR, &fault, &fault_len) == 0 && fault == 0)
        return fd;
    if (fd >= 0)
        close(fd);
    return -1;
}

/* Reads one line, without its ending, as a string; 0 where none came in time or it is too long. */
static int read_line(int fd, char *line, long deadline) {
    size_t len = 0;
    char *end = NULL;
    while (!end && len < IDENT_LINE && ready(fd, POLLIN, deadline)) {
        ssize_t n = recv(fd, line + len, IDENT_LINE - len, 0);
        if (n <= 0)
            return 0;
        end = memchr(line + len, '\n', (size_t)n);
        len += (size_t)n;
    }
    if (!end || memchr(line, 0, (size_t)(end - line)))
        return 0;
    end[end > line && end[-1] == '\r' ? -1 : 0] = 0;
    return 1;
}

/* The user in `PORT , PORT : USERID : SYSTEM : USER`, for our ports; null where the line is anything else. */
static const char *user_in(const char *line, unsigned client_port, unsigned server_port) {
    unsigned theirs, ours;
    int at = 0;
    if (sscanf(line, " %5u , %5u : USERID :%*[^:]:%n", &theirs, &ours, &at) != 2 || !at || theirs != client_port || ours != server_port)
        return NULL;
    line += at;
    line += strspn(line, " \t");
    return *line && strlen(line) <= GATE_USER_LIMIT ? line : NULL;
}

/* Sets the request's user: the one that the ident server names, or none. name has IDENT_LINE bytes. */
static void fetch_user(struct connection *c, struct gate_request *request, char *name) {
    long deadline = milliseconds() + (long)timeout;
    unsigned client_port = ntohs(*port_of(&c->client)), server_port = ntohs(*port_of(&c->server));
    int fd = ident_connect(c, deadline);
    const char *user = NULL;
    if (fd >= 0) {
        char query[16];
        int len = snprintf(query, sizeof query, "%u,%u\r\n", client_port, server_port);
        if (send(fd, query, (size_t)len, MSG_NOSIGNAL) == len && read_line(fd, name, deadline))
            user = user_in(name, client_port, server_port);
        close(fd);
    }
    gate_request_set_user(request, user, user ? strlen(user) : 0);
}

/* The gate */

/* Reads the sheet; 0, or errno where it can't be read. One byte over the limit is enough to have a longer file refused. */
static int read_sheet(void) {
    ssize_t n = 1;
    int fd = open(sheet_path, O_RDONLY | O_CLOEXEC);
    sheet_len = 0;
    while (fd >= 0 && n > 0 && sheet_len < sizeof sheet) {
        n = read(fd, sheet + sheet_len, sizeof sheet - sheet_len);
        sheet_len += n > 0 ? (size_t)n : 0;
    }
    int fault = errno;
    if (fd >= 0)
        close(fd);
    return fd < 0 || n < 0 ? fault : 0;
}

static struct gate_checked ask_all(struct gate_answer *answers, const struct gate_request *requests, size_t count) {
    return gate_verdicts_for(answers, sheet, sheet_len, sheet_index, index_len, requests, count);
}

/* The gate's answers to requests, by the sheet that was read and the kept index, which is made again where it is not that sheet's. */
static struct gate_checked decide(struct gate_answer *answers, const struct gate_request *requests, size_t count) {
    struct gate_checked whole = ask_all(answers, requests, count);
    if (whole.number != GATE_WRONG_INDEX)
        return whole;
    index_len = (size_t)gate_index(sheet_index, sizeof sheet_index, sheet, sheet_len).count;
    dprintf(2, "inetd: index of %zu rules made\n", (index_len - 8) / 32);
    return ask_all(answers, requests, count);
}

static void log_refusal(const struct gate_request *request, uint32_t number, uint32_t section, uint64_t line) {
    char what[200];
    snprintf(what, sizeof what, "refused %u (%s), section %u (%s), line %llu", number, gate_number_text(number), section,
             gate_section_text(section), (unsigned long long)line);
    log_line(request, what);
}

/* Logs a verdict with its rule, and the rule's command as it would be run. */
static void log_verdict(const struct gate_request *request, const struct gate_answer *a) {
    static char what[100 + GATE_EXPANSION_ROOM], command[GATE_EXPANSION_ROOM];
    struct gate_written w = gate_expand_for(command, sizeof command, sheet + a->place, (size_t)a->len, request, (uint32_t)getpid());
    snprintf(what, sizeof what, "%s, %s line %llu%s%.*s", gate_word_text(a->word), a->file ? gate_section_text(a->file) : "no rule,",
             (unsigned long long)a->line, w.count ? ", would run: " : "", (int)w.count, command);
    log_line(request, what);
}

/* Sets the request's user where the gate asks for him. A lookup makes the client wait, so there is none where every user gets the same
 * answer: unknown is then as good as any, and is what %u writes. */
static void settle_user(struct connection *c, struct gate_request *request, char *name) {
    if (gate_sheet_name_matters_for(sheet, sheet_len, request).word == GATE_NAME_MATTERS)
        fetch_user(c, request, name);
    else
        gate_request_set_user(request, NULL, 0);
}

/* Is the connection granted, by the answer to its request? Whatever is not answered "granted" is not. A lookup of the user takes its time, so
 * it is made here, in the child, and the second question goes by the sheet alone. */
static int granted(struct connection *c, struct gate_request *request, struct gate_answer answer) {
    char user[IDENT_LINE];
    if (answer.number == GATE_ANSWERED && answer.word == GATE_ASK) {
        settle_user(c, request, user);
        answer = gate_sheet_verdict_for(sheet, sheet_len, request);
    }
    if (answer.number != GATE_ANSWERED) {
        log_refusal(request, answer.number, answer.section, answer.line);
        return 0;
    }
    log_verdict(request, &answer);
    return answer.word == GATE_GRANTED;
}

/* Connections */

static int listen_at(int family) {
    struct sockaddr_storage address = {.ss_family = (sa_family_t)family};
    socklen_t len = family == AF_INET ? sizeof(struct sockaddr_in) : sizeof(struct sockaddr_in6);
    int on = 1, fd = socket(family, SOCK_STREAM | SOCK_NONBLOCK | SOCK_CLOEXEC, 0);
    if (family == AF_INET)
        ((struct sockaddr_in *)&address)->sin_addr.s_addr = htonl(INADDR_LOOPBACK);
    else
        ((struct sockaddr_in6 *)&address)->sin6_addr = in6addr_loopback;
    *port_of(&address) = htons((uint16_t)port);
    if (fd < 0 || setsockopt(fd, SOL_SOCKET, SO_REUSEADDR, &on, sizeof on) ||
        (family == AF_INET6 && setsockopt(fd, IPPROTO_IPV6, IPV6_V6ONLY, &on, sizeof on)) ||
        bind(fd, (struct sockaddr *)&address, len) || listen(fd, 128) || getsockname(fd, (struct sockaddr *)&address, &len))
        fail(family == AF_INET ? "127.0.0.1" : "::1");
    printf("%s %u\n", family == AF_INET ? "127.0.0.1" : "::1", ntohs(*port_of(&address)));
    return fd;
}

/* A connection that waits; 0 where there is none. */
static int next_connection(int listener, struct connection *c) {
    for (;;) {
        c->client_len = sizeof c->client;
        c->server_len = sizeof c->server;
        c->fd = accept(listener, (struct sockaddr *)&c->client, &c->client_len);
        if (c->fd < 0)
            return 0;
        if (getsockname(c->fd, (struct sockaddr *)&c->server, &c->server_len) == 0)
            return 1;
        close(c->fd);
    }
}

/* Tells a client the word; no_sheet says why there is no sheet, and is 0 where there is one. */
static void tell(struct connection *c, struct gate_request *request, int no_sheet, struct gate_answer answer) {
    char what[200];
    snprintf(what, sizeof what, "refused, no sheet: %s", strerror(no_sheet));
    if (no_sheet)
        log_line(request, what);
    const char *word = !no_sheet && granted(c, request, answer) ? "granted\n" : "refused\n";
    send(c->fd, word, strlen(word), MSG_NOSIGNAL);
}

static void close_all(const struct connection *connections, size_t count) {
    for (size_t i = 0; i < count; i++)
        close(connections[i].fd);
}

/* The answers to a burst. Where the whole call is refused, each connection is. */
static int ask_burst(struct gate_answer *answers, struct gate_request *requests, const struct connection *burst, size_t count) {
    int no_sheet = read_sheet();
    for (size_t i = 0; i < count; i++) {
        requests[i] = gate_request_to(daemon_name, strlen(daemon_name));
        requests[i].client = host_of(&burst[i].client);
        requests[i].server = host_of(&burst[i].server);
    }
    struct gate_checked whole = no_sheet ? (struct gate_checked){0, 0, 0} : decide(answers, requests, count);
    for (size_t i = 0; i < count && whole.number != GATE_ANSWERED; i++)
        answers[i] = (struct gate_answer){.number = whole.number, .section = whole.section, .line = whole.line};
    return no_sheet;
}

/* Asks for all of a burst at once, and answers each in a child, as a child of inetd would go on to be the daemon. How many children that makes.
 * A child has none of the other connections: a client waits for the end of its own alone. */
static int serve(const struct connection *burst, size_t count) {
    struct gate_request requests[GATE_REQUESTS];
    struct gate_answer answers[GATE_REQUESTS] = {{0}};
    int children = 0, no_sheet = ask_burst(answers, requests, burst, count);
    if (count > 1)
        dprintf(2, "inetd: %zu connections at once\n", count);
    for (size_t i = 0; i < count; i++) {
        struct connection c = burst[i];
        pid_t child = fork();
        if (child < 0)
            perror("fork");
        if (child == 0) {
            close_all(burst + i + 1, count - i - 1);
            tell(&c, &requests[i], no_sheet, answers[i]);
            _exit(0);
        }
        close(c.fd);
        children += child > 0;
    }
    return children;
}

/* Children that have ended are counted off; where there are too many, one is waited for. */
static int reap(int children) {
    while (children > 0 && waitpid(-1, NULL, children < MOST_CHILDREN ? WNOHANG : 0) > 0)
        children--;
    return children;
}

/* A number of only digits, at most `most`. */
static unsigned long number(const char *text, unsigned long most) {
    char *end;
    unsigned long n = strtoul(text, &end, 10);
    if (strspn(text, "0123456789") != strlen(text) || !*text || *end || n > most) {
        fprintf(stderr, "inetd: not a number up to %lu: %s\n", most, text);
        exit(2);
    }
    return n;
}

/* Reads the options; whatever is not understood ends the program. */
static void read_options(int argc, char **argv) {
    int option;
    while ((option = getopt(argc, argv, "p:i:t:")) != -1) {
        unsigned long *value = option == 'p' ? &port : option == 'i' ? &ident_port : option == 't' ? &timeout : NULL;
        if (value)
            *value = number(optarg, option == 't' ? 60000 : 65535);
        else
            optind = argc;
    }
    if (argc - optind != 2 || !*argv[optind + 1] || strlen(argv[optind + 1]) > GATE_DAEMON_LIMIT) {
        fprintf(stderr, "usage: inetd [-p PORT] [-i IDENT_PORT] [-t MILLISECONDS] SHEET DAEMON\n");
        exit(2);
    }
    sheet_path = argv[optind];
    daemon_name = argv[optind + 1];
}

/* All connections that wait at both addresses, as many as may be asked for at once. */
static int serve_all(const struct pollfd *listeners, int children) {
    struct connection burst[GATE_REQUESTS];
    size_t count = 0;
    for (int i = 0; i < 2; i++)
        while (listeners[i].revents & POLLIN && count < GATE_REQUESTS && next_connection(listeners[i].fd, &burst[count]))
            count++;
    return count ? children + serve(burst, count) : children;
}

int main(int argc, char **argv) {
    int children = 0;
    read_options(argc, argv);
    struct pollfd listeners[2] = {{.fd = listen_at(AF_INET), .events = POLLIN}, {.fd = listen_at(AF_INET6), .events = POLLIN}};
    fflush(stdout);
    for (;;) {
        int ready = poll(listeners, 2, 1000);
        if (ready < 0 && errno != EINTR)
            fail("poll");
        children = reap(ready > 0 ? serve_all(listeners, children) : children);
    }
}
