// In which parts a program writes, and what of them comes where there is little room: what is not taken is passed over, and the parts
// behind it are tried all the same.
//
//   parts list FD PROGRAM [ARGUMENT..]      prints the parts that it writes to FD, 1 or 2, one a line, a line end as \n
//   parts fit FD PROGRAM [ARGUMENT..]       runs it with every room from 0 bytes on, in a pipe that nobody reads and that does not
//                                           wait: there must come what fits of each part in turn
//
// Standard input is empty. Exit 0: all as said. Exit 1: something else came, printed. Exit 2: it could not be tried.
#define _GNU_SOURCE
#include <fcntl.h>
#include <stdio.h>
#include <stdlib.h>
#include <string.h>
#include <sys/socket.h>
#include <sys/wait.h>
#include <unistd.h>

// The room of a pipe of one page, and of the bytes of all parts.
enum { PAGE = 4096, MOST_BYTES = 1 << 20, MOST_PARTS = 1 << 16 };

static char bytes[MOST_BYTES];
static size_t ends[MOST_PARTS];
static size_t parts;

static void stop(const char *what) {
    perror(what);
    exit(2);
}

// Starts the program with FD at `to`; the other output goes nowhere.
static pid_t start(int fd, int to, char **command) {
    pid_t child = fork();
    if (child < 0)
        stop("fork");
    if (child == 0) {
        int none = open("/dev/null", O_RDWR);
        if (none < 0 || dup2(none, 0) < 0 || dup2(none, 3 - fd) < 0 || dup2(to, fd) < 0)
            stop("dup2");
        execv(command[0], command);
        stop(command[0]);
    }
    close(to);
    return child;
}

static void end(pid_t child) {
    int status;
    if (waitpid(child, &status, 0) < 0)
        stop("waitpid");
    if (!WIFEXITED(status) || WEXITSTATUS(status) != 0) {
        fprintf(stderr, "parts: the program ended with %d\n", status);
        exit(2);
    }
}

// Reads its parts, from a socket that keeps each write apart.
static void read_parts(int fd, char **command) {
    int pair[2];
    if (socketpair(AF_UNIX, SOCK_SEQPACKET | SOCK_CLOEXEC, 0, pair) < 0)
        stop("socketpair");
    pid_t child = start(fd, pair[1], command);
    size_t had = 0;
    for (;;) {
        ssize_t n = recv(pair[0], bytes + had, MOST_BYTES - had, MSG_TRUNC);
        if (n < 0)
            stop("recv");
        if (n == 0)
            break;
        had += (size_t)n;
        if (had > MOST_BYTES || parts == MOST_PARTS) {
            fprintf(stderr, "parts: it writes more than there is room for here\n");
            exit(2);
        }
        ends[parts++] = had;
    }
    close(pair[0]);
    end(child);
}

// What comes where there is room for so many bytes; how many came.
static size_t come(int fd, size_t room, char **command, char *came) {
    static char front[PAGE];
    int ends_of[2];
    if (pipe2(ends_of, O_NONBLOCK | O_CLOEXEC) < 0)
        stop("pipe2");
    if (fcntl(ends_of[1], F_SETPIPE_SZ, PAGE) != PAGE)
        stop("F_SETPIPE_SZ");
    size_t before = PAGE - room;
    if (before > 0 && write(ends_of[1], front, before) != (ssize_t)before)
        stop("write");
    end(start(fd, ends_of[1], command));
    size_t had = 0;
    for (;;) {
        ssize_t n = read(ends_of[0], came + had, 2 * PAGE - had);
        if (n < 0)
            stop("read");
        if (n == 0)
            break;
        had += (size_t)n;
    }
    close(ends_of[0]);
    memmove(came, came + before, had - before);
    return had - before;
}

// What fits of each part in turn.
static size_t fitting(size_t room, char *fit) {
    size_t had = 0;
    for (size_t i = 0; i < parts; i++) {
        size_t from = i == 0 ? 0 : ends[i - 1];
        size_t n = ends[i] - from;
        if (n <= room - had) {
            memcpy(fit + had, bytes + from, n);
            had += n;
        }
    }
    return had;
}

static void list(void) {
    size_t at = 0;
    for (size_t i = 0; i < parts; i++) {
        for (; at < ends[i]; at++) {
            if (bytes[at] == '\n')
                fputs("\\n", stdout);
            else
                putchar(bytes[at]);
        }
        putchar('\n');
    }
}

static int fit(int fd, char **command) {
    static char came[2 * PAGE], expected[2 * PAGE];
    size_t rooms = 0;
    for (size_t room = 0; room <= PAGE; room += 1 + room / 64, rooms++) {
        size_t n = come(fd, room, command, came);
        size_t m = fitting(room, expected);
        if (n != m || memcmp(came, expected, n) != 0) {
            printf("with room for %zu bytes %zu come, and %zu fit:\n%.*s\n", room, n, m, (int)n, came);
            return 1;
        }
    }
    printf("%zu parts, with %zu rooms: %s\n", parts, rooms, command[0]);
    return 0;
}

int main(int argc, char **argv) {
    int lists = argc > 3 && strcmp(argv[1], "list") == 0;
    int fits = argc > 3 && strcmp(argv[1], "fit") == 0;
    if ((!lists && !fits) || (strcmp(argv[2], "1") != 0 && strcmp(argv[2], "2") != 0)) {
        fprintf(stderr, "usage: parts list|fit 1|2 PROGRAM [ARGUMENT..]\n");
        return 2;
    }
    int fd = argv[2][0] - '0';
    read_parts(fd, argv + 3);
    if (lists) {
        list();
        return 0;
    }
    return fit(fd, argv + 3);
}
