/* Runs the program on one input after the other, in this process.
 *
 * The program's object file is linked here with its `main` named `program`. To start a process is most of a run on a small input;
 * and a program that kept anything from one run to the next would show it here.
 *
 * Standard input, again and again: a number of bytes, no more than a pipe holds, and these. Standard output, for each: what the
 * program returned, the number of bytes that it printed, and these. Numbers are of four bytes, little-endian. */
#include <errno.h>
#include <stdint.h>
#include <stdlib.h>
#include <unistd.h>

enum { MOST_BYTES = 4096, PATIENCE_SECONDS = 20 };

int program(void);

/* What the program asks of the library that rt links it with. */
int rattle_errno(void);

int rattle_errno(void) {
    return errno;
}

static void demand(int holds) {
    if (!holds) {
        _exit(1);
    }
}

/* Reads until the area is full or the input ends. */
static size_t read_up_to(int from, void *area, size_t size) {
    size_t have = 0;
    ssize_t more = 1;
    while (have < size && more > 0) {
        more = read(from, (char *)area + have, size - have);
        demand(more >= 0);
        have += (size_t)more;
    }
    return have;
}

/* Puts an end of a pipe in the place of a standard stream. */
static void put(int end, int stream) {
    demand(dup2(end, stream) == stream);
    close(end);
}

/* A run that hangs is ended by the alarm, and this process with it. */
static void serve(const void *input, size_t size, int replies) {
    int in[2], out[2];
    demand(pipe(in) == 0 && pipe(out) == 0);
    demand(write(in[1], input, size) == (ssize_t)size);
    close(in[1]);
    put(in[0], STDIN_FILENO);
    put(out[1], STDOUT_FILENO);
    struct { uint32_t status, size; char text[MOST_BYTES]; } reply;
    alarm(PATIENCE_SECONDS);
    reply.status = (uint32_t)program();
    alarm(0);
    close(STDOUT_FILENO);
    reply.size = (uint32_t)read_up_to(out[0], reply.text, MOST_BYTES);
    close(out[0]);
    size_t length = 2 * sizeof(uint32_t) + reply.size;
    demand(write(replies, &reply, length) == (ssize_t)length);
}

int main(void) {
    uint32_t size;
    static char input[MOST_BYTES];
    /* the standard streams are the program's */
    int requests = dup(STDIN_FILENO), replies = dup(STDOUT_FILENO);
    demand(requests >= 0 && replies >= 0);
    while (read_up_to(requests, &size, sizeof size) == sizeof size) {
        demand(size <= MOST_BYTES && read_up_to(requests, input, size) == size);
        serve(input, size, replies);
    }
    return 0;
}
