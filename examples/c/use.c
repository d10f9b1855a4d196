/* The program over the C library: it reads a test from standard input, and takes the words that `lw` takes.

   cc -I include examples/c/use.c crates/lw_library/out/liblw_library.a -o /tmp/lw-in-c
   /tmp/lw-in-c states < examples/SB-x86.litmus

   Two numbers in the environment, LW_MEMORY and LW_ROOM, say how many bytes it lends and how many bytes of room it gives. */
#include "lw.h"

#include <stdio.h>
#include <stdlib.h>
#include <string.h>

/* Returns the number that a variable of the environment has, or `otherwise` if there is no such variable. */
static size_t read_size(const char *name, size_t otherwise)
{
    const char *text = getenv(name);
    return text ? (size_t)strtoull(text, NULL, 10) : otherwise;
}

/* The request of a command line: a command, and for a replay its schedule and protocol; the schedule of other commands is NULL. */
struct request {
    const char *command;
    const char *schedule;
    uint32_t protocol;
};

/* Sets the protocol that a name means. Returns whether it is the name of one. */
static int find_protocol(const char *name, uint32_t *protocol)
{
    *protocol = strcmp(name, "moesi") ? LW_MESI : LW_MOESI;
    return !strcmp(name, "mesi") || !strcmp(name, "moesi");
}

/* Sets the request of the words of a command line. Returns whether they are one, as `lw` takes them. */
static int parse_request(int words, char **word, struct request *request)
{
    const char *command = words > 1 ? word[1] : "";
    *request = (struct request){command, NULL, LW_MESI};
    if (!strcmp(command, "states") || !strcmp(command, "schedules") || !strcmp(command, "compile"))
        return words == 2;
    if (strcmp(command, "replay") || words < 3)
        return 0;
    request->schedule = word[2];
    return words == 3 || (words == 5 && !strcmp(word[3], "--protocol") && find_protocol(word[4], &request->protocol));
}

/* Calls the function of a request. It writes into `room`, which has `size` bytes, and sets `result`. */
static void call(const struct request *request, struct lw_memory memory, const uint8_t *text, size_t length, uint8_t *room, size_t size,
                 struct lw_told *result)
{
    if (request->schedule)
        lw_replay(memory, text, length, (const uint8_t *)request->schedule, strlen(request->schedule), request->protocol, room, size,
                  result);
    else if (!strcmp(request->command, "states"))
        lw_states(memory, text, length, room, size, result);
    else if (!strcmp(request->command, "schedules"))
        lw_schedules(memory, text, length, room, size, result);
    else
        lw_compile(memory, text, length, room, size, result);
}

/* Prints the line of a fault. Returns the exit status that is passed. */
static int refuse(const char *line, int status)
{
    fputs(line, stderr);
    return status;
}

int main(int words, char **word)
{
    static uint8_t text[65537]; /* one byte more than a test may have */
    struct request request;
    if (!parse_request(words, word, &request))
        return refuse("usage: lw states | lw compile | lw schedules | lw replay SCHEDULE\n", 2);

    size_t length = fread(text, 1, sizeof text, stdin);
    if (ferror(stdin))
        return refuse("lw: read failed\n", 4);

    size_t lent = read_size("LW_MEMORY", (size_t)256 << 20), size = read_size("LW_ROOM", (size_t)1 << 20);
    struct lw_memory memory = {lent < 16 ? NULL : aligned_alloc(16, lent / 16 * 16), lent / 16 * 16};
    uint8_t *room = malloc(size ? size : 1);
    struct lw_told result;
    if ((lent >= 16 && !memory.at) || !room)
        return refuse("lw: memory\n", 4);

    call(&request, memory, text, length, room, size, &result);
    if (result.kind == LW_ROOM_TOO_SMALL) {
        room = realloc(room, result.length);
        if (!room)
            return refuse("lw: memory\n", 4);
        call(&request, memory, text, length, room, result.length, &result);
    }
    if (result.kind == LW_FAULT) {
        fwrite(room, 1, result.length, stderr);
        fputc('\n', stderr);
    } else if (fwrite(room, 1, result.length, stdout) != result.length || fflush(stdout)) {
        return refuse("lw: write failed\n", 4);
    }
    return (int)result.status;
}
