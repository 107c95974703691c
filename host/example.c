/* The seamount (../examples/seamount.md) from C: a cable firm lends the chart house a sounding, gives the grid
 * compiler leave to release it, and withdraws the leave. Each answer is printed in words; example.out has what
 * must come out. */

#include "suvdorkhun.h"
#include <stdio.h>

enum { OFFICE = 0 /* the office's thread */, MEMORY = 8 };

static suvdorkhun_state state;
static suvdorkhun_principal_link links[SUVDORKHUN_LINKS];
static suvdorkhun_tag_link grants[SUVDORKHUN_LINKS];
static uint8_t store[SUVDORKHUN_STORE];
static uint8_t answer[SUVDORKHUN_ANSWER];

/* What a request that is done gives, by its kind. */
static void print_done(uint8_t kind)
{
    switch (kind) {
    case SUVDORKHUN_NEW_PRINCIPAL:
        printf("principal %d\n", answer[1]);
        break;
    case SUVDORKHUN_NEW_TAG:
        printf("tag %d\n", answer[1]);
        break;
    case SUVDORKHUN_FORK:
        printf("thread %d\n", answer[1]);
        break;
    case SUVDORKHUN_NEW_OBJECT:
        printf("object %d\n", answer[1]);
        break;
    case SUVDORKHUN_AUTHORITATIVE:
        printf("%s\n", answer[1] ? "yes" : "no");
        break;
    case SUVDORKHUN_READ_CELL:
    case SUVDORKHUN_SEND_OUT:
        printf("message ");
        for (int n = 0; n < answer[1]; n++)
            printf("%02X", answer[2 + n]);
        printf("\n");
        break;
    default:
        printf("done\n");
    }
}

/* One request: says what it is and how it is answered, and gives the value byte. */
static uint8_t ask(const char *what, const uint8_t *frame, size_t length)
{
    suvdorkhun_reply reply =
        suvdorkhun_request(&state, links, SUVDORKHUN_LINKS, grants, SUVDORKHUN_LINKS, store, SUVDORKHUN_STORE,
                           frame, length, answer, SUVDORKHUN_ANSWER);
    printf("%s: ", what);
    if (reply.status == 0)
        print_done(frame[1]);
    else
        printf("refused %d, %s\n", reply.status, suvdorkhun_words(reply.status));
    return answer[1];
}

#define FRAME(...) (const uint8_t[]){__VA_ARGS__}, sizeof((const uint8_t[]){__VA_ARGS__})
#define SOUNDING 4, 0x00, 0x00, 0x04, 0x4C /* 1100 metres, as a message */

static void tell_the_story(void)
{
    uint8_t firm = ask("the office makes a principal for the cable firm",
                       FRAME(OFFICE, SUVDORKHUN_NEW_PRINCIPAL));
    uint8_t grid = ask("the office makes a principal for the grid compiler",
                       FRAME(OFFICE, SUVDORKHUN_NEW_PRINCIPAL));
    uint8_t firms = ask("the office forks a job that runs as the firm", FRAME(OFFICE, SUVDORKHUN_FORK, firm));
    uint8_t grids = ask("the office forks a job that runs as the grid compiler",
                        FRAME(OFFICE, SUVDORKHUN_FORK, grid));
    uint8_t tag = ask("the firm makes a tag", FRAME(firms, SUVDORKHUN_NEW_TAG));
    uint8_t cell = ask("the firm makes a cell with the tag in its secrecy",
                       FRAME(firms, SUVDORKHUN_NEW_OBJECT, SUVDORKHUN_OBJECT_CELL,
                             SUVDORKHUN_LABEL((uint64_t)1 << tag), SUVDORKHUN_LABEL(0)));
    ask("the firm's job takes on the tag", FRAME(firms, SUVDORKHUN_INTO_SECRECY, tag));
    ask("the firm's job writes the sounding into the cell", FRAME(firms, SUVDORKHUN_WRITE_CELL, cell, SOUNDING));
    ask("the firm's job takes the tag off", FRAME(firms, SUVDORKHUN_OUT_OF_SECRECY, tag));

    ask("the grid job reads the cell", FRAME(grids, SUVDORKHUN_READ_CELL, cell));
    ask("the grid job takes on the tag", FRAME(grids, SUVDORKHUN_INTO_SECRECY, tag));
    ask("the grid job reads the cell", FRAME(grids, SUVDORKHUN_READ_CELL, cell));
    ask("the grid job sends the sounding out", FRAME(grids, SUVDORKHUN_SEND_OUT, SOUNDING));
    ask("the grid job takes the tag off", FRAME(grids, SUVDORKHUN_OUT_OF_SECRECY, tag));

    ask("the firm grants the tag to the grid compiler", FRAME(firms, SUVDORKHUN_GRANT, tag, firm, grid));
    ask("the grid job asks whether it is authoritative", FRAME(grids, SUVDORKHUN_AUTHORITATIVE, tag));
    ask("the grid job takes the tag off", FRAME(grids, SUVDORKHUN_OUT_OF_SECRECY, tag));
    ask("the grid job sends the sounding out", FRAME(grids, SUVDORKHUN_SEND_OUT, SOUNDING));
    ask("the grid job takes on the tag for the next tile", FRAME(grids, SUVDORKHUN_INTO_SECRECY, tag));

    ask("the firm withdraws the leave", FRAME(firms, SUVDORKHUN_UNGRANT, tag, firm, grid));
    ask("the grid job takes the tag off", FRAME(grids, SUVDORKHUN_OUT_OF_SECRECY, tag));
    ask("the grid job sends the sounding out", FRAME(grids, SUVDORKHUN_SEND_OUT, SOUNDING));
}

int main(void)
{
    if (sizeof(state) != suvdorkhun_state_size()) {
        fprintf(stderr, "example: the library has another state than its header\n");
        return 1;
    }
    uint8_t status = suvdorkhun_start(&state, links, SUVDORKHUN_LINKS, grants, SUVDORKHUN_LINKS, store,
                                      SUVDORKHUN_STORE, MEMORY);
    if (status != 0) {
        fprintf(stderr, "example: refused %d, %s\n", status, suvdorkhun_words(status));
        return 1;
    }
    tell_the_story();
    printf("questions: %u, hits: %u\n", (unsigned)state.memory.questions, (unsigned)state.memory.hits);
    return 0;
}
