/* Two nodes in one C program: a payment, a checkpoint that takes in its sender, and a rollback of a process whose object is lost. Each
 * line is a row of a process, as kt_merge reads it. */
#include "koo_toueg.h"

#include <stdio.h>

enum { COUNT = 2, ROOM = 1 << 14 };

typedef struct node {
    uint8_t state[ROOM]; /* its first len bytes have to be durable, with the rows and the parcels, before these go out */
    size_t len;
    int64_t balance, saved, tentative, permanent;
} node;

static node nodes[COUNT];

static void do_act(node *it, const kt_act *act) {
    switch (act->kind) {
    case KT_APPLY: it->balance += act->body; break;
    case KT_KEEP: it->tentative = it->saved; break;
    case KT_PROMOTE: it->permanent = it->tentative; break;
    case KT_RESTORE: it->balance = it->permanent; break;
    default: break;
    }
}

static void print_row(const kt_row *row, const kt_output *output) {
    uint8_t line[200];
    size_t len;
    if (kt_row_text(row, output->clock, output->process, line, sizeof line, &len) == KT_YES) printf("%.*s", (int)len, (char *)line);
}

/* Makes the step of a process, and then those of the processes that its parcels come to. */
static void step(uint32_t at, const kt_input *input) {
    static const char *const words[] = KT_NODE_WORDS;
    node *it = &nodes[at];
    kt_output output;

    if (kt_node_look(it->state, it->len, input) == KT_YES) it->saved = it->balance;
    uint32_t status = kt_node_step(it->state, ROOM, &it->len, input, &output);
    if (status != KT_YES) {
        printf("process %u: %s\n", at, status == KT_SHORT ? "no room" : words[output.fault]);
        return;
    }
    for (int k = 0; k < 2; k++) do_act(it, &output.acts[k]);
    for (int k = 0; k < 4; k++) print_row(&output.rows[k], &output);
    for (uint32_t to = 0; to < output.processes; to++) {
        kt_input coming = {.kind = KT_DELIVER, .peer = at, .able = 1, .parcel = output.parcels[to]};
        if (coming.parcel.kind) step(to, &coming);
    }
}

int main(void) {
    for (uint32_t me = 0; me < COUNT; me++) {
        if (kt_node_new(me, COUNT, nodes[me].state, ROOM, &nodes[me].len) != KT_YES) return 1;
        nodes[me].balance = nodes[me].permanent = 100;
    }
    const kt_input pay = {.kind = KT_SEND, .peer = 1, .body = 40}, checkpoint = {.kind = KT_BEGIN, .able = 1};
    const kt_input rollback = {.kind = KT_BEGIN, .rollback = 1};

    nodes[0].balance -= pay.body;
    step(0, &pay);
    step(1, &checkpoint);
    nodes[1].balance = 0; /* lost, and gone back to by the rollback */
    step(1, &rollback);
    for (uint32_t me = 0; me < COUNT; me++) printf("process %u has %lld\n", me, (long long)nodes[me].balance);
    return 0;
}

/* It prints:
1,sent,0,1,40,m0.1
2,received,1,0,m0.1,-
3,began,1,i1.1,checkpoint,-
3,took,1,i1.1,-,-
4,took,0,i1.1,-,-
5,decided,1,i1.1,commit,-
5,closed,1,i1.1,-,-
6,closed,0,i1.1,-,-
6,began,1,i1.2,rollback,-
6,ready,1,i1.2,-,-
6,decided,1,i1.2,commit,-
6,closed,1,i1.2,-,-
process 0 has 60
process 1 has 140
*/
