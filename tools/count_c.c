// Calls of include/koo_toueg.h for tools/instructions, which counts what runs within one of them.
//
// usage: count_c make STATE PROCESSES KEPT    writes the node of process 0 among so many, which keeps so many messages
//        count_c step STATE PROCESSES KEPT    gives that node one message more
//        count_c check LOG CERTIFICATES       judges them
#include "koo_toueg.h"

#include <stdio.h>
#include <stdlib.h>
#include <string.h>

enum { ROOM = 1 << 22 };
static uint8_t texts[2][ROOM];

static void need(int holds, const char *what) {
    if (holds) return;
    fprintf(stderr, "count_c: %s\n", what);
    exit(2);
}

static size_t read_text(const char *name, uint8_t *text) {
    FILE *file = fopen(name, "rb");
    need(file != NULL, name);
    const size_t len = fread(text, 1, ROOM, file);
    need(len < ROOM && fclose(file) == 0, name);
    return len;
}

// Gives a node its message after so many, which came of all others in turn.
static size_t take(uint8_t *state, size_t len, uint32_t processes, uint32_t taken) {
    kt_input input = {.kind = KT_DELIVER};
    kt_output output;
    const uint64_t number = taken / (processes - 1) + 1;
    input.peer = 1 + taken % (processes - 1);
    input.parcel = (kt_parcel){.kind = KT_PARCEL_MESSAGE, .from = input.peer, .number = number, .clock = number, .label = number};
    need(kt_node_step(state, ROOM, &len, &input, &output) == KT_YES, "no step");
    need(output.rows[0].kind == KT_ROW_RECEIVED, "no message");
    return len;
}

static void make(const char *name, uint32_t processes, uint32_t kept) {
    size_t len = 0;
    need(kt_node_new(0, processes, texts[0], ROOM, &len) == KT_YES, "no node");
    for (uint32_t taken = 0; taken < kept; taken++) len = take(texts[0], len, processes, taken);
    FILE *file = fopen(name, "wb");
    need(file != NULL && fwrite(texts[0], 1, len, file) == len && fclose(file) == 0, name);
}

static void check(const char *log, const char *certificates) {
    kt_answer answer;
    kt_fault fault;
    const size_t rows = read_text(log, texts[0]), records = read_text(certificates, texts[1]);
    need(kt_check(texts[0], rows, texts[1], records, &answer, &fault) == KT_YES, "no yes");
}

int main(int count, char **words) {
    need(count == 4 || count == 5, "usage: see its head");
    const uint32_t processes = count == 5 ? (uint32_t)atoi(words[3]) : 0, kept = count == 5 ? (uint32_t)atoi(words[4]) : 0;
    if (count == 4) check(words[2], words[3]);
    else if (!strcmp(words[1], "make")) make(words[2], processes, kept);
    else take(texts[0], read_text(words[2], texts[0]), processes, kept);
    return 0;
}
