/* koo_toueg for C and C++: logs of checkpoints and rollbacks judged in memory; and nodes, each the manager of one process.
 *
 * Texts are bytes in memory, in the formats of docs/LOGS.md. Each call reads the texts that it is given and writes what its
 * last parameters point to. All of that is the caller's: the library keeps nothing between calls, hands out no memory, opens
 * no file, and calls nobody back. Threads may call it at the same time, each with variables and buffers of its own.
 *
 * Lengths and sizes are in bytes. A pointer is never null, also where its length is 0: give the address of anything, as "".
 * What a call writes overlaps nothing else that it is given. Structs and a size_t lie at addresses that fit their types.
 * Memory comes from malloc, realloc and free of the program, so no call may come from a signal handler.
 *
 * docs/EMBEDDING.md has callers in C, Rust and Python.
 */
#ifndef KOO_TOUEG_H
#define KOO_TOUEG_H

#include <stddef.h>
#include <stdint.h>

#ifdef __cplusplus
extern "C" {
#endif

/* The version of this header: kt_version() answers it. */
#define KT_VERSION 3

/* What a call returns. */
enum kt_status {
    KT_YES = 0,     /* an answer that is yes; a text or a node that was made; a step that was made */
    KT_NO = 1,      /* an answer that is no; a log that has no certificates; a parcel that came before */
    KT_REFUSED = 2, /* a fault of a text, or of the rows that are asked for; an input that a node refuses */
    KT_UNREAD = 3,  /* a text that could not be read; bytes in memory always can */
    KT_MEMORY = 4,  /* want of memory */
    KT_SHORT = 5    /* a buffer that is too short for its text or its node */
};

/* Why an answer is no. */
enum kt_why {
    KT_WHY_NONE = 0,
    KT_WHY_BAD_LOG = 1,  /* the row breaks the rule */
    KT_WHY_UNKNOWN = 2,  /* a certificate is of no decided instance as the log has it, or is the second of its instance */
    KT_WHY_CAUSE = 3,    /* an abort without an unwilling process, or a commit with one */
    KT_WHY_MEMBERS = 4,  /* other members than the log has, or in another order */
    KT_WHY_CHAIN = 5,    /* a member's list is no chain for it */
    KT_WHY_ORPHAN = 6,   /* the decision leaves a message received and not sent */
    KT_WHY_MISSING = 7,  /* a decided instance has no certificate */
    KT_WHY_NO_CHAIN = 8  /* no message links a member with an earlier one, so the log means no certificates */
};

/* An answer. A number is 0 where nothing is named: in a yes all are. */
typedef struct kt_answer {
    uint32_t why;     /* of enum kt_why */
    uint32_t rule;    /* the rule that the row breaks, 1 to 9: of KT_WHY_BAD_LOG alone */
    uint32_t inst;    /* the instance, 1 to 4,096 */
    uint32_t row;     /* the row, from 1 */
    uint32_t process; /* the process without a chain, 0 to 63: of KT_WHY_NO_CHAIN alone */
} kt_answer;

/* What is wrong where there is no answer, or no text. */
enum kt_what {
    KT_WHAT_NONE = 0,
    KT_WHAT_READ = 1,      /* the text could not be read */
    KT_WHAT_TOO_LONG = 2,  /* it has more rows or records than its format holds */
    KT_WHAT_VERSION = 3,   /* it begins as a log of another version */
    KT_WHAT_FIELDS = 4,    /* the row or record has another number of fields */
    KT_WHAT_WORD = 5,      /* a field is no word that may stand there */
    KT_WHAT_NUMBER = 6,    /* a field is no number in its range */
    KT_WHAT_PLACE = 7,     /* a member's record stands where it may not, or its count is wrong */
    KT_WHAT_MEMORY = 8,    /* there was no memory */
    KT_WHAT_BAD_LOG = 9,   /* no certificates: the row breaks the rule */
    KT_WHAT_NO_CHAIN = 10, /* no certificates: the row commits the instance, and no message links the process with an earlier member */
    KT_WHAT_NO_ROWS = 11,  /* the log does not have the rows that are asked for */
    KT_WHAT_PICTURE = 12,  /* more than 4,096 rows are asked for */
    KT_WHAT_CLOCK = 13,    /* the clock is less than that of the record before */
    KT_WHAT_PROCESS = 14,  /* the record is of another process */
    KT_WHAT_NAME = 15,     /* the name that it gives is not the next one of its process */
    KT_WHAT_NOT_SENT = 16, /* it names a message that no row before it sent */
    KT_WHAT_NOT_BEGUN = 17, /* it names an instance that no row before it began */
    KT_WHAT_ROWS = 18,     /* it would be a row behind the last one of a log */
    KT_WHAT_INSTANCES = 19, /* it would begin an instance behind the last one of a log */
    KT_WHAT_PARTS = 20     /* more than 64 parts are given */
};

/* The words of both, by number, as the program writes them: const char *const words[] = KT_WHY_WORDS; */
#define KT_WHY_WORDS {"", "BadLog", "Unknown", "Cause", "Members", "Chain", "Orphan", "Missing", "NoChain"}
#define KT_WHAT_WORDS {"", "read fault", "too long", "log version", "fields", "word", "number", "place", "memory", "BadLog", "NoChain", \
    "no such rows", "picture too long", "clock", "process", "name", "not sent", "not begun", "too many rows", "too many instances", \
    "too many parts"}

/* A fault. A number is 0 where nothing is named: where there is no fault all are. */
typedef struct kt_fault {
    uint32_t text;    /* in which text: 1 the log, 2 the certificates; of kt_merge 1 the part of process 0, 2 that of process 1,
                         and so on, and 65 of KT_WHAT_PARTS */
    uint32_t what;    /* of enum kt_what */
    uint32_t place;   /* the row of a log, or the record of certificates or of a part, from 1 */
    uint32_t rule;    /* of KT_WHAT_BAD_LOG, 1 to 9 */
    uint32_t inst;    /* of KT_WHAT_NO_CHAIN, 1 to 4,096 */
    uint32_t process; /* of KT_WHAT_NO_CHAIN, 0 to 63 */
} kt_fault;

/* A text that a call reads. */
typedef struct kt_text {
    const uint8_t *bytes;
    size_t len;
} kt_text;

/* What a parcel is. */
enum kt_parcel_kind {
    KT_PARCEL_NONE = 0,
    KT_PARCEL_MESSAGE = 1,
    KT_PARCEL_ASK = 2,     /* whether the receiver takes part in the instance */
    KT_PARCEL_REPLY = 3,   /* the answer to it */
    KT_PARCEL_DECISION = 4 /* how the instance was decided */
};

/* A parcel, as it has to travel, whole, from the node that put it to the one that it is for. A number is 0 where nothing is named, and
 * where it says no. Its bytes may travel as they are between machines of one byte order. */
typedef struct kt_parcel {
    uint32_t kind;      /* of enum kt_parcel_kind */
    uint32_t from;      /* its sender, 0 to 63 */
    uint32_t to;        /* its receiver, 0 to 63 */
    uint32_t initiator; /* who began the instance, 0 to 63 */
    uint32_t rollback;  /* of an ask: the instance is a rollback */
    uint32_t yes;       /* of a reply: willing; of a decision: commit */
    uint64_t number;    /* which one of those from its sender to its receiver, from 1 */
    uint64_t clock;     /* of the step that put it */
    uint64_t count;     /* which one of those that its initiator began the instance is, 1 to 2^48 - 1 */
    uint64_t label;     /* of a message, 1 to 2^48 - 1; of an ask, where it may be 0 */
    int64_t body;       /* of a message: its caller's */
} kt_parcel;

/* What comes to a node. */
enum kt_input_kind {
    KT_SEND = 1,      /* it is to send a message with body to peer, which is out where there is a parcel for peer */
    KT_BEGIN = 2,     /* it is to begin an instance: a rollback or a checkpoint, where the object is able or not */
    KT_FAIL = 3,      /* its object failed: until it is restored, messages that come are dropped */
    KT_REDELIVER = 4, /* it is to take the first message that it holds of peer */
    KT_DELIVER = 5    /* a parcel comes of peer, who is its sender, where the object is able or not */
};

/* An input of a node. What its kind does not name is not read. */
typedef struct kt_input {
    uint32_t kind;     /* of enum kt_input_kind */
    uint32_t peer;     /* a process, 0 to 63 */
    uint32_t rollback; /* 0 for a checkpoint */
    uint32_t able;     /* whether the object was saved; 0 for no. It counts where kt_node_look says that it has to be */
    int64_t body;
    kt_parcel parcel;
} kt_input;

/* What a row says. */
enum kt_row_kind {
    KT_ROW_NONE = 0,
    KT_ROW_SENT = 1,
    KT_ROW_RECEIVED = 2,
    KT_ROW_DROPPED = 3,
    KT_ROW_BEGAN = 4,
    KT_ROW_TOOK = 5,
    KT_ROW_READY = 6,
    KT_ROW_UNWILLING = 7,
    KT_ROW_DECIDED = 8,
    KT_ROW_CLOSED = 9,
    KT_ROW_FAILED = 10,
    KT_ROW_REFUSED = 11
};

/* A row of a process: kt_row_text makes its line. A number is 0 where nothing is named, and where it says no. */
typedef struct kt_row {
    uint32_t kind;           /* of enum kt_row_kind */
    uint32_t peer;           /* of a message: its receiver where it was sent, else its sender, 0 to 63 */
    uint32_t initiator;      /* who began the instance, 0 to 63 */
    uint32_t rollback;       /* of an instance that it began */
    uint32_t commit;         /* of a decision */
    uint32_t verb;           /* of a command that it refused: 1 to send, 2 a checkpoint, 3 a rollback, 4 to fail */
    uint32_t cause;          /* why it refused or is unwilling: 1 it is in another instance, 2 its object is down, 3 that was not saved */
    uint32_t busy_initiator; /* who began the instance that it is in, 0 to 63 */
    uint64_t count;          /* which one of those of its initiator the instance is, 1 to 2^48 - 1 */
    uint64_t busy_count;     /* the same of the instance that it is in */
    uint64_t label;          /* of a message: which one of those of its sender, 1 to 2^48 - 1 */
    int64_t body;            /* of a message that it sent */
} kt_row;

/* What has to be done to the object of a process. */
enum kt_act_kind {
    KT_ACT_NONE = 0,
    KT_APPLY = 1,   /* it takes in a message: the body, of this sender */
    KT_KEEP = 2,    /* what was saved of it before the step becomes its tentative state */
    KT_PROMOTE = 3, /* its tentative state becomes its permanent one, in whose place it comes */
    KT_DISCARD = 4, /* its tentative state goes */
    KT_RESTORE = 5, /* it becomes what its permanent state is; before the first KT_PROMOTE that is its first one */
    KT_DROP = 6     /* it is gone, and down */
};

typedef struct kt_act {
    uint32_t kind; /* of enum kt_act_kind */
    uint32_t from; /* of KT_APPLY, 0 to 63 */
    int64_t body;  /* of KT_APPLY */
} kt_act;

/* Why a node makes no step. */
enum kt_node_fault {
    KT_NODE_WELL = 0,
    KT_NODE_STATE = 1,          /* the bytes are those of no node */
    KT_NODE_INPUT = 2,          /* a number of the input is out of its range */
    KT_NODE_UNKNOWN = 3,        /* the other process is none of those that there are */
    KT_NODE_ITSELF = 4,         /* the other process is itself */
    KT_NODE_WAITS = 5,          /* it is in an open instance, and a send has to wait: give it again later */
    KT_NODE_HELD_FIRST = 6,     /* it holds a message of this sender that comes before: give it KT_REDELIVER first */
    KT_NODE_HOLDS_NONE = 7,     /* it holds no message of this sender that it could take now */
    KT_NODE_LABELS_SPENT = 8,   /* it sent 2^48 - 1 messages */
    KT_NODE_COUNTS_SPENT = 9,   /* it began 2^48 - 1 instances */
    KT_NODE_CLOCK_SPENT = 10,   /* no clock follows */
    KT_NODE_GAP = 11,           /* parcels of this sender are missing: the next one is the one that is expected */
    KT_NODE_OUT_OF_MEMORY = 12,
    KT_NODE_ASTRAY = 13,        /* the parcel's sender is not peer, or its receiver is another process */
    KT_NODE_LEAP = 14,          /* the parcel's clock is more than 2^40 above the node's, or so is a message's label above those before */
    KT_NODE_STALE = 15,         /* a message's label does not rise above the last one of its sender */
    KT_NODE_NOT_BEGUN = 16      /* it is asked to join an instance of no process, or one of its own that it is not in */
};

/* The words of enum kt_node_fault, by number. */
#define KT_NODE_WORDS {"", "state", "input", "unknown", "itself", "waits", "held first", "holds none", "labels spent", "counts spent", \
    "clock spent", "gap", "memory", "astray", "leap", "stale", "not begun"}

/* What a node's step puts out. A number is 0 where nothing is named: where no step was made all but fault, expected and needed are. */
typedef struct kt_output {
    uint32_t fault;         /* of enum kt_node_fault */
    uint32_t process;       /* which process the node is of, 0 to 63 */
    uint32_t processes;     /* how many there are */
    uint32_t held;          /* one more than the process whose first held message it can take now: the next input is KT_REDELIVER of it */
    uint32_t busy;          /* it is in an open instance now */
    uint32_t up;            /* its object is up now */
    uint64_t expected;      /* of KT_NODE_GAP: the number of the parcel that has to come first */
    uint64_t needed;        /* of KT_SHORT: how many bytes the state needs */
    uint64_t clock;         /* of the step */
    kt_row rows[4];         /* what it tells, in order; those of kind 0 say nothing */
    kt_act acts[2];         /* what has to be done to its object, in order; those of kind 0 are nothing */
    kt_parcel parcels[64];  /* by receiver; those of kind 0 are none */
} kt_output;

#if defined(__cplusplus) && __cplusplus >= 201103L
static_assert(sizeof(kt_answer) == 20 && sizeof(kt_fault) == 24 && sizeof(kt_parcel) == 64 && sizeof(kt_input) == 88
                  && sizeof(kt_row) == 64 && sizeof(kt_act) == 16 && sizeof(kt_output) == 4432, "as the library has them");
#elif defined(__STDC_VERSION__) && __STDC_VERSION__ >= 201112L
_Static_assert(sizeof(kt_answer) == 20 && sizeof(kt_fault) == 24 && sizeof(kt_parcel) == 64 && sizeof(kt_input) == 88
                   && sizeof(kt_row) == 64 && sizeof(kt_act) == 16 && sizeof(kt_output) == 4432, "as the library has them");
#endif

/* Judges a log with its certificates, as `koo_toueg check LOG CERT`. KT_YES or KT_NO: *answer says why, *fault is all 0. Else
 * *fault says why there is no answer, *answer is all 0; a fault of the log comes before one of the certificates. */
uint32_t kt_check(const uint8_t *log, size_t log_len, const uint8_t *certificates, size_t certificates_len,
                  kt_answer *answer, kt_fault *fault);

/* Judges a log by the certificates that it means, as `koo_toueg check LOG`. The rest is as for kt_check. */
uint32_t kt_judge(const uint8_t *log, size_t log_len, kt_answer *answer, kt_fault *fault);

/* Makes the certificates of a log, as `koo_toueg certify LOG`. KT_YES: out begins with their text, *len is its length, and the
 * rest of out is as it was. KT_SHORT: out is as it was, and *len is the length that it needs. KT_NO: the log has none, and
 * *fault says why. Else *fault says what is wrong with the log. Without a text *len is 0, and out is as it was. */
uint32_t kt_certify(const uint8_t *log, size_t log_len, uint8_t *out, size_t out_size, size_t *len, kt_fault *fault);

/* Judges a log with its certificates, and tells the facts of the answer, as `koo_toueg check --explain log certificates` prints
 * them: the line of the answer, and the lines below it, each ended by a line feed. KT_YES or KT_NO, as the answer is: out begins
 * with the text. The rest is as for kt_certify; a fault is as for kt_check. To explain a no of kt_judge, give it what kt_certify made, or
 * an empty text where that answers KT_NO: the first line may then say Missing, and the lines below tell why. */
uint32_t kt_explain(const uint8_t *log, size_t log_len, const uint8_t *certificates, size_t certificates_len,
                    uint8_t *out, size_t out_size, size_t *len, kt_fault *fault);

/* Draws rows of a log with its certificates, as `koo_toueg draw LOG --cert CERT --from FROM --to TO`: an SVG document. from and to
 * are rows from 1, or 0 for the first row and for the last one. KT_YES: out begins with the picture. The rest is as for
 * kt_certify, but for KT_NO; a fault is as for kt_check. */
uint32_t kt_draw(const uint8_t *log, size_t log_len, const uint8_t *certificates, size_t certificates_len, uint32_t from,
                 uint32_t to, uint8_t *out, size_t out_size, size_t *len, kt_fault *fault);

/* Makes one log of the logs of processes 0, 1 and so on, count of them and at most 64, as `koo_toueg merge PART..` writes it. KT_YES:
 * out begins with the log; of no parts it is a log without rows. The rest is as for kt_certify, but for KT_NO; *fault says what is
 * first wrong in the order of the log. */
uint32_t kt_merge(const kt_text *parts, size_t count, uint8_t *out, size_t out_size, size_t *len, kt_fault *fault);

/* A node is the manager of one process, as bytes. What comes in is a command or a parcel of another node; what goes out are rows, acts and
 * parcels. Before any parcel of a step goes out, and before what was taken is acknowledged, all this is durable together: the
 * node's bytes after the step, its rows, its acts, and the parcels that it put until they are acknowledged. Where that fails the program
 * ends: its node is ahead of its disk.
 *
 * Who starts again after it was killed goes on from there. Its object is lost, for the host alone: KT_FAIL would drop messages that
 * come, for good. Until a KT_RESTORE the host gives able 0 and no KT_SEND, does nothing at KT_APPLY, and, where an output does not say
 * busy, gives KT_BEGIN of a rollback: at once, and again after a pause where one was refused or aborted. Who keeps the object itself with
 * each step needs none of this: nothing is lost.
 */

/* Makes the node of process me of so many, at most 64, which is up and has done nothing. KT_YES: state begins with it, and *len is its
 * length. KT_SHORT: *len is the length that it needs. KT_REFUSED: there is no such process. Without a node state is as it was, and
 * *len is 0 but for KT_SHORT. */
uint32_t kt_node_new(uint32_t me, uint32_t processes, uint8_t *state, size_t state_size, size_t *len);

/* Gives a node an input. The first *len bytes of state are the node, before and after. KT_YES: it made the step, and *output is what this
 * puts out. KT_NO: the parcel came before, and changes nothing: acknowledge it. KT_REFUSED, KT_MEMORY: *output says why. KT_SHORT: state
 * has no room for the node after the step, and output->needed is what it needs. But for KT_YES the node is as it was. */
uint32_t kt_node_step(uint8_t *state, size_t state_size, size_t *len, const kt_input *input, kt_output *output);

/* Whether the object has to be saved before a node is given an input. KT_YES: it has to; where it can't be, the input is given with able 0.
 * KT_NO: it need not be. KT_REFUSED: the input makes no step, or came before, which kt_node_step tells. */
uint32_t kt_node_look(const uint8_t *state, size_t len, const kt_input *input);

/* Makes the line of a row in the part of its process, with the clock of its step: what kt_merge reads. KT_YES: out begins with the
 * line, and *len is its length. KT_SHORT: out is as it was, and *len is the length that it needs; 200 bytes are always enough.
 * KT_REFUSED: it is no row, or no process. */
uint32_t kt_row_text(const kt_row *row, uint64_t clock, uint32_t process, uint8_t *out, size_t out_size, size_t *len);

/* The version of the library's calls. It rises where a call, a struct or a number changes its meaning. */
uint32_t kt_version(void);

/* Writes the sizes of kt_answer, kt_fault, size_t, kt_parcel, kt_input, kt_row, kt_act and kt_output, and returns how many there are, 8;
 * where count is less, it writes none. */
uint32_t kt_sizes(uint32_t *sizes, size_t count);

#ifdef __cplusplus
}
#endif

#endif
