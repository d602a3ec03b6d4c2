/* Judges a log from C, and tells why the answer is no. */
#include "koo_toueg.h"

#include <stdio.h>
#include <stdlib.h>
#include <string.h>

static const char log_text[] = "sent,0,1,5\nreceived,1,0,1\nbegan,1,1,checkpoint\ntook,1,1,-\ndecided,1,1,commit\nclosed,1,1,-\n";
static const char certificates[] = "cert,1,checkpoint,1,commit\nmember,1,1,0,-\n";
static const char *const why[] = KT_WHY_WORDS, *const what[] = KT_WHAT_WORDS;

int main(void) {
    const uint8_t *log = (const uint8_t *)log_text, *certs = (const uint8_t *)certificates;
    size_t log_len = strlen(log_text), certs_len = strlen(certificates), len;
    kt_answer answer;
    kt_fault fault;

    uint32_t status = kt_check(log, log_len, certs, certs_len, &answer, &fault);
    if (status == KT_YES) printf("yes\n");
    else if (status == KT_NO) printf("no: instance %u, row %u, %s\n", answer.inst, answer.row, why[answer.why]);
    else printf("%s in text %u, row or record %u\n", what[fault.what], fault.text, fault.place);

    /* The first call tells how long the text is. */
    kt_explain(log, log_len, certs, certs_len, (uint8_t *)"", 0, &len, &fault);
    uint8_t *text = (uint8_t *)malloc(len + 1);
    if (!text) return 1;
    kt_explain(log, log_len, certs, certs_len, text, len, &len, &fault);
    printf("%.*s", (int)len, (char *)text);
    free(text);
    return 0;
}
