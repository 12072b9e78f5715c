/* Refuses the n-th allocation of each call, for n from 0 until the call needs no more. Each call
 * has to end as with memory, or by ALCRS_NO_MEMORY with its outputs as they were. Linked with
 * --wrap=malloc,--wrap=realloc. */
#include "files.h"
#include <alcrs.h>
#include <string.h>

static long left = -1; /* how many allocations are still granted; below 0 all are */
static int refused;

void *__real_malloc(size_t size);
void *__real_realloc(void *old, size_t size);
void *__wrap_malloc(size_t size);
void *__wrap_realloc(void *old, size_t size);

static int is_refused(void) {
    if (left < 0) return 0;
    if (left-- > 0) return 0;
    refused = 1;
    return 1;
}

void *__wrap_malloc(size_t size) {
    return is_refused() ? 0 : __real_malloc(size);
}

void *__wrap_realloc(void *old, size_t size) {
    return is_refused() ? 0 : __real_realloc(old, size);
}

enum { CHECK, LENGTH, DECODE, ENCODE, CERTIFY, TWIN, OPEN, CALLS };

static struct outputs {
    struct alcrs_fault fault;
    struct alcrs_report report;
    struct alcrs_block blocks[4];
    size_t kill[8];
    uint64_t length;
    size_t size;
} outputs, untouched;

static struct files files;
static uint8_t *buffer;
static size_t buffer_size;

static enum alcrs_status call(int which) {
    const uint8_t *session = files.session.at, *object = files.object.at,
                  *certificate = files.certificate.at;
    size_t s = files.session.size, o = files.object.size, z = files.certificate.size;
    struct outputs *out = &outputs;
    switch (which) {
    case CHECK:
        return alcrs_check(session, s, object, o, certificate, z, files.tsi, 0, files.toi,
                           &out->fault, &out->report, out->blocks, 4, out->kill, 8);
    case LENGTH:
        return alcrs_object_length(session, s, files.tsi, 0, files.toi, &out->fault, &out->length);
    case DECODE:
        return alcrs_decode(session, s, files.tsi, 0, files.toi, &out->fault, buffer, buffer_size,
                            &out->size);
    case ENCODE:
        return alcrs_encode(object, o, 7, 1, 250, 27, 33, 1, true, &out->fault, buffer, buffer_size,
                            &out->size);
    case CERTIFY:
        return alcrs_certify(object, o, 7, 0, 1, 250, 27, 33, &out->fault, buffer, buffer_size,
                             &out->size);
    case OPEN: {
        struct alcrs_receiver receiver = {0};
        enum alcrs_status status = alcrs_receiver_open(&receiver, files.tsi, 0, files.toi);
        alcrs_receiver_close(&receiver);
        return status;
    }
    default: {
        /* Without its first half the session has too few symbols. */
        size_t from = 0;
        while (from < s / 2) from += 2 + ((size_t)session[from] << 8 | session[from + 1]);
        return alcrs_twin(session + from, s - from, object, o, certificate, z, files.tsi, 0,
                          files.toi, &out->fault, buffer, buffer_size, &out->size);
    }
    }
}

/* Feeds a receiver and asks for the object. What is refused for want of memory is passed, or asked
 * for, once more. */
static int receives(void) {
    const uint8_t *session = files.session.at;
    struct alcrs_receiver receiver = {0};
    enum alcrs_status status;
    int again = 0;
    while ((status = alcrs_receiver_open(&receiver, files.tsi, 0, files.toi)) == ALCRS_NO_MEMORY &&
           !again++) {
    }
    for (size_t at = 0; at < files.session.size;) {
        size_t length = (size_t)session[at] << 8 | session[at + 1];
        status = alcrs_receiver_feed(&receiver, session + at + 2, length, &outputs.fault);
        if (status == ALCRS_OK) break;
        if (status == ALCRS_NO_MEMORY && !again++) continue;
        if (status != ALCRS_MORE) break;
        at += 2 + length;
    }
    if (status == ALCRS_OK) {
        do
            status = alcrs_receiver_object(&receiver, &outputs.fault, buffer, buffer_size,
                                           &outputs.size);
        while (status == ALCRS_NO_MEMORY && !again++);
    }
    alcrs_receiver_close(&receiver);
    return status == ALCRS_OK && again == refused && outputs.size == files.object.size &&
           !memcmp(buffer, files.object.at, outputs.size);
}

static int is_untouched(void) {
    for (size_t i = 0; i < buffer_size; i++)
        if (buffer[i] != 0xEE) return 0;
    return !memcmp(&outputs, &untouched, sizeof outputs);
}

static enum alcrs_status open_checker(struct alcrs_checker *checker) {
    return alcrs_checker_open(checker, files.object.at, files.object.size, files.certificate.at,
                              files.certificate.size, files.tsi, 0, files.toi, &outputs.fault);
}

/* Feeds a checker with the session. */
static enum alcrs_status feed_all(struct alcrs_checker *checker) {
    const uint8_t *session = files.session.at;
    enum alcrs_status status = ALCRS_OK;
    for (size_t at = 0, length; status == ALCRS_OK && at < files.session.size; at += 2 + length) {
        length = (size_t)session[at] << 8 | session[at + 1];
        status = alcrs_checker_feed(checker, session + at + 2, length, &outputs.fault);
    }
    return status;
}

static enum alcrs_status verdict(struct alcrs_checker *checker) {
    return alcrs_checker_verdict(checker, &outputs.fault, &outputs.report, outputs.blocks, 4,
                                 outputs.kill, 8);
}

/* Has a checker say yes as the check does. Where a feed is refused memory the check is over, and is
 * begun again. A verdict that is refused it is asked for once more. */
static int checks(void) {
    struct alcrs_checker checker = {0};
    int again = 0, right = 1;
    memset(&outputs, 0xEE, sizeof outputs);
    memset(buffer, 0xEE, buffer_size);
    enum alcrs_status status = open_checker(&checker);
    /* what each later call says, once memory was refused */
    enum alcrs_status later = status == ALCRS_OK ? ALCRS_NO_MEMORY : ALCRS_NOT_OPEN;
    if (status == ALCRS_OK) status = feed_all(&checker);
    if (status == ALCRS_NO_MEMORY) {
        again++;
        right = alcrs_checker_feed(&checker, files.session.at, 3, &outputs.fault) == later &&
                verdict(&checker) == later && is_untouched();
        alcrs_checker_close(&checker);
        status = open_checker(&checker);
        if (status == ALCRS_OK) status = feed_all(&checker);
    }
    right = right && status == ALCRS_OK;
    while ((status = verdict(&checker)) == ALCRS_NO_MEMORY && !again++)
        right = right && is_untouched();
    alcrs_checker_close(&checker);
    struct outputs told = outputs;
    memset(&outputs, 0xEE, sizeof outputs);
    left = -1;
    return right && status == ALCRS_OK && again <= refused && call(CHECK) == ALCRS_OK &&
           !memcmp(&told, &outputs, sizeof told);
}

/* Runs it with each of its allocations refused in turn, and returns how often. */
static int try_all(const char *name, int (*goes_right)(void), int *wrong) {
    int runs = 0;
    for (long at = 0;; at++, runs++) {
        refused = 0;
        left = at;
        int right = goes_right();
        left = -1;
        if (!right) {
            printf("%s, allocation %ld: wrong\n", name, at);
            ++*wrong;
        }
        if (!refused) return runs;
    }
}

int main(int count, char **words) {
    files = read_files(count, words);
    buffer_size = 4 * files.object.size + 100000;
    buffer = room(buffer_size);
    memset(&untouched, 0xEE, sizeof untouched);
    int runs = 0, wrong = 0;
    for (int which = 0; which < CALLS; which++) {
        for (long at = 0;; at++, runs++) {
            memset(&outputs, 0xEE, sizeof outputs);
            memset(buffer, 0xEE, buffer_size);
            refused = 0;
            left = at;
            enum alcrs_status status = call(which);
            left = -1;
            if (status != ALCRS_OK && (status != ALCRS_NO_MEMORY || !refused || !is_untouched())) {
                printf("call %d, allocation %ld: status %d\n", which, at, (int)status);
                wrong++;
            }
            if (!refused) break;
        }
    }
    runs += try_all("receiver", receives, &wrong) + try_all("checker", checks, &wrong);
    printf("refused memory: %d runs, %d wrong\n", runs, wrong);
    free_files(&files);
    free(buffer);
    return wrong != 0;
}
