/* Four threads check, decode and receive the same bytes at once, each with outputs, a receiver and
 * a checker of its own. */
#include "files.h"
#include <alcrs.h>
#include <pthread.h>
#include <string.h>

enum { THREADS = 4, TURNS = 25 };

static struct files files;

static void *work(void *wrong) {
    uint8_t *out = room(files.object.size);
    for (int turn = 0; turn < TURNS; turn++) {
        struct alcrs_fault fault = {0};
        struct alcrs_report report = {0};
        struct alcrs_block blocks[4] = {{0, 0}};
        size_t kill[8] = {0}, size = 0;
        if (alcrs_check(files.session.at, files.session.size, files.object.at, files.object.size,
                        files.certificate.at, files.certificate.size, files.tsi, 0, files.toi,
                        &fault, &report, blocks, 4, kill, 8))
            ++*(int *)wrong;
        memset(out, 0, files.object.size);
        if (alcrs_decode(files.session.at, files.session.size, files.tsi, 0, files.toi, &fault, out,
                         files.object.size, &size) ||
            size != files.object.size || memcmp(out, files.object.at, size))
            ++*(int *)wrong;
    }
    struct alcrs_receiver receiver = {0};
    struct alcrs_fault fault = {0};
    if (alcrs_receiver_open(&receiver, files.tsi, 0, files.toi)) ++*(int *)wrong;
    enum alcrs_status status = ALCRS_MORE;
    for (size_t at = 0, length; status == ALCRS_MORE && at < files.session.size; at += 2 + length) {
        length = (size_t)files.session.at[at] << 8 | files.session.at[at + 1];
        status = alcrs_receiver_feed(&receiver, files.session.at + at + 2, length, &fault);
    }
    size_t size = 0;
    memset(out, 0, files.object.size);
    if (status || alcrs_receiver_object(&receiver, &fault, out, files.object.size, &size) ||
        memcmp(out, files.object.at, files.object.size))
        ++*(int *)wrong;
    alcrs_receiver_close(&receiver);
    struct alcrs_checker checker = {0};
    struct alcrs_report report = {0};
    struct alcrs_block blocks[4] = {{0, 0}};
    size_t kill[8] = {0};
    status = alcrs_checker_open(&checker, files.object.at, files.object.size, files.certificate.at,
                                files.certificate.size, files.tsi, 0, files.toi, &fault);
    for (size_t at = 0, length; !status && at < files.session.size; at += 2 + length) {
        length = (size_t)files.session.at[at] << 8 | files.session.at[at + 1];
        status = alcrs_checker_feed(&checker, files.session.at + at + 2, length, &fault);
    }
    if (status || alcrs_checker_verdict(&checker, &fault, &report, blocks, 4, kill, 8))
        ++*(int *)wrong;
    alcrs_checker_close(&checker);
    free(out);
    return 0;
}

int main(int count, char **words) {
    files = read_files(count, words);
    pthread_t threads[THREADS];
    int wrong[THREADS] = {0}, all = 0;
    for (int i = 0; i < THREADS; i++)
        if (pthread_create(&threads[i], 0, work, &wrong[i])) return 2;
    for (int i = 0; i < THREADS; i++) {
        pthread_join(threads[i], 0);
        all += wrong[i];
    }
    free_files(&files);
    if (all) printf("threads: %d answers are wrong\n", all);
    return all != 0;
}
