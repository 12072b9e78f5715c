/* What each call leaves at each status that a small input can bring about: every output that a
 * status doesn't name is as it was. The samples are given as SESSION OBJECT CERTIFICATE TSI TOI. */
#include "files.h"
#include <alcrs.h>
#include <string.h>

/* The sizes that docs/EMBEDDING.md tells. */
_Static_assert(sizeof(struct alcrs_fault) == 56 && sizeof(struct alcrs_block) == 16 &&
                   sizeof(struct alcrs_report) == 40 && sizeof(struct alcrs_receiver) == 16 &&
                   sizeof(struct alcrs_checker) == 16 && sizeof(enum alcrs_status) == 4,
               "the layouts that the library was built with");

static int wrong;

static void expect(int line, int holds) {
    if (holds) return;
    printf("tests/calls.c:%d: not as alcrs.h says\n", line);
    wrong++;
}
#define EXPECT(holds) expect(__LINE__, (holds))

static struct alcrs_fault fault, fault_before;
static struct alcrs_report report, report_before;
static struct alcrs_block blocks[2], blocks_before[2];
static size_t kill[2], kill_before[2], size;
static uint64_t length;

static void clear(void) {
    memset(&fault, 0xEE, sizeof fault);
    memset(&report, 0xEE, sizeof report);
    memset(blocks, 0xEE, sizeof blocks);
    memset(kill, 0xEE, sizeof kill);
    fault_before = fault, report_before = report;
    memcpy(blocks_before, blocks, sizeof blocks);
    memcpy(kill_before, kill, sizeof kill);
    size = 77, length = 77;
}

static int same_fault(void) {
    return !memcmp(&fault, &fault_before, sizeof fault);
}

static int same_report(void) {
    return !memcmp(&report, &report_before, sizeof report) &&
           !memcmp(blocks, blocks_before, sizeof blocks) && !memcmp(kill, kill_before, sizeof kill);
}

static int is_fault(uint32_t number, uint32_t packet, uint32_t fti, uint32_t block, size_t place,
                    size_t have, size_t need) {
    return fault.number == number && fault.packet == packet && fault.fti == fti &&
           fault.block == block && fault.place == place && fault.have == have &&
           fault.need == need && !fault.column && !fault.symbol;
}

static int all(const uint8_t *bytes, size_t from, size_t to, uint8_t byte) {
    for (size_t i = from; i < to; i++)
        if (bytes[i] != byte) return 0;
    return 1;
}

int main(int count, char **words) {
    struct files files = read_files(count, words);
    const uint8_t *session = files.session.at, *object = files.object.at,
                  *certificate = files.certificate.at;
    size_t s = files.session.size, o = files.object.size, z = files.certificate.size;
    uint64_t tsi = files.tsi, toi = files.toi;
    size_t frame = 2 + ((size_t)session[0] << 8 | session[1]);
    size_t most = 2 * s + 100;
    uint8_t *buffer = room(most), *before = room(most);
    memset(before, 0xEE, most);
#define CLEAR() (clear(), memset(buffer, 0xEE, most))
#define SAME_BUFFER() (!memcmp(buffer, before, most))
#define CHECKED(session, s, o, z, tsi, blocks, kills)                                              \
    alcrs_check(session, s, object, o, certificate, z, tsi, 0, toi, &fault, &report, (blocks), 2,  \
                (kill), kills)

    EXPECT(alcrs_version() == ALCRS_VERSION);

    /* The note's session has 6 datagrams, of which any 4 are enough. */
    CLEAR();
    EXPECT(CHECKED(session, s, o, z, tsi, blocks, 2) == ALCRS_OK && same_fault());
    EXPECT(report.block_count == 1 && report.carriers == 6 && report.margin == 2 &&
           report.burst == 2);
    EXPECT(report.kill_count == 3 && kill[0] == 0 && kill[1] == 1);
    EXPECT(blocks[0].need == 4 && blocks[0].have == 6 &&
           !memcmp(blocks + 1, blocks_before + 1, sizeof *blocks));
    CLEAR();
    EXPECT(CHECKED(session, s, o, z, tsi, blocks, 0) == ALCRS_OK &&
           !memcmp(kill, kill_before, sizeof kill));
    CLEAR();
    EXPECT(CHECKED(session, s, o - 1, z, tsi, blocks, 2) == ALCRS_NO &&
           is_fault(1, 0, 0, 0, 0, 0, 0) && same_report());
    CLEAR();
    EXPECT(CHECKED(session, s, o, z, tsi + 1, blocks, 2) == ALCRS_NO &&
           is_fault(12, 0, 0, 0, 0, 0, 0));
    CLEAR();
    EXPECT(CHECKED(session, 3 * frame, o, z, tsi, blocks, 2) == ALCRS_NO &&
           is_fault(9, 0, 0, 0, 0, 3, 4));
    CLEAR();
    EXPECT(CHECKED(session, s - 1, o, z, tsi, blocks, 2) == ALCRS_NO_SESSION &&
           is_fault(2, 0, 0, 0, 0, 0, 0) && same_report());
    CLEAR();
    EXPECT(CHECKED(session, 1, o, z, tsi, blocks, 2) == ALCRS_NO_SESSION &&
           is_fault(1, 0, 0, 0, 0, 0, 0));
    CLEAR();
    EXPECT(CHECKED(session, s, o, z - 1, tsi, blocks, 2) == ALCRS_NO_CERTIFICATE &&
           is_fault(3, 0, 0, 0, 0, 0, 0) && same_report());
    CLEAR();
    EXPECT(CHECKED(session, s, o, 3, tsi, blocks, 2) == ALCRS_NO_CERTIFICATE &&
           is_fault(1, 0, 0, 0, 0, 0, 0));
    /* A reason at a place comes before the cut behind it, as nothing behind it is read. */
    memcpy(buffer, session, s);
    buffer[2] ^= 0x20;
    clear();
    EXPECT(CHECKED(buffer, s - 1, o, z, tsi, blocks, 2) == ALCRS_NO &&
           is_fault(4, 2, 0, 0, 0, 0, 0));

    CLEAR();
    EXPECT(alcrs_object_length(session, s, tsi, 0, toi, &fault, &length) == ALCRS_OK &&
           length == o && same_fault());
    CLEAR();
    EXPECT(alcrs_object_length(session, s, tsi, 1, toi, &fault, &length) == ALCRS_EMPTY &&
           length == 77 && same_fault());
    CLEAR();
    EXPECT(alcrs_object_length(session, s - 1, tsi, 0, toi, &fault, &length) == ALCRS_NO_SESSION &&
           length == 77 && is_fault(2, 0, 0, 0, 0, 0, 0));

    CLEAR();
    EXPECT(alcrs_decode(session, s, tsi, 0, toi, &fault, buffer, most, &size) == ALCRS_OK &&
           size == o && same_fault());
    EXPECT(!memcmp(buffer, object, o) && all(buffer, o, most, 0xEE));
    CLEAR();
    EXPECT(alcrs_decode(session, s, tsi, 0, toi, &fault, buffer, o - 1, &size) == ALCRS_NO_ROOM &&
           size == o);
    EXPECT(SAME_BUFFER() && same_fault());
    CLEAR();
    EXPECT(alcrs_decode(session, s, tsi, 0, toi, &fault, buffer, 0, &size) == ALCRS_NO_ROOM &&
           size == o && SAME_BUFFER());
    CLEAR();
    EXPECT(alcrs_decode(session, 3 * frame, tsi, 0, toi, &fault, buffer, most, &size) ==
               ALCRS_MISSING &&
           size == 77);
    EXPECT(is_fault(0, 0, 0, 0, 0, 3, 4) && SAME_BUFFER());
    CLEAR();
    EXPECT(alcrs_decode(session, 0, tsi, 0, toi, &fault, buffer, most, &size) == ALCRS_EMPTY &&
           same_fault() && size == 77);
    CLEAR();
    EXPECT(alcrs_decode(session, s - 1, tsi, 0, toi, &fault, buffer, most, &size) ==
               ALCRS_NO_SESSION &&
           size == 77);
    EXPECT(is_fault(2, 0, 0, 0, 0, 0, 0) && SAME_BUFFER());
    memcpy(buffer, session, s);
    buffer[s - 1] ^= 1;
    clear();
    EXPECT(alcrs_decode(buffer, s, tsi, 0, toi, &fault, before, most, &size) == ALCRS_REFUSED &&
           is_fault(6, 0, 0, 0, 0, 0, 0));
    EXPECT(all(before, 0, most, 0xEE) && size == 77);

    CLEAR();
    EXPECT(alcrs_encode(object, o, (uint32_t)tsi, (uint32_t)toi, 8, 8, 12, 1, false, &fault, buffer,
                        most, &size) == ALCRS_OK);
    EXPECT(size == s && !memcmp(buffer, session, s) && all(buffer, s, most, 0xEE) && same_fault());
    CLEAR();
    EXPECT(alcrs_encode(object, o, 7, 2, 8, 8, 12, 1, false, &fault, buffer, s - 1, &size) ==
               ALCRS_NO_ROOM &&
           size == s);
    EXPECT(SAME_BUFFER() && same_fault());
    CLEAR();
    EXPECT(alcrs_encode(object, 0, 7, 2, 8, 8, 12, 1, false, &fault, buffer, most, &size) ==
               ALCRS_NO_FTI &&
           size == 77);
    EXPECT(is_fault(0, 0, 1, 0, 0, 0, 0) && SAME_BUFFER());
    CLEAR();
    EXPECT(alcrs_encode(object, o, 7, 2, 65476, 8, 12, 1, false, &fault, buffer, most, &size) ==
               ALCRS_TOO_LONG &&
           size == 77);
    EXPECT(same_fault() && SAME_BUFFER());
    CLEAR();
    EXPECT(alcrs_encode(object, o, 7, 2, 8, 8, 12, 0, false, &fault, buffer, most, &size) ==
               ALCRS_OUT_OF_RANGE &&
           size == 77);
    EXPECT(same_fault() && SAME_BUFFER());

    CLEAR();
    EXPECT(alcrs_certify(object, o, tsi, 0, toi, 8, 8, 12, &fault, buffer, most, &size) ==
               ALCRS_OK &&
           same_fault());
    EXPECT(size == z && !memcmp(buffer, certificate, z) && all(buffer, z, most, 0xEE));
    CLEAR();
    EXPECT(alcrs_certify(object, o, tsi, 0, toi, 8, 8, 12, &fault, buffer, z - 1, &size) ==
               ALCRS_NO_ROOM &&
           size == z);
    EXPECT(SAME_BUFFER() && same_fault());
    CLEAR();
    EXPECT(alcrs_certify(object, o, tsi, 0, toi, 8, 8, 7, &fault, buffer, most, &size) ==
               ALCRS_NO_FTI &&
           size == 77);
    EXPECT(is_fault(0, 0, 5, 0, 0, 0, 0) && SAME_BUFFER());
    CLEAR();
    EXPECT(alcrs_certify(object, o, (uint64_t)1 << 48, 0, toi, 8, 8, 12, &fault, buffer, most,
                         &size) == ALCRS_OUT_OF_RANGE);
    EXPECT(alcrs_certify(object, o, tsi, (uint64_t)1 << 48, toi, 8, 8, 12, &fault, buffer, most,
                         &size) == ALCRS_OUT_OF_RANGE);
    EXPECT(SAME_BUFFER() && same_fault() && size == 77);

    CLEAR();
    EXPECT(alcrs_twin(session, 3 * frame, object, o, certificate, z, tsi, 0, toi, &fault, buffer,
                      most, &size) == ALCRS_OK);
    EXPECT(size == o && memcmp(buffer, object, o) && all(buffer, o, most, 0xEE) &&
           is_fault(9, 0, 0, 0, 0, 3, 4));
    memcpy(before, buffer, o);
    clear();
    /* The twin isn't the certified object. */
    EXPECT(alcrs_check(session, 3 * frame, before, o, certificate, z, tsi, 0, toi, &fault, &report,
                       blocks, 2, kill, 2) == ALCRS_NO &&
           fault.number == 2);
    memset(before, 0xEE, o);
    CLEAR();
    EXPECT(alcrs_twin(session, 3 * frame, object, o, certificate, z, tsi, 0, toi, &fault, buffer, 1,
                      &size) == ALCRS_NO_ROOM);
    EXPECT(size == o && is_fault(9, 0, 0, 0, 0, 3, 4) && SAME_BUFFER());
    CLEAR();
    EXPECT(alcrs_twin(session, s, object, o, certificate, z, tsi, 0, toi, &fault, buffer, most,
                      &size) == ALCRS_NONE_SHORT);
    EXPECT(SAME_BUFFER() && same_fault() && size == 77);
    CLEAR();
    EXPECT(alcrs_twin(session, 0, object, o, certificate, z, tsi, 0, toi, &fault, buffer, most,
                      &size) == ALCRS_NO);
    EXPECT(SAME_BUFFER() && is_fault(3, 0, 0, 0, 0, 0, 0) && size == 77);
    CLEAR();
    EXPECT(alcrs_twin(session, 1, object, o, certificate, z, tsi, 0, toi, &fault, buffer, most,
                      &size) == ALCRS_NO_SESSION);
    EXPECT(SAME_BUFFER() && is_fault(1, 0, 0, 0, 0, 0, 0) && size == 77);
    CLEAR();
    EXPECT(alcrs_twin(session, s, object, o, certificate, 5, tsi, 0, toi, &fault, buffer, most,
                      &size) == ALCRS_NO_CERTIFICATE);
    EXPECT(SAME_BUFFER() && fault.number == 3 && size == 77);

    struct alcrs_receiver receiver = {0}, other = {0};
    CLEAR();
    EXPECT(alcrs_receiver_feed(&receiver, session + 2, frame - 2, &fault) == ALCRS_NOT_OPEN &&
           same_fault());
    EXPECT(alcrs_receiver_object(&receiver, &fault, buffer, most, &size) == ALCRS_NOT_OPEN &&
           same_fault() && size == 77);
    alcrs_receiver_close(&receiver);
    EXPECT(alcrs_receiver_open(&receiver, tsi, 0, toi) == ALCRS_OK);
    EXPECT(alcrs_receiver_open(&receiver, tsi + 1, 0, toi) == ALCRS_IS_OPEN);
    EXPECT(alcrs_receiver_open(&other, tsi + 1, 0, toi) == ALCRS_OK);
    EXPECT(alcrs_receiver_object(&receiver, &fault, buffer, most, &size) == ALCRS_EMPTY &&
           same_fault() && size == 77);
    EXPECT(alcrs_receiver_feed(&receiver, session, 3, &fault) == ALCRS_REFUSED &&
           is_fault(1, 1, 0, 0, 0, 0, 0));
    CLEAR();
    for (size_t i = 0; i < 3; i++) {
        EXPECT(alcrs_receiver_feed(&receiver, session + i * frame + 2, frame - 2, &fault) ==
                   ALCRS_MORE &&
               same_fault());
        EXPECT(alcrs_receiver_feed(&other, session + i * frame + 2, frame - 2, &fault) ==
                   ALCRS_MORE &&
               same_fault());
    }
    EXPECT(alcrs_receiver_object(&receiver, &fault, buffer, most, &size) == ALCRS_MISSING &&
           size == 77 && SAME_BUFFER());
    EXPECT(is_fault(0, 0, 0, 0, 0, 3, 4));
    CLEAR();
    /* A receiver may be moved. */
    struct alcrs_receiver moved = receiver;
    EXPECT(alcrs_receiver_feed(&moved, session + 3 * frame + 2, frame - 2, &fault) == ALCRS_OK &&
           same_fault());
    EXPECT(alcrs_receiver_object(&moved, &fault, buffer, o - 1, &size) == ALCRS_NO_ROOM &&
           size == o && SAME_BUFFER());
    EXPECT(alcrs_receiver_object(&moved, &fault, buffer, most, &size) == ALCRS_OK && size == o &&
           same_fault());
    EXPECT(!memcmp(buffer, object, o) && all(buffer, o, most, 0xEE));
    EXPECT(alcrs_receiver_object(&other, &fault, buffer, most, &size) == ALCRS_EMPTY);
    alcrs_receiver_close(&moved);
    alcrs_receiver_close(&moved);
    EXPECT(alcrs_receiver_feed(&moved, session + 2, frame - 2, &fault) == ALCRS_NOT_OPEN);
    EXPECT(alcrs_receiver_open(&moved, tsi, 0, toi) == ALCRS_OK);
    alcrs_receiver_close(&moved);
    alcrs_receiver_close(&other);

#define FED(checker, at) alcrs_checker_feed(&checker, session + (at)*frame + 2, frame - 2, &fault)
#define VERDICT(checker, room, kill_room)                                                          \
    alcrs_checker_verdict(&checker, &fault, &report, blocks, room, kill, kill_room)
#define OPENED(checker, o, z, tsi)                                                                 \
    alcrs_checker_open(&checker, object, o, certificate, z, tsi, 0, toi, &fault)
    struct alcrs_checker checker = {0}, twice = {0};
    CLEAR();
    EXPECT(FED(checker, 0) == ALCRS_NOT_OPEN && same_fault());
    EXPECT(VERDICT(checker, 2, 2) == ALCRS_NOT_OPEN && same_fault() && same_report());
    alcrs_checker_close(&checker);

    /* What is no, or no certificate, before any datagram comes isn't opened. */
    EXPECT(OPENED(checker, o - 1, z, tsi) == ALCRS_NO && is_fault(1, 0, 0, 0, 0, 0, 0));
    EXPECT(OPENED(checker, o - 1, z, tsi + 1) == ALCRS_NO && is_fault(12, 0, 0, 0, 0, 0, 0));
    EXPECT(OPENED(checker, o - 1, z - 1, tsi + 1) == ALCRS_NO_CERTIFICATE &&
           is_fault(3, 0, 0, 0, 0, 0, 0));
    EXPECT(OPENED(checker, o, 3, tsi) == ALCRS_NO_CERTIFICATE && is_fault(1, 0, 0, 0, 0, 0, 0));
    memcpy(buffer, object, o);
    buffer[9] ^= 1;
    EXPECT(alcrs_checker_open(&checker, buffer, o, certificate, z, tsi, 0, toi, &fault) ==
               ALCRS_NO &&
           fault.number == 2 && fault.column == 1 && fault.symbol == 1 && !fault.block);
    CLEAR();
    EXPECT(!checker.place && !checker.is_open && FED(checker, 0) == ALCRS_NOT_OPEN);
    EXPECT(VERDICT(checker, 2, 2) == ALCRS_NOT_OPEN && same_fault() && same_report());

    /* The object and the certificate may be freed when it is open. */
    uint8_t *copies = room(o + z);
    memcpy(copies, object, o);
    memcpy(copies + o, certificate, z);
    EXPECT(alcrs_checker_open(&checker, copies, o, copies + o, z, tsi, 0, toi, &fault) ==
               ALCRS_OK &&
           same_fault());
    memset(copies, 0, o + z);
    free(copies);
    EXPECT(OPENED(checker, o, z - 1, tsi) == ALCRS_IS_OPEN && same_fault());
    EXPECT(OPENED(twice, o, z, tsi) == ALCRS_OK && same_fault());
    EXPECT(VERDICT(checker, 2, 2) == ALCRS_NO && is_fault(3, 0, 0, 0, 0, 0, 0) && same_report());
    CLEAR();
    for (size_t i = 0; i < 3; i++) EXPECT(FED(checker, i) == ALCRS_OK && same_fault());
    EXPECT(VERDICT(checker, 2, 2) == ALCRS_NO && is_fault(9, 0, 0, 0, 0, 3, 4) && same_report());

    /* A datagram that no session has isn't counted. */
    uint8_t *long_one = room(65508);
    memset(long_one, 0, 65508);
    EXPECT(alcrs_checker_feed(&checker, long_one, 65508, &fault) == ALCRS_NO_SESSION &&
           is_fault(3, 0, 0, 0, 0, 0, 0));
    EXPECT(VERDICT(checker, 2, 2) == ALCRS_NO && is_fault(9, 0, 0, 0, 0, 3, 4) && same_report());
    EXPECT(alcrs_checker_feed(&twice, long_one, 65507, &fault) == ALCRS_NO &&
           is_fault(4, 2, 0, 0, 0, 0, 0));
    alcrs_checker_close(&twice);

    /* A checker may be moved. */
    CLEAR();
    struct alcrs_checker fed = checker;
    EXPECT(FED(fed, 3) == ALCRS_OK && VERDICT(fed, 2, 2) == ALCRS_OK && same_fault());
    EXPECT(report.block_count == 1 && report.carriers == 4 && !report.margin && !report.burst);
    EXPECT(report.kill_count == 1 && kill[0] == 0 && kill[1] == kill_before[1]);
    EXPECT(blocks[0].need == 4 && blocks[0].have == 4 &&
           !memcmp(blocks + 1, blocks_before + 1, sizeof *blocks));

    /* At the end it says what the check of the session says, however much room there is. */
    EXPECT(FED(fed, 4) == ALCRS_OK && FED(fed, 5) == ALCRS_OK);
    CLEAR();
    EXPECT(CHECKED(session, s, o, z, tsi, blocks, 2) == ALCRS_OK);
    report_before = report;
    memcpy(blocks_before, blocks, sizeof blocks);
    memcpy(kill_before, kill, sizeof kill);
    memset(&report, 0xEE, sizeof report);
    memset(blocks, 0xEE, sizeof blocks);
    memset(kill, 0xEE, sizeof kill);
    EXPECT(VERDICT(fed, 2, 2) == ALCRS_OK && same_report() && same_fault());
    clear();
    EXPECT(VERDICT(fed, 0, 0) == ALCRS_OK && report.margin == 2 && same_fault());
    report = report_before;
    EXPECT(same_report());

    /* The first reason against a datagram stays. */
    CLEAR();
    memcpy(buffer, session, frame);
    buffer[frame - 1] ^= 1;
    EXPECT(alcrs_checker_feed(&fed, buffer + 2, frame - 2, &fault) == ALCRS_NO &&
           fault.number == 8 && fault.place == 6 && fault.column == 7);
    fault_before = fault;
    memset(&fault, 0xEE, sizeof fault);
    EXPECT(FED(fed, 0) == ALCRS_NO && same_fault());
    memset(&fault, 0xEE, sizeof fault);
    EXPECT(alcrs_checker_feed(&fed, long_one, 3, &fault) == ALCRS_NO && same_fault());
    memset(&fault, 0xEE, sizeof fault);
    EXPECT(alcrs_checker_feed(&fed, long_one, 65508, &fault) == ALCRS_NO_SESSION &&
           is_fault(3, 0, 0, 0, 0, 0, 0));
    memset(&fault, 0xEE, sizeof fault);
    EXPECT(VERDICT(fed, 2, 2) == ALCRS_NO && same_fault() && same_report());
    alcrs_checker_close(&fed);
    alcrs_checker_close(&fed);
    CLEAR();
    EXPECT(FED(fed, 0) == ALCRS_NOT_OPEN && VERDICT(fed, 2, 2) == ALCRS_NOT_OPEN && same_fault());

    /* A closed one may be opened again. Packets of others are counted, and passed over. */
    EXPECT(OPENED(fed, o, z, tsi) == ALCRS_OK);
    memcpy(buffer, session, frame);
    buffer[2 + 15] ^= 1;
    EXPECT(alcrs_checker_feed(&fed, buffer + 2, frame - 2, &fault) == ALCRS_OK && same_fault());
    EXPECT(VERDICT(fed, 2, 2) == ALCRS_NO && is_fault(3, 0, 0, 0, 0, 0, 0) && same_report());
    EXPECT(alcrs_checker_feed(&fed, session, 0, &fault) == ALCRS_NO &&
           is_fault(4, 1, 0, 0, 1, 0, 0));
    alcrs_checker_close(&fed);
    free(long_one);

    free_files(&files);
    free(buffer);
    free(before);
    return wrong != 0;
}
