/* alcrs: certifies multicast file-delivery sessions (ALC, Reed-Solomon over GF(2^8)), and decodes
 * them.
 *
 * Each call is a function of its arguments alone. There is no global state and nothing to set up or
 * tear down. Calls may run at the same time in several threads, as long as no two share an output,
 * a receiver or a checker. A call takes memory from malloc and frees it before it returns; only an
 * open receiver or checker has memory between calls. No call keeps a pointer that it was passed,
 * and none ends the process.
 *
 * What a caller has to see to:
 * - no pointer is NULL, not even one to no bytes;
 * - each pointer has as many bytes or members behind it as the size beside it says, and they are
 *   initialised, outputs too;
 * - outputs overlap neither each other nor inputs. Inputs may overlap.
 *
 * Sizes are in bytes, rooms in members. A TSI has up to 48 bits, and a TOI up to 112: toi_high *
 * 2^64 + toi_low. Only alcrs_certify refuses greater ones; for the other calls no packet has them.
 * Places of datagrams, blocks, columns and symbols count from 0. A status that a call can return is
 * named at the call, and so is each output that it writes at that status. Every other output stays
 * as it was.
 *
 * docs/EMBEDDING.md in the source has examples, and says what is proved of these calls. */
#ifndef ALCRS_H
#define ALCRS_H

#include <stdbool.h>
#include <stddef.h>
#include <stdint.h>

#ifdef __cplusplus
extern "C" {
#endif

/* The number of this interface. alcrs_version() returns that of the library: a program that was
 * compiled with this header runs with a library of the same number. */
#define ALCRS_VERSION 1

enum alcrs_status {
    ALCRS_OK = 0,              /* yes, or done */
    ALCRS_NO = 1,              /* the check says no: fault.number is the N below */
    ALCRS_MISSING = 2,         /* a block has too few symbols: fault.block, have, need */
    ALCRS_EMPTY = 3,           /* no carrier came: no packet of the identity has the FTI */
    ALCRS_REFUSED = 4,         /* the datagrams are of no object: fault.number is the R below */
    ALCRS_NO_SESSION = 5,      /* the bytes are no session's: fault.number is the S below */
    ALCRS_NO_CERTIFICATE = 6,  /* the bytes are no certificate's: fault.number is the Z below */
    ALCRS_NO_FTI = 7,          /* length and numbers are no FTI: fault.fti is the F below */
    ALCRS_TOO_LONG = 8,        /* symbol_length is above 65,475: no datagram holds it */
    ALCRS_NO_ROOM = 9,         /* *size is what is needed; the buffer is as it was */
    ALCRS_NO_MEMORY = 10,      /* malloc or realloc has refused; nothing is said of the inputs */
    ALCRS_OUT_OF_RANGE = 11,   /* a number is out of its range, as the call tells */
    ALCRS_NONE_SHORT = 12,     /* the check says yes, so that there is no twin */
    ALCRS_IS_OPEN = 13,        /* the receiver or checker is open already */
    ALCRS_NOT_OPEN = 14,       /* the receiver or checker isn't open */
    ALCRS_MORE = 15,           /* the datagram was accepted, and more are needed */
    ALCRS_EARLY = 16,          /* the datagram is refused: it has no FTI, and came before one */
    ALCRS_FULL = 17            /* refused: as many were accepted as can be counted */
};

/* Why a call says no, or nothing. What doesn't belong to the reason is 0.
 *
 * number, at ALCRS_NO (N), ALCRS_REFUSED (R), ALCRS_NO_SESSION (S) and ALCRS_NO_CERTIFICATE (Z):
 *   N1  the object hasn't the certificate's length
 *   N2  the certificate doesn't give the object: block, column, symbol
 *   N3  none of the identity's packets is there
 *   N4  a datagram is no packet: place, packet, fti
 *   N6  a packet carries an FTI that isn't the certificate's: place
 *   N7  there is no such block, or no such symbol in it: place
 *   N8  a symbol isn't the certified one: place, column
 *   N9  a block has too few symbols: block, have, need
 *   N10 a symbol isn't as long as the FTI tells: place
 *   N11 no packet carries the FTI
 *   N12 the certificate has another TSI or TOI
 *   R1  a datagram is no packet: place, packet, fti
 *   R3  a packet carries an FTI that isn't that of the first carrier: place
 *   R4  there is no such block, or no such symbol in it: place
 *   R5  an earlier symbol of the same block and ESI has other bytes: place
 *   R6  a block has enough symbols, and they are those of no object: block
 *   R7  a symbol isn't as long as the FTI tells: place
 *   S1  the end comes inside a datagram's length
 *   S2  the end comes inside a datagram
 *   S3  a datagram's length is above 65,507
 *   Z1  the bytes begin as no certificate does
 *   Z2  the FTI isn't valid: fti
 *   Z3  there are too few or too many coefficients
 * packet, at N4 and R1, is the P of the datagram's fault:
 *   1 too short; 2 LCT version; 3 protocol-specific indication; 4 codepoint; 5 no TSI or TOI; 6
 *   header length; 7 a header extension; 8 EXT_FTI's length; 9 a second EXT_FTI; 11 EXT_FTI's
 *   numbers, with fti; 12 the payload's length
 * fti is the F of an FTI's fault:
 *   1 the object is empty; 2 it has 2^48 bytes or more; 3 the symbol length is 0; 4 a block has no
 *   source symbols; 5 it has fewer encoding symbols than source symbols; 6 there are more than 2^24
 *   blocks */
struct alcrs_fault {
    uint32_t number, packet, fti, block;
    size_t place, column, symbol, have, need;
};

/* How many source symbols a block has, and how many different ones of its symbols came. */
struct alcrs_block {
    size_t need, have;
};

/* What a session can lose: how many datagrams, whichever they are (margin), and how many neighbours
 * (burst). Further how many blocks there are, how many packets carry the FTI, and how many places
 * the kill has, which are margin + 1 datagrams whose loss is too much. */
struct alcrs_report {
    size_t block_count, carriers, margin, burst, kill_count;
};

/* Returns ALCRS_VERSION of the library. */
uint32_t alcrs_version(void);

/* Checks the identity's packets in a session, with the object and its certificate. The session is
 * read from the front, one datagram at a time, and not behind the first reason for a no. Symbols
 * are held, and of a certificate without a name (RSC1) a copy.
 *
 * ALCRS_OK              yes. *report has the numbers. blocks and kill begin with as many blocks and
 *                       places as they have room for; both rooms may be 0.
 * ALCRS_NO              no. *fault is the first reason, N1 to N12.
 * ALCRS_NO_SESSION      the session ends inside a frame, or has one that is too long, and nothing
 *                       before gives a no: *fault
 * ALCRS_NO_CERTIFICATE  *fault. This is told before anything of the session and the object.
 * ALCRS_NO_MEMORY */
enum alcrs_status alcrs_check(const uint8_t *session, size_t session_size, const uint8_t *object,
                              size_t object_size, const uint8_t *certificate,
                              size_t certificate_size, uint64_t tsi, uint64_t toi_high,
                              uint64_t toi_low, struct alcrs_fault *fault,
                              struct alcrs_report *report, struct alcrs_block *blocks,
                              size_t block_room, size_t *kill, size_t kill_room);

/* Returns the length of the object that is sent, as the first carrier tells it. Nothing is decoded,
 * so that ALCRS_OK doesn't say that the object can be.
 *
 * ALCRS_OK          *size is the length
 * ALCRS_EMPTY
 * ALCRS_NO_SESSION  *fault
 * ALCRS_NO_MEMORY */
enum alcrs_status alcrs_object_length(const uint8_t *session, size_t session_size, uint64_t tsi,
                                      uint64_t toi_high, uint64_t toi_low,
                                      struct alcrs_fault *fault, uint64_t *size);

/* Decodes the object that the identity's packets in a session give.
 *
 * ALCRS_OK          object begins with the object, and *size is its length. Behind it the buffer is
 *                   as it was.
 * ALCRS_MISSING     *fault
 * ALCRS_EMPTY
 * ALCRS_REFUSED     *fault
 * ALCRS_NO_SESSION  *fault
 * ALCRS_NO_ROOM     there is an object, and *size is its length
 * ALCRS_NO_MEMORY */
enum alcrs_status alcrs_decode(const uint8_t *session, size_t session_size, uint64_t tsi,
                               uint64_t toi_high, uint64_t toi_low, struct alcrs_fault *fault,
                               uint8_t *object, size_t object_room, size_t *size);

/* Makes the session of an object: datagrams with every encoding symbol of every block once.
 * symbol_length is the bytes of a symbol, block_length and max_symbols how many source symbols and
 * how many encoding symbols a block has at most. The datagram at each place that fti_every divides
 * carries the FTI. They stand block after block, or where rounds is true, in rounds of one symbol
 * of each block.
 *
 * ALCRS_OK            session begins with the session, and *size is its length
 * ALCRS_NO_FTI        *fault
 * ALCRS_TOO_LONG
 * ALCRS_NO_ROOM       *size
 * ALCRS_NO_MEMORY
 * ALCRS_OUT_OF_RANGE  fti_every is 0 */
enum alcrs_status alcrs_encode(const uint8_t *object, size_t object_size, uint32_t tsi,
                               uint32_t toi, uint16_t symbol_length, uint8_t block_length,
                               uint8_t max_symbols, uint32_t fti_every, bool rounds,
                               struct alcrs_fault *fault, uint8_t *session, size_t session_room,
                               size_t *size);

/* Makes the certificate of an object, for the packets of a TSI and TOI. The numbers are those of
 * alcrs_encode.
 *
 * ALCRS_OK            certificate begins with the certificate, and *size is its length
 * ALCRS_NO_FTI        *fault
 * ALCRS_NO_ROOM       *size
 * ALCRS_NO_MEMORY
 * ALCRS_OUT_OF_RANGE  the TSI isn't below 2^48, or the TOI not below 2^112 */
enum alcrs_status alcrs_certify(const uint8_t *object, size_t object_size, uint64_t tsi,
                                uint64_t toi_high, uint64_t toi_low, uint16_t symbol_length,
                                uint8_t block_length, uint8_t max_symbols,
                                struct alcrs_fault *fault, uint8_t *certificate,
                                size_t certificate_room, size_t *size);

/* Makes a twin where the check says N9: another object of the same length that agrees with all of
 * the identity's packets in the session. It is made for the least block that is short. Symbols are
 * held, and of a certificate without a name (RSC1) a copy.
 *
 * ALCRS_OK              twin begins with the twin, *size is its length, and *fault the N9 of the
 *                       check
 * ALCRS_NO              the check says no for another reason: *fault
 * ALCRS_NO_SESSION      *fault. This is told before anything of the certificate and the object.
 * ALCRS_NO_CERTIFICATE  *fault
 * ALCRS_NO_ROOM         there is a twin: *size, and *fault as at ALCRS_OK
 * ALCRS_NO_MEMORY
 * ALCRS_NONE_SHORT */
enum alcrs_status alcrs_twin(const uint8_t *session, size_t session_size, const uint8_t *object,
                             size_t object_size, const uint8_t *certificate,
                             size_t certificate_size, uint64_t tsi, uint64_t toi_high,
                             uint64_t toi_low, struct alcrs_fault *fault, uint8_t *twin,
                             size_t twin_room, size_t *size);

/* A receiver of the datagrams of one object, one at a time. It keeps symbols, never more of a block
 * than the block has source symbols, and no datagram.
 *
 * Set it to zero before anything else, as by struct alcrs_receiver receiver = {0}, and leave its
 * members to the calls below. It may be moved to another place, but of two copies only one may be
 * used. It stays on the thread that opened it. Close it in the end, or its memory is lost. */
struct alcrs_receiver {
    void *place;
    bool is_open;
};

/* Opens a receiver for the packets of a TSI and TOI.
 *
 * ALCRS_OK         it is open, and no datagram was accepted
 * ALCRS_NO_MEMORY  it is as it was
 * ALCRS_IS_OPEN    it is as it was */
enum alcrs_status alcrs_receiver_open(struct alcrs_receiver *receiver, uint64_t tsi,
                                      uint64_t toi_high, uint64_t toi_low);

/* Passes one datagram on. Packets of other identities are accepted, and passed over.
 *
 * ALCRS_OK         it was accepted, and every block has as many symbols as it needs: the object is
 *                  there
 * ALCRS_MORE       it was accepted, and more are needed
 * ALCRS_REFUSED    with it the datagrams would be of no object: *fault, whose place is how many
 *                  were accepted before; that of R6 is 0, and it has the block
 * ALCRS_EARLY
 * ALCRS_FULL
 * ALCRS_NO_MEMORY
 * ALCRS_NOT_OPEN
 * At all but the first two the datagram is refused, and the receiver is as it was: the datagram may
 * be passed again. */
enum alcrs_status alcrs_receiver_feed(struct alcrs_receiver *receiver, const uint8_t *datagram,
                                      size_t datagram_size, struct alcrs_fault *fault);

/* Tells what the accepted datagrams say of the object. The receiver may be fed further, and asked
 * again.
 *
 * ALCRS_OK         object begins with the object, and *size is its length
 * ALCRS_MISSING    *fault
 * ALCRS_EMPTY
 * ALCRS_NO_ROOM    there is an object, and *size is its length
 * ALCRS_NO_MEMORY
 * ALCRS_NOT_OPEN */
enum alcrs_status alcrs_receiver_object(struct alcrs_receiver *receiver, struct alcrs_fault *fault,
                                        uint8_t *object, size_t object_room, size_t *size);

/* Closes a receiver, and frees its memory. One that isn't open stays so. It may be opened again. */
void alcrs_receiver_close(struct alcrs_receiver *receiver);

/* A check of an object's datagrams that come one at a time. Its verdict is that of alcrs_check on a
 * session of the datagrams that it was fed with, in the order in which they came. It keeps copies
 * of the object and of the certificate, and symbols, but no datagram.
 *
 * Set it to zero before anything else, as by struct alcrs_checker checker = {0}, and leave its
 * members to the calls below. It may be moved to another place, but of two copies only one may be
 * used. It stays on the thread that opened it. Close it in the end, or its memory is lost. */
struct alcrs_checker {
    void *place;
    bool is_open;
};

/* Opens a checker for the packets of a TSI and TOI, with the object and its certificate. The
 * caller's bytes of both may be freed then.
 *
 * ALCRS_OK              it is open, and no datagram was fed
 * ALCRS_NO              the verdict is no, whatever datagrams come. *fault is the reason: N1, N2 or
 *                       N12.
 * ALCRS_NO_CERTIFICATE  *fault. This is told before anything of the object.
 * ALCRS_NO_MEMORY
 * ALCRS_IS_OPEN
 * At all but the first the checker is as it was. */
enum alcrs_status alcrs_checker_open(struct alcrs_checker *checker, const uint8_t *object,
                                     size_t object_size, const uint8_t *certificate,
                                     size_t certificate_size, uint64_t tsi, uint64_t toi_high,
                                     uint64_t toi_low, struct alcrs_fault *fault);

/* Passes one datagram on. Packets of other identities are taken, and passed over.
 *
 * ALCRS_OK          it was taken, and no datagram so far has a reason against it
 * ALCRS_NO          a datagram has a reason against it. *fault is the first such reason: N4, N6,
 *                   N7, N8 or N10. Its place is that among the datagrams that were fed. It is the
 *                   verdict, whatever follows: from then on each verdict returns it, and each feed
 *                   of a datagram that isn't too long.
 * ALCRS_NO_SESSION  it has more than 65,507 bytes, so no session has it: *fault is S3. It isn't
 *                   counted, and the checker is as it was. This is told before all else but
 *                   ALCRS_NOT_OPEN.
 * ALCRS_NO_MEMORY   the check is over: from then on each verdict returns this, and each feed of a
 *                   datagram that isn't too long. Close the checker, and begin again.
 * ALCRS_NOT_OPEN */
enum alcrs_status alcrs_checker_feed(struct alcrs_checker *checker, const uint8_t *datagram,
                                     size_t datagram_size, struct alcrs_fault *fault);

/* Tells the verdict on the datagrams that were fed so far. The checker may be fed further, and
 * asked again.
 *
 * ALCRS_OK         yes. *report, blocks and kill are written as by alcrs_check.
 * ALCRS_NO         no. *fault is the first reason: that of the feed that returned ALCRS_NO, or N3,
 *                  N9 or N11.
 * ALCRS_NO_MEMORY  where the check isn't over, the verdict may be asked for again
 * ALCRS_NOT_OPEN */
enum alcrs_status alcrs_checker_verdict(struct alcrs_checker *checker, struct alcrs_fault *fault,
                                        struct alcrs_report *report, struct alcrs_block *blocks,
                                        size_t block_room, size_t *kill, size_t kill_room);

/* Closes a checker, and frees its memory. One that isn't open stays so. It may be opened again. */
void alcrs_checker_close(struct alcrs_checker *checker);

#ifdef __cplusplus
}
#endif
#endif
