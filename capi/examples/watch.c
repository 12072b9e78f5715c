/* Sends a text as six datagrams, and checks them as they go out. After each it prints how many
 * symbols there are and how many are needed, and once they suffice, how many datagrams may be lost.
 * It asks for no blocks and places. */
#include <alcrs.h>
#include <stdio.h>

int main(void) {
    const uint8_t text[48] = "Any four of these six datagrams give this text.";
    uint8_t session[1024] = {0}, certificate[128] = {0};
    struct alcrs_fault fault = {0};
    struct alcrs_checker checker = {0};
    struct alcrs_report report = {0};
    struct alcrs_block block = {0, 0};
    size_t size = 0, length = 0, place = 0,
           frame = 2 + 32 + 12; /* the datagram's length, its header, and a symbol of 12 bytes */
    if (alcrs_encode(text, 48, 7, 1, 12, 4, 6, 1, false, &fault, session, sizeof session, &size) ||
        alcrs_certify(text, 48, 7, 0, 1, 12, 4, 6, &fault, certificate, 128, &length) ||
        alcrs_checker_open(&checker, text, 48, certificate, length, 7, 0, 1, &fault))
        return 1;
    for (const uint8_t *next = session; next < session + size; next += frame) {
        if (alcrs_checker_feed(&checker, next + 2, frame - 2, &fault)) return 1;
        if (alcrs_checker_verdict(&checker, &fault, &report, &block, 0, &place, 0))
            printf("have %zu need %zu\n", fault.have, fault.need);
        else
            printf("margin %zu\n", report.margin);
    }
    alcrs_checker_close(&checker);
}
