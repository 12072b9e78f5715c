/* Sends a text as six datagrams, and feeds a receiver with them from the third on until the text is
 * there. */
#include <alcrs.h>
#include <stdio.h>

int main(void) {
    const uint8_t text[48] = "Any four of these six datagrams give this text.";
    uint8_t session[1024] = {0}, received[48] = {0};
    struct alcrs_fault fault = {0};
    struct alcrs_receiver receiver = {0};
    size_t size = 0, length = 0,
           frame = 2 + 32 + 12; /* the datagram's length, its header, and a symbol of 12 bytes */
    if (alcrs_encode(text, 48, 7, 1, 12, 4, 6, 1, false, &fault, session, sizeof session, &size))
        return 1;
    if (alcrs_receiver_open(&receiver, 7, 0, 1)) return 1;
    const uint8_t *next = session + 2 * frame;
    while (next < session + size && alcrs_receiver_feed(&receiver, next + 2, frame - 2, &fault))
        next += frame;
    enum alcrs_status status = alcrs_receiver_object(&receiver, &fault, received, 48, &length);
    alcrs_receiver_close(&receiver);
    return status || puts((const char *)received) == EOF;
}
