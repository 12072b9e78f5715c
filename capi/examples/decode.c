/* Sends a text as six datagrams, loses two of them, and decodes the rest. */
#include <alcrs.h>
#include <stdio.h>

int main(void) {
    const uint8_t text[48] = "Any four of these six datagrams give this text.";
    uint8_t session[1024] = {0}, received[48] = {0};
    struct alcrs_fault fault = {0};
    size_t size = 0, length = 0,
           frame = 2 + 32 + 12; /* the datagram's length, its header, and a symbol of 12 bytes */
    if (alcrs_encode(text, 48, 7, 1, 12, 4, 6, 1, false, &fault, session, sizeof session, &size))
        return 1;
    if (alcrs_decode(session + 2 * frame, size - 2 * frame, 7, 0, 1, &fault, received, 48, &length))
        return 1;
    return puts((const char *)received) == EOF;
}
