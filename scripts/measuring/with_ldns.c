/* Reads the message on its input by ldns again and again, so that the cost can be counted: `with_ldns read TIMES`.
 * Prints how many questions were read in all. */
#include <ldns/ldns.h>
#include <stdio.h>
#include <stdlib.h>

static uint8_t message[65536];

int main(int argc, char **argv)
{
    if (argc != 3)
        return 2;
    size_t len = fread(message, 1, sizeof message, stdin), sum = 0;
    for (long times = atol(argv[2]); times > 0; times--) {
        ldns_pkt *packet;
        if (ldns_wire2pkt(&packet, message, len) == LDNS_STATUS_OK) {
            sum += ldns_pkt_qdcount(packet);
            ldns_pkt_free(packet);
        }
    }
    printf("%zu\n", sum);
    return 0;
}
