// Decodes and encodes packets by FreeRADIUS's own library, as `drive packets` does by ours.
//
//     peer load DICTIONARIES                            reads the dictionaries
//     peer decode DICTIONARIES SECRET PACKET COUNT      and decodes a packet so many times
//     peer both DICTIONARIES SECRET PACKET COUNT        and encodes and signs what it holds
//
// DICTIONARIES is a folder, PACKET a file of octets.

#include <freeradius/libradius.h>
#include <stdio.h>
#include <stdlib.h>
#include <string.h>

enum { MAX_OCTETS = 4096 };

static RADIUS_PACKET *packet_of(uint8_t const *octets, size_t length) {
    RADIUS_PACKET *packet = rad_alloc(NULL, false);
    packet->data = talloc_memdup(packet, octets, length);
    packet->data_len = length;
    packet->code = octets[0];
    packet->id = octets[1];
    memcpy(packet->vector, octets + 4, 16);
    packet->src_ipaddr.af = AF_INET;
    packet->dst_ipaddr.af = AF_INET;
    return packet;
}

// Whether the packet was right and decoded and, if that is wanted, encoded.
static bool work_on(RADIUS_PACKET *packet, char const *secret, bool encodes) {
    decode_fail_t reason;
    if (!rad_packet_ok(packet, 0, &reason) || rad_verify(packet, NULL, secret) < 0 || rad_decode(packet, NULL, secret) < 0)
        return false;
    if (!encodes)
        return true;
    talloc_free(packet->data);
    packet->data = NULL;
    packet->data_len = 0;
    return rad_encode(packet, NULL, secret) >= 0 && rad_sign(packet, NULL, secret) >= 0;
}

int main(int count, char **words) {
    if (count != 3 && count != 6)
        return 2;
    if (dict_init(words[2], "dictionary") < 0)
        return 1;
    if (count == 3)
        return 0;
    uint8_t octets[MAX_OCTETS];
    FILE *file = fopen(words[4], "rb");
    if (!file)
        return 1;
    size_t length = fread(octets, 1, MAX_OCTETS, file);
    for (long left = atol(words[5]); left > 0; left--) {
        RADIUS_PACKET *packet = packet_of(octets, length);
        if (!work_on(packet, words[3], !strcmp(words[1], "both")))
            return 1;
        rad_free(&packet);
    }
    return 0;
}
