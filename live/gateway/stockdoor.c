/* A door on stock ENet, to see beside ours what stock does in an outage: its queues have no 32 slots. It connects to 127.0.0.1, sends a reliable
 * and an unsequenced report every pace milliseconds, and leaves when all reliable ones are back. Its log, on standard output, is as the door's.
 * Words: port, reports of each kind, pace, limit in milliseconds; all four. */
#include "reports.h"
#include <enet/enet.h>
#include <stdio.h>
#include <stdlib.h>
#include <unistd.h>

enum { LENGTH = 48 };

static unsigned reports, sent = 0, back = 0;

static void send_report(ENetPeer *peer, unsigned char kind, unsigned index) {
    unsigned char bytes[LENGTH] = {kind, (unsigned char)(index >> 24), (unsigned char)(index >> 16), (unsigned char)(index >> 8), (unsigned char)index};
    enet_uint32 flag = kind == 'R' ? ENET_PACKET_FLAG_RELIABLE : ENET_PACKET_FLAG_UNSEQUENCED;
    unsigned state = pattern_start(kind, index);
    ENetPacket *packet;
    for (size_t i = 5; i < LENGTH; i++) {
        state = state * 1664525u + 1013904223u;
        bytes[i] = (unsigned char)(state >> 24);
    }
    packet = enet_packet_create(bytes, LENGTH, flag);
    if (packet != NULL && enet_peer_send(peer, kind == 'U', packet) < 0) enet_packet_destroy(packet);
}

static void receive(ENetPacket *packet) {
    if (packet->dataLength >= 5) {
        printf("%llu back %c %u %u %u\n", stamp(), packet->data[0], report_index(packet->data, packet->dataLength), (unsigned)packet->dataLength,
               bytes_wrong(packet->data, packet->dataLength));
        back += packet->data[0] == 'R';
    }
    enet_packet_destroy(packet);
}

/* What stands in the place of the door's turn; the answer is how the run ended. */
static const char *talk(ENetHost *host, ENetPeer *peer, unsigned pace, unsigned limit) {
    unsigned long long begun = stamp(), connected = 0;
    ENetEvent event;
    while (stamp() - begun < limit * 1000ull) {
        while (connected != 0 && sent < reports && stamp() - connected >= sent * 1000ull * pace) {
            send_report(peer, 'R', sent);
            send_report(peer, 'U', sent++);
        }
        if (back == reports && peer->state == ENET_PEER_STATE_CONNECTED) enet_peer_disconnect_later(peer, 13);
        if (enet_host_service(host, &event, 1) <= 0) continue;
        if (event.type == ENET_EVENT_TYPE_CONNECT) connected = stamp();
        if (event.type == ENET_EVENT_TYPE_RECEIVE) receive(event.packet);
        if (event.type == ENET_EVENT_TYPE_DISCONNECT) return back == reports ? "left" : "given-up";
    }
    return "late";
}

int main(int count, char **words) {
    ENetAddress address = {0};
    unsigned long long begun = stamp();
    ENetHost *host;
    ENetPeer *peer;
    if (count != 5 || enet_initialize() != 0 || enet_address_set_host_ip(&address, "127.0.0.1") != 0) return 2;
    address.port = (enet_uint16)strtoul(words[1], NULL, 10);
    reports = (unsigned)strtoul(words[2], NULL, 10);
    alarm((unsigned)strtoul(words[4], NULL, 10) / 1000 + 5);
    host = enet_host_create(NULL, 1, 2, 0, 0);
    peer = host == NULL ? NULL : enet_host_connect(host, &address, 2, 0);
    if (peer == NULL) return 2;
    printf("end %s\n", talk(host, peer, (unsigned)strtoul(words[3], NULL, 10), (unsigned)strtoul(words[4], NULL, 10)));
    printf("sent-reliable %u\nsent-unsequenced %u\nmilliseconds %llu\n", sent, sent, (stamp() - begun) / 1000);
    enet_host_destroy(host);
    enet_deinitialize();
    return 0;
}
