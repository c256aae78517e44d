/* The gateway: stock ENet (Debian's libenet) on loopback. It accepts one peer, prints what it gets, and sends it back on the same channel with
 * the same reliability. Words: seconds= (it ends by itself), seed= (of the reports' bytes), patience= (after how many
 * milliseconds it gives a peer up, in place of ENet's 5,000), leave= (it disconnects after so many reports), start= (counters, below),
 * blocks= (how many parameter blocks it sends down) every= (one every so many milliseconds, 0 all at once) ahead= (how many it sends before the
 * door has answered the first), wrong= (a run that must fail).
 */
#include "reports.h"
#include <enet/enet.h>
#include <stdio.h>
#include <stdlib.h>
#include <string.h>
#include <unistd.h>
#include "blocks.h"

enum { CHANNELS = 2, WRONG_INDEX = 5, WRONG_BLOCK = 4 };

static unsigned seconds = 60, start = 0, patience = 0, leave = 0, blocks = 0, every = 0, ahead = ~0u;
static unsigned answered = 0;
static const char *wrong = "";

static void read_words(int count, char **words) {
    for (int i = 1; i < count; i++) {
        char *value = strchr(words[i], '=');
        if (value == NULL) {
            fprintf(stderr, "gateway: %s is no name=value\n", words[i]);
            exit(2);
        }
        *value++ = 0;
        if (!strcmp(words[i], "seconds")) seconds = (unsigned)strtoul(value, NULL, 10);
        else if (!strcmp(words[i], "seed")) seed = (unsigned)strtoul(value, NULL, 10);
        else if (!strcmp(words[i], "patience")) patience = (unsigned)strtoul(value, NULL, 10);
        else if (!strcmp(words[i], "leave")) leave = (unsigned)strtoul(value, NULL, 10);
        else if (!strcmp(words[i], "start")) start = (unsigned)strtoul(value, NULL, 10);
        else if (!strcmp(words[i], "blocks")) blocks = (unsigned)strtoul(value, NULL, 10);
        else if (!strcmp(words[i], "every")) every = (unsigned)strtoul(value, NULL, 10);
        else if (!strcmp(words[i], "ahead")) ahead = (unsigned)strtoul(value, NULL, 10);
        else if (!strcmp(words[i], "wrong")) wrong = value;
        else {
            fprintf(stderr, "gateway: there is no word %s\n", words[i]);
            exit(2);
        }
    }
}

/* Counters that turn over: both ends start theirs near the end. The door sets the link's by the bench's ops, this sets stock ENet's public
 * numbers, before the first command of a report is handled. */
static int start_counters(ENetHost *host, ENetEvent *event) {
    ENetPeer *peer = &host->peers[0];
    (void)event;
    if (start == 0 || peer->channels == NULL) return 0;
    for (size_t c = 0; c < peer->channelCount; c++) {
        peer->channels[c].incomingReliableSequenceNumber = (enet_uint16)start;
        peer->channels[c].outgoingReliableSequenceNumber = (enet_uint16)start;
    }
    peer->outgoingUnsequencedGroup = (enet_uint16)start;
    peer->incomingUnsequencedGroup = (enet_uint16)(start - start % 1024);
    start = 0;
    return 0;
}

static void send_back(ENetPeer *peer, enet_uint8 channel, const ENetPacket *packet) {
    enet_uint32 flags = packet->flags & (ENET_PACKET_FLAG_RELIABLE | ENET_PACKET_FLAG_UNSEQUENCED);
    ENetPacket *back = enet_packet_create(packet->data, packet->dataLength, flags);
    if (back != NULL && enet_peer_send(peer, channel, back) < 0) enet_packet_destroy(back);
}

/* What comes back of report WRONG_INDEX in a run that must fail; in any other run all goes back as it came. */
static void answer(ENetPeer *peer, enet_uint8 channel, ENetPacket *packet) {
    static ENetPacket *later = NULL;
    int here = packet->data[0] == 'R' && report_index(packet->data, packet->dataLength) == WRONG_INDEX;
    if (here && !strcmp(wrong, "missing")) return;
    if (here && !strcmp(wrong, "swapped")) {
        later = enet_packet_create(packet->data, packet->dataLength, packet->flags);
        return;
    }
    if (here && !strcmp(wrong, "changed")) packet->data[packet->dataLength - 1] ^= 1;
    send_back(peer, channel, packet);
    if (packet->data[0] == 'U' && !strcmp(wrong, "twice") && report_index(packet->data, packet->dataLength) == WRONG_INDEX)
        send_back(peer, channel, packet);
    if (here && !strcmp(wrong, "doubled")) send_back(peer, channel, packet);
    if (later != NULL && packet->data[0] == 'R') {
        send_back(peer, channel, later);
        enet_packet_destroy(later);
        later = NULL;
    }
}

/* ENet itself cuts a block that is longer than a fragment (its MTU less 28) into commands 8; the others go as one command 6. */
static void send_block(ENetPeer *peer, unsigned index) {
    static unsigned char bytes[BLOCK_LONGEST];
    enet_uint8 channel = (enet_uint8)(index % CHANNELS);
    size_t length = make_block(bytes, index);
    ENetPacket *packet;
    if (index == WRONG_BLOCK && !strcmp(wrong, "block-changed")) bytes[length - 1] ^= 1;
    packet = enet_packet_create(bytes, length, ENET_PACKET_FLAG_RELIABLE);
    if (packet != NULL && enet_peer_send(peer, channel, packet) < 0) enet_packet_destroy(packet);
    printf("%llu block %u %u %u\n", stamp(), index, (unsigned)channel, (unsigned)length);
}

/* The block whose turn it is; in a run that must fail WRONG_BLOCK stays out, goes twice, or changes places with the next one of its channel. */
static void send_next_block(ENetPeer *peer, unsigned index) {
    int here = index == WRONG_BLOCK, next = index == WRONG_BLOCK + CHANNELS;
    if (here && !strcmp(wrong, "block-missing")) return;
    if (here && !strcmp(wrong, "block-doubled")) send_block(peer, index);
    if (!strcmp(wrong, "block-swapped") && (here || next)) index = here ? WRONG_BLOCK + CHANNELS : WRONG_BLOCK;
    send_block(peer, index);
}

static void send_due_blocks(ENetPeer *peer, unsigned long long connected) {
    static unsigned sent = 0;
    while (sent < blocks && sent - answered < ahead && stamp() - connected >= 1000ull * every * sent) send_next_block(peer, sent++);
}

static void receive(ENetEvent *event) {
    ENetPacket *packet = event->packet;
    if (is_answer(packet->data, packet->dataLength)) {
        print_answer(packet->data);
        answered++;
        enet_packet_destroy(packet);
        return;
    }
    printf("%llu got %c %u %u %u %s %u\n", stamp(), packet->dataLength > 0 && packet->data[0] == 'U' ? 'U' : 'R', report_index(packet->data, packet->dataLength),
           (unsigned)packet->dataLength, bytes_wrong(packet->data, packet->dataLength), packet->flags & ENET_PACKET_FLAG_RELIABLE ? "reliable" : "unsequenced",
           (unsigned)event->channelID);
    if (packet->dataLength >= 5) answer(event->peer, event->channelID, packet);
    enet_packet_destroy(packet);
}

static ENetHost *open_host(void) {
    ENetAddress address = {.port = ENET_PORT_ANY};
    ENetHost *host;
    if (enet_initialize() != 0 || enet_address_set_host_ip(&address, "127.0.0.1") != 0) return NULL;
    host = enet_host_create(&address, 1, CHANNELS, 0, 0);
    if (host == NULL) return NULL;
    host->intercept = start_counters;
    return host;
}

static void connected(ENetPeer *peer) {
    printf("%llu connected\n", stamp());
    if (patience != 0) enet_peer_timeout(peer, ENET_PEER_TIMEOUT_LIMIT, patience, 6 * patience);
    /* Without deceleration stock drops no unsequenced packet by itself, so that what is lost is lost on the way. The door gets it as a
     * command for which the link has no call; a bandwidth limit, another one, stock sends by itself. */
    enet_peer_throttle_configure(peer, ENET_PEER_PACKET_THROTTLE_INTERVAL, ENET_PEER_PACKET_THROTTLE_ACCELERATION, 0);
}

/* Ends when its peer leaves or is given up, or at its limit. A door that leaves names 13 as its reason; where the gateway itself leaves,
 * a second is more than an answer takes. */
static const char *serve(ENetHost *host) {
    unsigned long long end = stamp() + seconds * 1000000ull, left = 0, since = 0;
    unsigned count = 0;
    ENetEvent event;
    while (stamp() < end) {
        if (since != 0) send_due_blocks(&host->peers[0], since);
        if (enet_host_service(host, &event, blocks > 0 ? 2 : 20) <= 0) continue;
        if (event.type == ENET_EVENT_TYPE_CONNECT) {
            connected(event.peer);
            since = stamp();
        }
        if (event.type == ENET_EVENT_TYPE_RECEIVE) receive(&event);
        if (event.type == ENET_EVENT_TYPE_RECEIVE && ++count == leave) {
            left = stamp();
            enet_peer_disconnect(event.peer, 0);
        }
        if (event.type == ENET_EVENT_TYPE_DISCONNECT) return event.data == 13 || stamp() - left < 1000000u ? "left" : "given-up";
    }
    return "late";
}

int main(int count, char **words) {
    ENetVersion version = enet_linked_version();
    ENetHost *host;
    read_words(count, words);
    alarm(seconds + 5);
    setvbuf(stdout, NULL, _IOLBF, 0);
    host = open_host();
    if (host == NULL) {
        fprintf(stderr, "gateway: no ENet host on loopback\n");
        return 2;
    }
    printf("port %u\n", (unsigned)host->address.port);
    printf("enet %u.%u.%u\n", ENET_VERSION_GET_MAJOR(version), ENET_VERSION_GET_MINOR(version), ENET_VERSION_GET_PATCH(version));
    printf("end %s\n", serve(host));
    enet_host_flush(host);
    enet_host_destroy(host);
    enet_deinitialize();
    return 0;
}
