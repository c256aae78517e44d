/* Parameter blocks as the gateway makes them: the index in the first byte, then a pattern of seed and index; and what a door answers for each. The
 * door has the same in live/door/src/blocks.rs. */
enum { BLOCK_LENGTHS = 5, BLOCK_LONGEST = 32768, ANSWER_LENGTH = 14 };

static const unsigned block_lengths[BLOCK_LENGTHS] = {1, 4096, 4097, 20000, BLOCK_LONGEST};

static size_t make_block(unsigned char *bytes, unsigned index) {
    size_t length = block_lengths[index % BLOCK_LENGTHS];
    unsigned state = pattern_start('B', index);
    bytes[0] = (unsigned char)index;
    for (size_t i = 1; i < length; i++) {
        state = state * 1664525u + 1013904223u;
        bytes[i] = (unsigned char)(state >> 24);
    }
    return length;
}

static unsigned number_at(const unsigned char *bytes) {
    return (unsigned)bytes[0] << 24 | (unsigned)bytes[1] << 16 | (unsigned)bytes[2] << 8 | bytes[3];
}

/* H, which block it was for the door, its channel, its length and its hash. */
static int is_answer(const unsigned char *bytes, size_t length) {
    return length == ANSWER_LENGTH && bytes[0] == 'H';
}

static void print_answer(const unsigned char *bytes) {
    printf("%llu answered %u %u %u %u\n", stamp(), number_at(bytes + 1), (unsigned)bytes[5], number_at(bytes + 6), number_at(bytes + 10));
}
