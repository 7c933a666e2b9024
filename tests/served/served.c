/* The product behind a pair of pipes, for a runner that cannot link it because its own machine is no x86-64: reads calls from standard
 * input until it ends, makes each and answers on standard output. Numbers are 8 bytes, the lowest first.
 *   a call     the lengths of two buffers; where in the first the stream begins and its length; where in the second the room begins and
 *              its length; the bytes of both buffers. A buffer of length 0 is lent as a null pointer.
 *   an answer  the number that the product returned; the bytes of both buffers as it left them.
 * Nothing is compared here: the runner gets every byte back that the product could have changed. */
#include <stdint.h>
#include <stdio.h>
#include <stdlib.h>

int64_t checker_answer(const uint8_t *stream, size_t stream_len, uint8_t *room, size_t room_len);

/* Ends where no whole call was sent or no answer is taken: the runner has ended. */
static void need(int holds) {
    if (!holds) exit(1);
}

/* A buffer of so many bytes. malloc gives addresses that are multiples of 16, as the runner's own allocator does, so that where stream
 * and room begin tells their addresses' rest. */
static uint8_t *buffer_of(uint64_t length) {
    if (length == 0) return NULL;
    uint8_t *buffer = malloc(length);
    need(buffer != NULL && (uintptr_t)buffer % 16 == 0);
    return buffer;
}

static void take(void *room, uint64_t length) {
    need(length == 0 || fread(room, 1, length, stdin) == length);
}

static void give(const void *bytes, uint64_t length) {
    need(length == 0 || fwrite(bytes, 1, length, stdout) == length);
}

/* One call and its answer; the six numbers are those of a call above. */
static void serve(const uint64_t numbers[6]) {
    uint8_t *lent_stream = buffer_of(numbers[0]), *lent_room = buffer_of(numbers[1]);
    take(lent_stream, numbers[0]);
    take(lent_room, numbers[1]);
    const uint8_t *stream = lent_stream == NULL ? NULL : lent_stream + numbers[2];
    uint8_t *room = lent_room == NULL ? NULL : lent_room + numbers[4];
    const int64_t number = checker_answer(stream, numbers[3], room, numbers[5]);
    give(&number, sizeof number);
    give(lent_stream, numbers[0]);
    give(lent_room, numbers[1]);
    need(fflush(stdout) == 0);
    free(lent_stream);
    free(lent_room);
}

int main(void) {
    uint64_t numbers[6];
    while (fread(numbers, sizeof numbers, 1, stdin) == 1) serve(numbers);
    return 0;
}
