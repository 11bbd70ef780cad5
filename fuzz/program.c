/* A program in the fuzzer's process: PROGRAM is its name, and its object file has main, read and write renamed
 * to the three below. Input and output are memory; both go in pieces, for some inputs in small ones, since a
 * pipe may hand over fewer bytes than were asked for. */
#include <stdint.h>
#include <stdlib.h>
#include <string.h>
#include <sys/types.h>

int program_main(void);
int fuzz_ends_soon(const char *name, const uint8_t *input, size_t length);
void fuzz_judge_program(const char *name, const uint8_t *input, size_t length, const uint8_t *output, size_t written);

static const uint8_t *input;
static size_t left, piece;
static uint8_t *output;
static size_t written, room;

static size_t least(size_t one, size_t other)
{
    return one < other ? one : other;
}

ssize_t program_read(int from, void *to, size_t wanted)
{
    if (from != 0)
        abort();
    size_t count = least(least(wanted, piece), left);
    memcpy(to, input, count);
    input += count;
    left -= count;
    return (ssize_t)count;
}

ssize_t program_write(int to, const void *from, size_t length)
{
    if (to != 1)
        abort();
    size_t count = least(length, piece);
    if (room - written < count) {
        room = 2 * room + count;
        output = realloc(output, room);
        if (output == NULL)
            abort();
    }
    memcpy(output + written, from, count);
    written += count;
    return (ssize_t)count;
}

int LLVMFuzzerTestOneInput(const uint8_t *bytes, size_t length)
{
    static const size_t pieces[] = {SIZE_MAX, SIZE_MAX, 1000, 7, 1};
    if (!fuzz_ends_soon(PROGRAM, bytes, length))
        return 0;
    input = bytes;
    left = length;
    piece = pieces[length % 5];
    written = 0;
    program_main();
    fuzz_judge_program(PROGRAM, bytes, length, output, written);
    return 0;
}
