/* The two calls for makers' lists in the fuzzer's process: JUDGE is fuzz_judge_reading or fuzz_judge_writing. */
#include "../examples/trackvesper.h"

void JUDGE(__typeof__(trackvesper_read_triples) *read, __typeof__(trackvesper_write_triples) *write,
           const uint8_t *input, size_t length);

int LLVMFuzzerTestOneInput(const uint8_t *input, size_t length)
{
    JUDGE(trackvesper_read_triples, trackvesper_write_triples, input, length);
    return 0;
}
