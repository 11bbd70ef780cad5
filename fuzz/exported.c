/* The exported call in the fuzzer's process. */
#include "../examples/trackvesper.h"

typedef uint64_t exported_call(const uint8_t *, size_t, uint8_t *, size_t);
void fuzz_judge_exported(exported_call *call, const uint8_t *input, size_t length);

int LLVMFuzzerTestOneInput(const uint8_t *input, size_t length)
{
    fuzz_judge_exported(trackvesper_close_book, input, length);
    return 0;
}
