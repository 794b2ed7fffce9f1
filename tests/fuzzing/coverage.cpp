// The same checks under libFuzzer: an input is a sheet; its lists and lengths, and now and then a run or parts that are written, are drawn from a number made of its bytes.
#include "check.hpp"

#include <cstdio>
#include <cstdlib>

extern "C" int LLVMFuzzerTestOneInput(const uint8_t *data, size_t size) {
    static Examiner &examiner = *new Examiner;
    if (size > longest_input) return -1;
    uint64_t number = 0xcbf29ce484222325;
    for (size_t k = 0; k < size; k++) number = (number ^ data[k]) * 0x100000001b3;
    Random random(number);
    try {
        examiner.sheet(Bytes(data, data + size), random);
        if (random.chance(5)) examiner.run(random);
        if (random.chance(10)) examiner.write(random);
    } catch (Failure &failure) {
        std::fprintf(stderr, "FAILED: %s\n", failure.what.c_str());
        std::abort();
    }
    return 0;
}
