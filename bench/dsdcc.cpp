// DSDcc's decoders behind C names. A bit is an octet.
#include <dsdcc/fec.h>
#include <cstddef>

static DSDcc::Hamming_15_11 hamming;
static DSDcc::Golay_20_8 golay;

// Words of 15 bits, put right in place, and their 11 data bits each. One call for each: a call for several words puts right the bit
// that it finds in a later word at that place of the first.
extern "C" bool dsdcc_hamming(unsigned char *bits, unsigned char *data, size_t words) {
    bool good = true;
    for (size_t i = 0; i < words; i++) good &= hamming.decode(bits + 15 * i, data + 11 * i, 1);
    return good;
}

// 20 bits, put right in place.
extern "C" bool dsdcc_golay(unsigned char *bits) {
    return golay.decode(bits);
}
