#include <stddef.h>
#include <stdint.h>

void c_keccak_p(uint64_t s[25]);
void c_sponge(size_t rate, uint8_t suffix, const uint8_t *in, size_t in_len, uint8_t *out, size_t out_len);
