/* memcpy and memset for the emulator, which knows no AVX: by words of 16 bytes, then by bytes. */
#include <emmintrin.h>
#include <stddef.h>

void *memcpy(void *restrict to, const void *restrict from, size_t n) {
    char *t = to;
    const char *f = from;
    size_t i = 0;
    for (; i + 16 <= n; i += 16) _mm_storeu_si128((__m128i *)(t + i), _mm_loadu_si128((const __m128i *)(f + i)));
    for (; i < n; i++) t[i] = f[i];
    return to;
}

void *memset(void *to, int byte, size_t n) {
    char *t = to;
    size_t i = 0;
    for (; i + 16 <= n; i += 16) _mm_storeu_si128((__m128i *)(t + i), _mm_set1_epi8(byte));
    for (; i < n; i++) t[i] = byte;
    return to;
}
