/* Tifolanzo: the outward calls for C.
 *
 * A call returns 0 where it is carried out and else the number of its refusal; a refused call changes no buffer and no number.
 *   1  a lent buffer hasn't its exact length
 *   2  a coefficient of the public key is 3329 or more
 *   3  h isn't SHA3-256 of the public key part
 *   5  a mask coefficient is 3329 or more
 *   6  a share coefficient is 3329 or more
 *   7  an 840-byte stream yields fewer than 256 coefficients
 *   8  the step number isn't below the worksheet's count
 *   9  the rank isn't 2, 3 or 4: tried first, whatever the lengths are
 *  10  the use limit isn't from 1 to 1,000,000
 *  11  the count of uses has reached the limit
 * A slice passes as a pointer and a number of elements, a lent number as a pointer to one. What is written, a buffer or a number, overlaps
 * nothing else that its call is lent.
 */
#ifndef TIFOLANZO_H
#define TIFOLANZO_H

#include <stddef.h>
#include <stdint.h>

#ifdef __cplusplus
extern "C" {
#endif

/* FIPS 202, on input of any length. SHA3-256 writes 32 bytes and SHA3-512 64, and any other output length is refused (1).
 * SHAKE128 and SHAKE256 fill an output of any length, and always return 0. */
uint32_t tifo_sha3_256(const uint8_t *in, size_t in_len, uint8_t *out, size_t out_len);
uint32_t tifo_sha3_512(const uint8_t *in, size_t in_len, uint8_t *out, size_t out_len);
uint32_t tifo_shake128(const uint8_t *in, size_t in_len, uint8_t *out, size_t out_len);
uint32_t tifo_shake256(const uint8_t *in, size_t in_len, uint8_t *out, size_t out_len);

/* SHA3-512 and SHAKE256 on two shares, which join by exclusive or. Both inputs have one length, both outputs one (SHA3-512: 64), and
 * the masks are 25 words and 600 for each permutation that FIPS 202 runs: in_len / rate + 1 of them take the input in, at a rate of 72
 * and 136 bytes, and (out_len - 1) / rate, rounded down, follow for an output that isn't empty. Any other length is refused (1). */
uint32_t tifo_masked_sha3_512(const uint8_t *in0, size_t in0_len, const uint8_t *in1, size_t in1_len, const uint64_t *masks,
                              size_t masks_len, uint8_t *out0, size_t out0_len, uint8_t *out1, size_t out1_len);
uint32_t tifo_masked_shake256(const uint8_t *in0, size_t in0_len, const uint8_t *in1, size_t in1_len, const uint64_t *masks,
                              size_t masks_len, uint8_t *out0, size_t out0_len, uint8_t *out1, size_t out1_len);

/* FIPS 203's sampling: 840 bytes give 256 coefficients (1, 7). */
uint32_t tifo_sample(const uint8_t *stream, size_t stream_len, uint16_t *out, size_t out_len);

/* The calls on keys, ciphertexts and split keys take the parameter set's rank first. Lengths are counts of elements and exact for the rank, else 1.
 * There are two editions: ML-KEM of FIPS 203, and Kyber as submitted to the third round (version 3.02), whose calls have kyber in their names. Keys,
 * ciphertexts and split keys of both look alike; strips and steps are the edition's own.
 *                                        ML-KEM-512   ML-KEM-768   ML-KEM-1024
 *                                          Kyber512     Kyber768     Kyber1024
 *   rank                                           2            3             4
 *   public key, bytes                            800        1,184         1,568
 *   decapsulation key, bytes                   1,632        2,400         3,168
 *   ciphertext, bytes                            768        1,088         1,568
 *   s0, s1, mask_coeffs, coefficients            512          768         1,024
 *   pub, bytes                                   832        1,216         1,600
 *   strip, coefficients                        6,400        7,424         9,472
 *   strip, words, ML-KEM                       9,588       11,750        15,192
 *   strip, words, Kyber                        6,588        6,950         8,592
 *   steps of the worksheet, ML-KEM           155,928      187,794       242,052
 *   steps of the worksheet, Kyber            116,638      124,930       155,614
 * The ranks have names: */
#define TIFO_ML_KEM_512 2
#define TIFO_ML_KEM_768 3
#define TIFO_ML_KEM_1024 4
#define TIFO_KYBER512 2
#define TIFO_KYBER768 3
#define TIFO_KYBER1024 4

/* Key making from the seeds d and z, 32 bytes each: the public key and the decapsulation key (9, 1, 7). From one d the two editions make different keys. */
uint32_t tifo_keygen(uint32_t rank, const uint8_t *d, size_t d_len, const uint8_t *z, size_t z_len, uint8_t *ek, size_t ek_len,
                     uint8_t *dk, size_t dk_len);
uint32_t tifo_kyber_keygen(uint32_t rank, const uint8_t *d, size_t d_len, const uint8_t *z, size_t z_len, uint8_t *ek, size_t ek_len,
                           uint8_t *dk, size_t dk_len);

/* Encapsulation from the 32 bytes m: the ciphertext, and the secret of 32 bytes (9, 1, 2, 7). FIPS 203 asks of a public key
 * that each coefficient be below 3329, and of a decapsulation key not: import takes some whose public key is refused here. Kyber hashes m first. */
uint32_t tifo_encaps(uint32_t rank, const uint8_t *ek, size_t ek_len, const uint8_t *m, size_t m_len, uint8_t *ct, size_t ct_len,
                     uint8_t *k, size_t k_len);
uint32_t tifo_kyber_encaps(uint32_t rank, const uint8_t *ek, size_t ek_len, const uint8_t *m, size_t m_len, uint8_t *ct, size_t ct_len,
                           uint8_t *k, size_t k_len);

/* Import splits a decapsulation key of either edition whose h is the public key part's hash, as FIPS 203 asks. Coefficients from 3329 to 4095 are
 * read modulo 3329, as the standard reads them: the split stands for the key with its secret coefficients reduced. The first shares are the lent
 * masks, coefficients below 3329 and four words; the second shares are what is left of the key; pub is the public key and its hash, as they stand in
 * the key (9, 1, 3, 10, 5).
 *
 * A split key has a use limit and a count of its uses: so many decapsulations are carried out with it until it is refreshed. Import hands back the
 * limit in *limit_out and 0 in *count_out, both written only where it returns 0. They are the caller's to keep with the split key and to lend with
 * it. Decapsulation raises the count and refreshing sets it to 0; the caller raises nothing itself, and keeps what the call has left. */
uint32_t tifo_import(uint32_t rank, const uint8_t *dk, size_t dk_len, const uint16_t *mask_coeffs, size_t mask_coeffs_len,
                     const uint64_t *mask_words, size_t mask_words_len, uint32_t limit,
                     uint16_t *s0, size_t s0_len, uint16_t *s1, size_t s1_len, uint64_t *z0, size_t z0_len, uint64_t *z1, size_t z1_len,
                     uint8_t *pub, size_t pub_len, uint32_t *limit_out, uint32_t *count_out);

/* Refreshing gives a split key of either edition fresh shares of the same key, in place, and sets *count to 0, whatever it was (9, 1, 5, 6). The lent
 * masks, as import's are, are added to the first shares and taken from the second. pub and the limit stay. It has no worksheet. The masks are the
 * caller's to make: uniform, independent of all else, and fresh for each call. The shares and *count are written only where it returns 0. */
uint32_t tifo_refresh(uint32_t rank, const uint16_t *mask_coeffs, size_t mask_coeffs_len, const uint64_t *mask_words, size_t mask_words_len,
                      uint16_t *s0, size_t s0_len, uint16_t *s1, size_t s1_len, uint64_t *z0, size_t z0_len, uint64_t *z1, size_t z1_len,
                      uint32_t *count);

/* Masked decapsulation of a split key, as import made it for the same rank, and a ciphertext (9, 1, 11, 5, 6, 7). It is refused where *count is at or
 * above limit, of which nothing else is asked; where it returns 0 it has added 1 to *count, for a true ciphertext and a false one alike, and else
 * *count is as it was. The strip is words and coefficients below 3329. k0 and k1, four words each, are the shares of the secret: it is k0 xor k1,
 * and a word takes eight bytes, the low one first. A ciphertext that doesn't come from encapsulation isn't refused: its secret is the edition's
 * rejection secret. Keys, split keys and ciphertexts don't tell their edition: the other edition's call, with a strip of its own length, isn't
 * refused either, and gives another secret. Strips are the caller's to make, as import's masks are: uniform, independent of all else, and fresh for
 * each call. */
uint32_t tifo_decaps(uint32_t rank, const uint16_t *s0, size_t s0_len, const uint16_t *s1, size_t s1_len, const uint64_t *z0, size_t z0_len,
                     const uint64_t *z1, size_t z1_len, const uint8_t *pub, size_t pub_len, uint32_t limit, uint32_t *count,
                     const uint8_t *ct, size_t ct_len, const uint64_t *words, size_t words_len, const uint16_t *coeffs, size_t coeffs_len,
                     uint64_t *k0, size_t k0_len, uint64_t *k1, size_t k1_len);
uint32_t tifo_kyber_decaps(uint32_t rank, const uint16_t *s0, size_t s0_len, const uint16_t *s1, size_t s1_len, const uint64_t *z0, size_t z0_len,
                           const uint64_t *z1, size_t z1_len, const uint8_t *pub, size_t pub_len, uint32_t limit, uint32_t *count,
                           const uint8_t *ct, size_t ct_len, const uint64_t *words, size_t words_len, const uint16_t *coeffs, size_t coeffs_len,
                           uint64_t *k0, size_t k0_len, uint64_t *k1, size_t k1_len);

/* The same run, told a step, from 0 on as docs/worksheet.md counts: *value takes that step's value, and nothing else is handed back
 * (9, 1, 5, 6, 7, 8). value points to one word, and is written only where the call returns 0. It is no use of the split key: it takes neither limit
 * nor count. */
uint32_t tifo_trace(uint32_t rank, const uint16_t *s0, size_t s0_len, const uint16_t *s1, size_t s1_len, const uint64_t *z0, size_t z0_len,
                    const uint64_t *z1, size_t z1_len, const uint8_t *pub, size_t pub_len, const uint8_t *ct, size_t ct_len,
                    const uint64_t *words, size_t words_len, const uint16_t *coeffs, size_t coeffs_len, uint64_t step, uint64_t *value);
uint32_t tifo_kyber_trace(uint32_t rank, const uint16_t *s0, size_t s0_len, const uint16_t *s1, size_t s1_len, const uint64_t *z0, size_t z0_len,
                          const uint64_t *z1, size_t z1_len, const uint8_t *pub, size_t pub_len, const uint8_t *ct, size_t ct_len,
                          const uint64_t *words, size_t words_len, const uint16_t *coeffs, size_t coeffs_len, uint64_t step, uint64_t *value);

#ifdef __cplusplus
}
#endif

#endif
