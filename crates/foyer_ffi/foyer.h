/* The functions of libfoyer_ffi.a. docs/C.md says how to link it. */
#ifndef FOYER_H
#define FOYER_H

#include <stddef.h>
#include <stdint.h>

#ifdef __cplusplus
extern "C" {
#endif

/* XXH64 and XXH32 of len bytes, with start value 0. The pointer must not be null, not even for no bytes. */
uint64_t foyer_ffi_xxh64(const uint8_t *bytes, size_t len);
uint32_t foyer_ffi_xxh32(const uint8_t *bytes, size_t len);

/* Lays out records of this value under the keys 0, 1 and so on, in blocks of 16 MiB with indices of 4 KiB, and gives the
   bytes that they take, padding included. Fewer than all are laid out where a block has no room for one, memory is
   refused, or the bytes pass UINT64_MAX. */
uint64_t foyer_ffi_place(const uint8_t *value, size_t len, uint64_t records);

#ifdef __cplusplus
}
#endif

#endif
