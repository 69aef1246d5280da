/* pieces PATH NUMBER NODE FILES BLOCKS
 * Writes the data file of a store with this number: so many files of so many blocks, from this node on, in pieces as WRITEs of 128 KiB leave
 * them. Prints a row of the table `pieces` for each. KINDS pieces take turns, so that few digests are computed. The file isn't left in the
 * kernel's memory. */
#define _GNU_SOURCE
#include <fcntl.h>
#include <inttypes.h>
#include <stdint.h>
#include <stdio.h>
#include <stdlib.h>
#include <string.h>
#include <unistd.h>

enum { BLOCK = 4096, MOST = 32, WORDS = BLOCK / 8, KINDS = 61, VERSION = 3, DROPPED = 64 << 20 };

static uint64_t bytes[KINDS][MOST * WORDS];

static uint64_t turned(uint64_t word, int bits) {
  return word << bits | word >> (64 - bits);
}

static void stir(uint64_t v[4]) {
  v[0] += v[1], v[1] = turned(v[1], 13) ^ v[0], v[0] = turned(v[0], 32);
  v[2] += v[3], v[3] = turned(v[3], 16) ^ v[2];
  v[0] += v[3], v[3] = turned(v[3], 21) ^ v[0];
  v[2] += v[1], v[1] = turned(v[1], 17) ^ v[2], v[2] = turned(v[2], 32);
}

static void take(uint64_t v[4], uint64_t word) {
  v[3] ^= word;
  stir(v);
  v[0] ^= word;
}

/* SipHash-1-3 under keys of 0, of a word of zeros and these words, but never 0. */
static uint64_t digest(const uint64_t *words, size_t count) {
  uint64_t v[] = {0x736f6d6570736575, 0x646f72616e646f6d, 0x6c7967656e657261, 0x7465646279746573};
  take(v, 0);
  for (size_t i = 0; i < count; i++) take(v, words[i]);
  take(v, (uint64_t)(count + 1) * 8 << 56);
  v[2] ^= 0xff;
  for (int i = 0; i < 3; i++) stir(v);
  uint64_t sum = v[0] ^ v[1] ^ v[2] ^ v[3];
  return sum ? sum : 1;
}

static void fill(void) {
  uint64_t word = 88172645463325252;
  for (int kind = 0; kind < KINDS; kind++) {
    for (int i = 0; i < MOST * WORDS; i++) {
      word ^= word << 13, word ^= word >> 7, word ^= word << 17;
      bytes[kind][i] = word;
    }
  }
}

static void fail(const char *what) {
  perror(what);
  exit(1);
}

static void put(int file, const void *from, size_t size, uint64_t at) {
  if (pwrite(file, from, size, (off_t)at) != (ssize_t)size) fail("pwrite");
}

static void put_header(int file, uint64_t number) {
  static char block[BLOCK];
  const uint64_t version = VERSION;
  memcpy(block, "fusekeep content", 16);
  memcpy(block + 16, &version, sizeof version);
  memcpy(block + 24, &number, sizeof number);
  put(file, block, sizeof block, 0);
}

static void drop(int file, uint64_t from, uint64_t size) {
  if (fdatasync(file) != 0) fail("fdatasync");
  posix_fadvise(file, (off_t)from, (off_t)size, POSIX_FADV_DONTNEED);
}

int main(int count, char **words) {
  if (count != 6) return 2;
  int file = open(words[1], O_WRONLY | O_CREAT | O_TRUNC, 0600);
  if (file < 0) fail(words[1]);
  const uint64_t number = strtoull(words[2], NULL, 10), node = strtoull(words[3], NULL, 10);
  const uint64_t files = strtoull(words[4], NULL, 10), blocks = strtoull(words[5], NULL, 10);
  uint64_t sums[KINDS][MOST + 1] = {0}, place = 1, dropped = 0;
  fill();
  put_header(file, number);
  for (uint64_t i = 0; i < files; i++) {
    for (uint64_t first = 0; first < blocks; first += MOST) {
      const uint64_t some = blocks - first < MOST ? blocks - first : MOST, kind = place / MOST % KINDS;
      uint64_t *sum = &sums[kind][some];
      if (*sum == 0) *sum = digest(bytes[kind], some * WORDS);
      put(file, bytes[kind], some * BLOCK, place * BLOCK);
      printf("%" PRIu64 "|%" PRIu64 "|%" PRIu64 "|%" PRIu64 "|%" PRId64 "\n", node + i, first, some, place, (int64_t)*sum);
      place += some;
    }
    if (place * BLOCK < dropped + DROPPED) continue;
    drop(file, dropped, place * BLOCK - dropped);
    dropped = place * BLOCK;
  }
  drop(file, 0, 0);
  return fflush(stdout) == 0 && close(file) == 0 ? 0 : 1;
}
