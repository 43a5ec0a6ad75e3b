// CPU times of the proved `records` beside plain C loops and std::sort, in one run. The best of several rounds each.
#include <algorithm>
#include <cstdint>
#include <cstdio>
#include <cstdlib>
#include <cstring>
#include <ctime>
#include <vector>

extern "C" {
uint64_t bench_pack(const uint64_t *records, size_t count, uint8_t *sheet, size_t room);
uint64_t bench_unpack(const uint8_t *sheet, size_t size, uint64_t *records, size_t room);
uint64_t bench_repeats(uint64_t *work, size_t room, size_t count);
}

typedef std::vector<uint64_t> Numbers;
static const uint64_t one = 1;

static bool legal(uint64_t r) { return r >> 53 ? !(r >> 54) : (r & ((one << 48) - 1)) < 1048576; }
static bool legal_five(uint64_t r) { return r >> 39 || (r & ((one << 34) - 1)) < 1048576; }

static uint64_t five(const uint8_t *p) {
  return (uint64_t)p[0] << 32 | (uint64_t)p[1] << 24 | (uint64_t)p[2] << 16 | (uint64_t)p[3] << 8 | p[4];
}

static uint64_t seven(const uint8_t *p) { return (uint64_t)p[0] << 48 | (uint64_t)p[1] << 40 | five(p + 2); }

static uint64_t widen(uint64_t r) {
  uint64_t front = (r >> 34) << 48;
  return r >> 39 ? front | (r >> 23 & 2047) << 32 | (r >> 12 & 2047) << 16 | (r & 4095) : front | (r & ((one << 34) - 1));
}

static size_t plain_pack(const uint64_t *r, size_t n, uint8_t *s, size_t room) {
  if (n == 0 || n > 1048576) return 0;
  for (size_t i = 0; i < n; i++)
    if (!legal(r[i])) return 0;
  if (room < 4 + 7 * n) return 0;
  s[0] = 7, s[1] = n >> 16, s[2] = n >> 8, s[3] = n;
  uint8_t *p = s + 4;
  for (size_t i = 0; i < n; i++, p += 7) {
    uint64_t w = r[i] << 2;
    p[0] = w >> 48, p[1] = w >> 40, p[2] = w >> 32, p[3] = w >> 24, p[4] = w >> 16, p[5] = w >> 8, p[6] = w;
  }
  return 4 + 7 * n;
}

static size_t plain_unpack(const uint8_t *s, size_t size, uint64_t *r, size_t room) {
  if (size < 4 || (s[0] != 5 && s[0] != 7)) return 0;
  size_t n = s[1] << 16 | s[2] << 8 | s[3];
  if (n == 0 || n > 1048576 || size != 4 + s[0] * n) return 0;
  if (s[0] == 5) {
    for (size_t i = 0; i < n; i++)
      if (!legal_five(five(s + 4 + 5 * i))) return 0;
    if (room < n) return 0;
    for (size_t i = 0; i < n; i++) r[i] = widen(five(s + 4 + 5 * i));
    return n;
  }
  for (size_t i = 0; i < n; i++) {
    uint64_t w = seven(s + 4 + 7 * i);
    if (w & 3 || !legal(w >> 2)) return 0;
  }
  if (room < n) return 0;
  for (size_t i = 0; i < n; i++) r[i] = seven(s + 4 + 7 * i) >> 2;
  return n;
}

static uint64_t sort_repeats(uint64_t *w, size_t n) {
  std::sort(w, w + n);
  for (size_t i = 1; i < n; i++)
    if (w[i] == w[i - 1]) return 14;
  return 0;
}

static double now() {
  timespec t;
  clock_gettime(CLOCK_PROCESS_CPUTIME_ID, &t);
  return t.tv_sec * 1e3 + t.tv_nsec * 1e-6;
}

template <class Prepare, class Run> static double best(Prepare prepare, Run run) {
  double least = 1e9;
  for (int k = 0; k < 7; k++) {
    prepare();
    double from = now();
    run();
    least = std::min(least, now() - from);
  }
  return least;
}

static void row(const char *what, double ours, double theirs) {
  printf("%-34s %9.3f %9.3f %7.2f\n", what, ours, theirs, ours / theirs);
}

static uint64_t seed = 88172645463325252ull;
static uint64_t next() { return seed ^= seed << 13, seed ^= seed >> 7, seed ^= seed << 17; }

static void sheets(size_t n) {
  Numbers records(n), back(n), again(n);
  std::vector<uint8_t> ours(4 + 7 * n), theirs(4 + 7 * n), old(4 + 5 * n);
  old[0] = 5, old[1] = n >> 16, old[2] = n >> 8, old[3] = n;
  for (size_t i = 0; i < n; i++) {
    uint64_t r = next() & 1 ? one << 39 | (next() & ((one << 39) - 1)) : (next() & 31) << 34 | (next() & 1048575);
    for (int b = 0; b < 5; b++) old[4 + 5 * i + b] = r >> (32 - 8 * b);
    records[i] = widen(r);
  }
  size_t wrote = 0, read = 0;
  double a = best([] {}, [&] { wrote = bench_pack(records.data(), n, ours.data(), ours.size()); });
  double b = best([] {}, [&] { plain_pack(records.data(), n, theirs.data(), theirs.size()); });
  double c = best([] {}, [&] { read = bench_unpack(ours.data(), ours.size(), back.data(), n); });
  double d = best([] {}, [&] { plain_unpack(theirs.data(), theirs.size(), again.data(), n); });
  if (wrote != ours.size() || ours != theirs || read != n || back != records || again != records) printf("WRONG\n"), exit(1);
  std::fill(back.begin(), back.end(), 0), std::fill(again.begin(), again.end(), 0);
  double e = best([] {}, [&] { read = bench_unpack(old.data(), old.size(), back.data(), n); });
  double f = best([] {}, [&] { plain_unpack(old.data(), old.size(), again.data(), n); });
  if (read != n || back != records || again != records) printf("WRONG\n"), exit(1);
  char name[64];
  snprintf(name, sizeof name, "pack %zu", n), row(name, a, b);
  snprintf(name, sizeof name, "unpack %zu", n), row(name, c, d);
  snprintf(name, sizeof name, "unpack %zu, 5 bytes each", n), row(name, e, f);
}

static void repeats(const char *what, const Numbers &keys, uint64_t wanted) {
  Numbers work(keys.size());
  uint64_t ours = 0, theirs = 0;
  auto fill = [&] { work = keys; };
  double b = best(fill, [&] { theirs = sort_repeats(work.data(), work.size()); });
  double a = best(fill, [&] { ours = bench_repeats(work.data(), work.size(), work.size()); });
  bool cleared = std::count(work.begin(), work.end(), 0) == (long)work.size();
  if (ours != wanted || theirs != wanted || !cleared) printf("WRONG %s\n", what), exit(1);
  row(what, a, b);
}

template <class Key> static Numbers keys(size_t n, Key key) {
  Numbers k(n);
  for (size_t i = 0; i < n; i++) k[i] = key(i, n);
  return k;
}

int main() {
  printf("%-34s %9s %9s %7s\n", "CPU ms, the best of 7", "ours", "theirs", "ratio");
  sheets(91282);
  sheets(1048576);
  for (size_t n : {(size_t)91282, (size_t)1048576}) {
    printf("repeats in %zu, beside std::sort and a scan\n", n);
    Numbers random = keys(n, [](size_t i, size_t) { return (next() & 0xfffff) << 20 | (i * 2654435761u & 0xfffff); });
    repeats("random", random, 0);
    repeats("ascending", keys(n, [](size_t i, size_t) { return (uint64_t)i; }), 0);
    repeats("descending", keys(n, [](size_t i, size_t n) { return (uint64_t)(n - i); }), 0);
    repeats("ascending, the last two exchanged",
            keys(n, [](size_t i, size_t n) { return (uint64_t)(i + 2 == n ? n - 1 : i + 1 == n ? n - 2 : i); }), 0);
    repeats("descending, the last two exchanged",
            keys(n, [](size_t i, size_t n) { return (uint64_t)(i + 2 == n ? 0 : i + 1 == n ? 1 : n - 1 - i); }), 0);
    repeats("two ascending runs, interleaved",
            keys(n, [](size_t i, size_t n) { return (uint64_t)(i < n / 2 ? 2 * i + 1 : 2 * (i - n / 2)); }), 0);
    repeats("steps of 7919", keys(n, [](size_t i, size_t n) { return (uint64_t)(17 * one << 48) + i * 7919 % n; }), 0);
    repeats("powers of two far apart", keys(n, [](size_t i, size_t) { return (uint64_t)(one << (i % 54)) + i / 54 * (i % 2); }), 14);
    repeats("half near 0, half near 2^54", keys(n, [](size_t i, size_t n) { return (i & 1) ? (one << 54) - 1 - i : i * 7919 % n * 2; }), 0);
    repeats("one cortex, one volume", keys(n, [](size_t i, size_t n) {
      uint64_t v = i * 7919 % n;
      return i < n / 2 ? (17 * one << 48) + i : (one << 53) + (v % 101 << 32 | v / 101 % 107 << 16 | v / 101 / 107);
    }), 0);
    repeats("near 0, and one at each power of 2", keys(n, [](size_t i, size_t n) { return i < 43 ? one << (21 + i) : i * 7919 % n; }), 0);
    Numbers last = random;
    last[n - 1] = last[0];
    repeats("random, the last as the first", last, 14);
    repeats("all the same", Numbers(n, 7), 14);
  }
}
