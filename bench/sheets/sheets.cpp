// CPU times of dz_compare beside a plain C++ program that unpacks both sheets, sorts both by std::sort and merges. The best of several.
#include "../../include/dzwonolin.h"
#include <algorithm>
#include <array>
#include <cstdio>
#include <cstdlib>
#include <ctime>
#include <vector>

typedef std::vector<uint64_t> Numbers;
typedef std::vector<uint8_t> Sheet;
typedef std::array<uint64_t, 5> Counts; // the number, then same, moved, first, second
static const uint64_t one = 1;
static const size_t most = 1048576;

static bool legal(uint64_t r) { return r >> 53 ? !(r >> 54) : (r & ((one << 48) - 1)) < most; }

static uint64_t word(const uint8_t *p) {
  return (uint64_t)p[0] << 48 | (uint64_t)p[1] << 40 | (uint64_t)p[2] << 32 | (uint64_t)p[3] << 24 | (uint64_t)p[4] << 16 |
         (uint64_t)p[5] << 8 | p[6];
}

// Sheets of 7 bytes a record are enough for it.
static uint64_t plain_unpack(const Sheet &s, Numbers &r) {
  if (s.size() < 4 || s[0] != 7) return 15;
  size_t n = s[1] << 16 | s[2] << 8 | s[3];
  if (n == 0 || n > most || s.size() != 4 + 7 * n) return 15;
  r.resize(n);
  for (size_t i = 0; i < n; i++) {
    uint64_t w = word(&s[4 + 7 * i]);
    if (w & 3 || !legal(w >> 2)) return 16;
    r[i] = w >> 2;
  }
  return 0;
}

static bool repeats(const Numbers &sorted) { return std::adjacent_find(sorted.begin(), sorted.end()) != sorted.end(); }

static Counts plain_compare(const Sheet &s, const Sheet &t) {
  static Numbers a, b;
  if (uint64_t n = plain_unpack(s, a)) return {n};
  if (uint64_t n = plain_unpack(t, b)) return {n};
  size_t same = 0, both = 0;
  for (size_t i = 0; i < a.size() && i < b.size(); i++) same += a[i] == b[i];
  std::sort(a.begin(), a.end()), std::sort(b.begin(), b.end());
  if (repeats(a) || repeats(b)) return {14};
  for (size_t i = 0, j = 0; i < a.size() && j < b.size();) {
    if (a[i] == b[j]) both++, i++, j++;
    else if (a[i] < b[j]) i++;
    else j++;
  }
  return {0, same, both - same, a.size() - both, b.size() - both};
}

static double now() {
  timespec t;
  clock_gettime(CLOCK_PROCESS_CPUTIME_ID, &t);
  return t.tv_sec * 1e3 + t.tv_nsec * 1e-6;
}

template <class Run> static double best(Run run) {
  double least = 1e9;
  for (int k = 0; k < 7; k++) {
    double from = now();
    run();
    least = std::min(least, now() - from);
  }
  return least;
}

static Sheet packed(const Numbers &r) {
  Sheet sheet(4 + 7 * r.size());
  uint64_t written;
  if (dz_pack(r.data(), r.size(), sheet.data(), sheet.size(), &written, 1)) printf("WRONG sheet\n"), exit(1);
  return sheet;
}

static void row(const char *what, const Numbers &first, const Numbers &second) {
  Sheet s = packed(first), t = packed(second);
  Numbers work(first.size() + second.size());
  Counts ours, theirs;
  double a = best([&] { ours[0] = dz_compare(s.data(), s.size(), t.data(), t.size(), work.data(), work.size(), &ours[1], 4); });
  double b = best([&] { theirs = plain_compare(s, t); });
  if (ours != theirs) printf("WRONG %s\n", what), exit(1);
  printf("%-44s %9.1f %9.1f %7.2f\n", what, a, b, a / b);
}

static uint64_t seed = 88172645463325252ull;
static uint64_t next() { return seed ^= seed << 13, seed ^= seed >> 7, seed ^= seed << 17; }

static Numbers shuffled(Numbers r) {
  for (size_t i = r.size(); i > 1; i--) std::swap(r[i - 1], r[next() % i]);
  return r;
}

static Numbers turned(Numbers r) {
  std::reverse(r.begin(), r.end());
  return r;
}

static Numbers thinned(const Numbers &r) {
  Numbers left;
  for (size_t i = 0; i < r.size(); i++)
    if (i % 50) left.push_back(r[i]);
  return left;
}

// Records that go up; and two surfaces, then voxels with i running fastest, as a volume is listed.
static Numbers ascending() {
  Numbers r(most);
  for (size_t i = 0; i < most; i++) r[i] = i < most / 2 ? (17 * one << 48) + i : (one << 53) + ((uint64_t)(i - most / 2) * 3);
  return r;
}

static Numbers listed() {
  Numbers r(most);
  for (size_t i = 0, v = 0; i < most; i++) {
    if (i < 327684) r[i] = (17 + i / 163842) << 48 | i % 163842;
    else r[i] = one << 53 | (uint64_t)(v / 50000) << 48 | (v % 91) << 32 | (v / 91 % 109) << 16 | v / 91 / 109, v++;
  }
  return r;
}

static void all(const char *kind, const Numbers &r) {
  printf("%s\n", kind);
  row("  every fiftieth location is gone", r, thinned(r));
  row("  every fiftieth location is new", thinned(r), r);
  row("  equal", r, r);
  row("  both shuffled anew", shuffled(r), shuffled(r));
  row("  turned round", r, turned(r));
}

int main() {
  printf("%-44s %9s %9s %7s\n", "CPU ms, the best of 7; 1,048,576 records", "ours", "theirs", "ratio");
  all("records that go up", ascending());
  all("two surfaces, then voxels with i fastest", listed());
}
