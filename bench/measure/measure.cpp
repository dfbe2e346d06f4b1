#include "measure.hpp"

#include <pthread.h>
#include <sys/mman.h>

#include <algorithm>
#include <chrono>
#include <cstdint>
#include <cstdio>
#include <cstdlib>
#include <cstring>

void fail(const char* what) {
  fprintf(stderr, "bench: %s\n", what);
  exit(1);
}

static double now() {
  return std::chrono::duration<double>(std::chrono::steady_clock::now().time_since_epoch()).count();
}

static std::vector<Time> timed(const Race& how, const std::vector<Way>& ways) {
  const int rounds = rounds_left(how.rounds), warm_up = rounds_left(how.warm_up);
  std::vector<std::vector<double>> times(ways.size());
  for (int round = 0; round < warm_up + rounds; round++)
    for (size_t i = 0; i < ways.size(); i++) {
      if (ways[i].prepare) ways[i].prepare();
      double start = now();
      ways[i].run();
      double time = now() - start;
      if (round >= warm_up) times[i].push_back(time / how.calls);
    }
  std::vector<Time> all;
  for (auto& t : times) {
    std::sort(t.begin(), t.end());
    all.push_back({t[0], t[t.size() / 2]});
  }
  return all;
}

// Every way, and how many times as long as the first it took.
static void print_details(const Race& how, const std::vector<Way>& ways, const std::vector<Time>& times) {
  printf("  %-58s%10s%10s%9s%9s\n", (how.title + ", n = " + std::to_string(how.n)).c_str(), "best us", "median",
         "ratio", "median");
  for (size_t i = 0; i < ways.size(); i++)
    printf("    %-56s%10.3f%10.3f%9.2f%9.2f\n", (NAMES[ways[i].who] + (": " + ways[i].what)).c_str(),
           times[i].best * 1e6, times[i].median * 1e6, times[i].best / times[0].best,
           times[i].median / times[0].median);
}

Rows race(const Race& how, const std::vector<Way>& ways) {
  const std::vector<Time> times = timed(how, ways);
  if (options.details) print_details(how, ways, times);
  Rows rows;
  for (size_t i = 0; i < ways.size(); i++) {
    if (ways[i].who != LIBRARY || ways[i].only_details) continue;
    Row row{ways[i].what, how.n, how.colours, {}};
    row.by[LIBRARY] = times[i];
    for (size_t j = 0; j < ways.size(); j++)
      if (!row.by[ways[j].who]) row.by[ways[j].who] = times[j];
    rows.push_back(row);
  }
  return rows;
}

static size_t touched(std::function<void()> call) {
  const size_t size = 1 << 20;
  void* stack = mmap(nullptr, size, PROT_READ | PROT_WRITE, MAP_PRIVATE | MAP_ANONYMOUS, -1, 0);
  must(stack != MAP_FAILED, "no memory");
  memset(stack, 0xA5, size);
  pthread_attr_t attributes;
  pthread_attr_init(&attributes);
  pthread_attr_setstack(&attributes, stack, size);
  auto start = [](void* f) -> void* {
    (*static_cast<std::function<void()>*>(f))();
    return nullptr;
  };
  pthread_t thread;
  must(pthread_create(&thread, &attributes, start, &call) == 0, "no thread");
  pthread_join(thread, nullptr);
  auto bytes = static_cast<const uint8_t*>(stack);
  size_t untouched = 0;
  while (untouched < size && bytes[untouched] == 0xA5) untouched++;
  munmap(stack, size);
  return size - untouched;
}

size_t stack_of(std::function<void()> call) {
  static const size_t nothing = touched([] {});
  return touched(call) - nothing;
}
