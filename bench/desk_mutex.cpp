// What crates/desk_bench does, in plain C++: a counter and its journal under one mutex. Same words, same output.
#include <chrono>
#include <cstdint>
#include <cstdio>
#include <cstdlib>
#include <cstring>
#include <mutex>
#include <thread>
#include <vector>

struct Counter {
    uint64_t total = 0;

    uint64_t step(uint64_t amount) {
        uint64_t before = total;
        total += amount;
        return before;
    }
};

struct Entry {
    uint32_t caller;
    uint64_t moment;
    uint64_t command;
};

struct Told {
    uint64_t at;
    uint64_t reply;
};

class Journal {
public:
    Told commit(uint32_t caller, uint64_t moment, uint64_t command) {
        std::lock_guard<std::mutex> turn(mutex);
        Told told{entries.size(), object.step(command)};
        entries.push_back({caller, moment, command});
        return told;
    }

    uint64_t total() { return object.total; }

private:
    std::mutex mutex;
    Counter object;
    std::vector<Entry> entries;
};

static uint64_t micros_since(std::chrono::steady_clock::time_point start) {
    return std::chrono::duration_cast<std::chrono::microseconds>(std::chrono::steady_clock::now() - start).count();
}

static uint64_t commit_by_all(uint32_t threads, uint64_t commits) {
    Journal journal;
    std::vector<std::thread> running;
    for (uint32_t caller = 1; caller <= threads; caller++)
        running.emplace_back([&journal, caller, commits] {
            for (uint64_t moment = 0; moment < commits; moment++) {
                volatile uint64_t reply = journal.commit(caller, moment, 1).reply;
                (void)reply;
            }
        });
    for (auto &thread : running) thread.join();
    return journal.total();
}

static uint64_t compute(uint64_t seconds) {
    auto start = std::chrono::steady_clock::now();
    uint64_t number = 1;
    while (micros_since(start) < seconds * 1000000)
        for (int i = 0; i < 1000000; i++) number = number * 6364136223846793005u + 1;
    return number;
}

int main(int count, char **words) {
    if (count == 1) return 0;
    if (count != 3) return 2;
    auto start = std::chrono::steady_clock::now();
    if (strcmp(words[1], "idle") == 0) {
        uint64_t number = 0;
        Journal journal;
        std::thread busy([&] { journal.commit(1, 0, 1); number = compute(strtoull(words[2], nullptr, 10)); });
        journal.commit(2, 0, 1);
        busy.join();
        fprintf(stderr, "one thread computed %llu, one waited for its end: %llu us\n", (unsigned long long)number,
                (unsigned long long)micros_since(start));
        return 0;
    }
    uint64_t threads = strtoull(words[1], nullptr, 10), commits = strtoull(words[2], nullptr, 10);
    uint64_t total = commit_by_all(threads, commits);
    uint64_t micros = micros_since(start);
    if (micros == 0) micros = 1;
    if (total != threads * commits) return 1;
    fprintf(stderr, "%llu threads, %llu commits each: %llu us, %llu commits/s\n", (unsigned long long)threads,
            (unsigned long long)commits, (unsigned long long)micros, (unsigned long long)(total * 1000000 / micros));
    return 0;
}
