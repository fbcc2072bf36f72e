// Models of the list that threads make at once (rust/src/kit/cached_list.rs): `Locked` with Rust's standard library, and `Race`
// without it.
//
// Relacy runs three threads in each order that memory allows: two make a list, and one reads it, or makes it where there is
// none yet. All have to get one list, no list may be read before it is written or after it is dropped, and none may stay.
//
//   c++ -std=c++11 -O2 tests/once.cpp -o once && ./once    with Debian's relacy-dev
//
// With -DSET=rl::mo_relaxed, -DPUBLISH=rl::mo_relaxed or -DREAD=rl::mo_relaxed it has to find a fault.
#include <relacy/relacy.hpp>

#ifndef SET
#define SET rl::mo_release
#endif
#ifndef PUBLISH
#define PUBLISH rl::mo_acq_rel
#endif
#ifndef READ
#define READ rl::mo_acquire
#endif

enum { THREADS = 3 };

struct List {
    rl::var<int> maker;
};

struct Locked : rl::test_suite<Locked, THREADS> {
    rl::mutex setting;
    rl::atomic<bool> is_set;
    List value;
    int got[THREADS];

    void before() { is_set($) = false; }

    void set_or_get(int number) {
        setting.lock($);
        if (!is_set.load(rl::mo_relaxed, $)) {
            value.maker($) = number;
            is_set.store(true, SET, $);
        }
        setting.unlock($);
    }

    void thread(unsigned number) {
        if (number < 2 || !is_set.load(READ, $)) set_or_get(number);
        RL_ASSERT(is_set.load(READ, $));
        got[number] = value.maker($);
    }

    void after() { RL_ASSERT(got[0] == got[1] && got[1] == got[2]); }
};

struct Race : rl::test_suite<Race, THREADS> {
    rl::atomic<List *> set;
    rl::atomic<int> holders;
    int got[THREADS];

    void before() {
        set($) = nullptr;
        holders($) = THREADS;
    }

    List *set_or_get(int number) {
        List *own = new List();
        own->maker($) = number;
        List *first = nullptr;
        if (set.compare_exchange_strong(first, own, PUBLISH, $, READ, $)) return own;
        delete own;
        return first;
    }

    void thread(unsigned number) {
        List *kept = number == 2 ? set.load(READ, $) : nullptr;
        if (!kept) kept = set_or_get(number);
        got[number] = kept->maker($);
        RL_ASSERT(set.load(READ, $) == kept);
        // (the last one to let go of what shares it drops it)
        if (holders.fetch_sub(1, rl::mo_acq_rel, $) == 1) {
            List *last = set.load(rl::mo_relaxed, $);
            last->maker($) = -1;
            delete last;
        }
    }

    void after() { RL_ASSERT(got[0] == got[1] && got[1] == got[2]); }
};

template <typename Model>
bool is_right(const char *name) {
    rl::test_params params;
    params.search_type = rl::sched_full;
    bool found = rl::simulate<Model>(params);
    std::printf("%s, %llu orders: %s\n", name, (unsigned long long)params.stop_iteration, found ? "ok" : "a fault");
    return found;
}

int main() {
    bool locked = is_right<Locked>("locked"), race = is_right<Race>("race");
    return !locked || !race;
}
