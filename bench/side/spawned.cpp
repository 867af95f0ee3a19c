// Threads that end at once: another thread spawns fifty of them each nanosecond.
#include "count.h"

using namespace sc_core;

SC_MODULE(Spawned) {
    SC_CTOR(Spawned) { SC_THREAD(rounds); }

    void work() { count::one(); }

    void rounds() {
        while (true) {
            for (int i = 0; i < 50; ++i)
                sc_spawn(sc_bind(&Spawned::work, this));
            wait(1, SC_NS);
        }
    }
};

int sc_main(int, char* words[]) {
    count::begin(words);
    Spawned m("m");
    return count::run();
}
