// Many processes that wait for an event or for a second, while a thread goes through rounds of a nanosecond. The sleepers are
// spawned as `methods` or as `threads`.
#include "count.h"

using namespace sc_core;

SC_MODULE(Sleepers) {
    sc_event e, f;

    SC_CTOR(Sleepers) { SC_THREAD(rounds); }

    void method() { next_trigger(sc_time(1, SC_SEC), e); }

    void thread() { wait(sc_time(1, SC_SEC), e); }

    void rounds() {
        sc_spawn_options options;
        options.spawn_method();
        for (unsigned long i = 0; i < count::processes; ++i)
            if (count::form == "methods")
                sc_spawn(sc_bind(&Sleepers::method, this), nullptr, &options);
            else
                sc_spawn(sc_bind(&Sleepers::thread, this));
        while (true) {
            f.notify(1, SC_NS);
            wait(f);
            count::one();
        }
    }
};

int sc_main(int, char* words[]) {
    count::begin(words);
    Sleepers m("m");
    return count::run();
}
