// A thread that prints lines: as `loop` one after the other, or as `timed` one each nanosecond.
#include "count.h"

using namespace sc_core;

SC_MODULE(Printer) {
    SC_CTOR(Printer) {
        if (count::form == "loop") {
            SC_THREAD(loop);
        } else {
            SC_THREAD(timed);
        }
    }

    void line(unsigned n) { std::cout << sc_time_stamp().value() << ' ' << name() << ".t n " << n << '\n'; }

    void loop() {
        for (unsigned n = 0; n < count::wanted; ++n) {
            line(n);
            ++count::done;
        }
    }

    void timed() {
        for (unsigned n = 0; n < count::wanted; ++n) {
            line(n);
            ++count::done;
            wait(1, SC_NS);
        }
    }
};

int sc_main(int, char* words[]) {
    count::begin(words);
    Printer m("m");
    return count::run();
}
