// A counter on the rising edges of a clock: as a `method`, or as a `thread` that waits for its list.
#include "count.h"

using namespace sc_core;
using sc_dt::sc_uint;

SC_MODULE(Counter) {
    sc_clock clk{"clk", 10, SC_NS, 0.5, 0, SC_NS, true};
    sc_signal<sc_uint<32>> q{"q"};

    SC_CTOR(Counter) {
        if (count::form == "method") {
            SC_METHOD(tick);
            sensitive << clk.posedge_event();
            dont_initialize();
        } else {
            SC_THREAD(ticks);
            sensitive << clk.posedge_event();
        }
    }

    void tick() { q.write(q.read() + 1); }

    void ticks() {
        while (true) {
            wait();
            tick();
        }
    }
};

int sc_main(int, char* words[]) {
    count::begin(words);
    Counter m("m");
    sc_start(10.0 * count::wanted - 1, SC_NS);
    std::cerr << "done " << m.q.read() << std::endl;
    return 0;
}
