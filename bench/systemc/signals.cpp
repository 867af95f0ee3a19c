// The model of signals.tlm.
#include "report.h"

using namespace sc_core;
using sc_dt::sc_uint;
using report::await;
using report::say;
using report::turn;

SC_MODULE(Follower) {
    sc_in<sc_uint<8>> x{"x"};
    sc_out<sc_uint<8>> y{"y"};

    SC_CTOR(Follower) {
        SC_METHOD(follow);
        sensitive << x;
    }

    void follow() {
        turn();
        y.write(x.read() + 1);
        say("x", x.read());
    }
};

SC_MODULE(Bench) {
    sc_signal<sc_uint<8>> a{"a"};
    sc_signal<sc_uint<8>> b{"b"};
    sc_event go, late;
    Follower f{"f"};

    SC_CTOR(Bench) {
        f.x(a);
        f.y(b);
        SC_THREAD(drive);
        SC_THREAD(watch);
        sensitive << b;
        SC_METHOD(count);
        sensitive << go;
        dont_initialize();
    }

    void drive() {
        turn();
        a.write(5);
        say("a", a.read());
        await(SC_ZERO_TIME);
        say("a", a.read());
        go.notify(3, SC_NS);
        go.notify(2, SC_NS);
        go.notify(9, SC_NS);
        await(sc_time(10, SC_NS), go | late);
        say("woken");
        late.notify(SC_ZERO_TIME);
        go.notify(1, SC_NS);
        await(go & late);
        say("both");
        a.write(6);
        a.write(7);
        await(sc_time(10, SC_NS));
        go.notify();
        say("driven");
    }

    void watch() {
        turn();
        while (true) {
            await();
            say("b", b.read());
        }
    }

    void count() {
        turn();
        say("go");
        next_trigger(sc_time(4, SC_NS), late);
    }
};

int sc_main(int, char*[]) {
    Bench m("m");
    report::processes = {"m.f.follow", "m.drive", "m.watch", "m.count"};
    sc_start(30, SC_NS);
    report::last(m.a);
    report::last(m.b);
    report::end();
    return 0;
}
