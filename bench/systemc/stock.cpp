// The model of stock.tlm.
#include "report.h"

using namespace sc_core;
using sc_dt::sc_uint;
using report::await;
using report::say;
using report::turn;

SC_MODULE(Stock) {
    sc_fifo<sc_uint<8>> store{"store", 2};
    sc_mutex door{"door"};
    sc_signal<sc_uint<8>> sum{"sum"};
    sc_process_handle other;

    SC_CTOR(Stock) {
        SC_THREAD(one);
        SC_THREAD(two);
        other = sc_get_current_process_handle();
        SC_THREAD(clerk);
        SC_THREAD(boss);
        SC_METHOD(seen);
        sensitive << sum;
        dont_initialize();
    }

    // read and write of 6.23, with each turn told.
    void put(sc_uint<8> n) {
        while (!store.nb_write(n))
            await(store.data_read_event());
    }

    sc_uint<8> take() {
        sc_uint<8> x;
        while (!store.nb_read(x))
            await(store.data_written_event());
        return x;
    }

    void one() {
        turn();
        sc_uint<8> n = 1;
        while (n <= 3) {
            door.lock();
            await(sc_time(2, SC_NS));
            put(n);
            say("stored", n);
            door.unlock();
            await(sc_time(1, SC_NS));
            n = n + 1;
        }
        say("home");
    }

    void two() {
        turn();
        sc_uint<8> n = 10;
        say("begins");
        while (true) {
            await(sc_time(3, SC_NS));
            put(n);
            say("stored", n);
            n = n + 10;
        }
    }

    void clerk() {
        turn();
        sc_uint<8> total = 0;
        while (true) {
            sc_uint<8> x = take();
            await(sc_time(2, SC_NS));
            total = total + x;
            sum.write(total);
        }
    }

    void boss() {
        turn();
        await(sc_time(7, SC_NS));
        other.suspend();
        say("suspends");
        await(sc_time(5, SC_NS));
        other.resume();
        say("resumes");
        await(sc_time(5, SC_NS));
        report::reset(other);
        say("resets");
        await(sc_time(5, SC_NS));
        other.kill();
        say("kills", other.terminated());
    }

    void seen() {
        turn();
        say("sum", sum.read());
    }
};

int sc_main(int, char*[]) {
    Stock m("m");
    report::processes = {"m.one", "m.two", "m.clerk", "m.boss", "m.seen"};
    sc_start(60, SC_NS);
    report::last(m.sum);
    report::end();
    return 0;
}
