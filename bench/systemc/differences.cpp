// What the reference kernel does where tlmsim does otherwise, one case a run: the word behind the program's name says which.
#include <iostream>
#include <string>
#include <systemc>

using namespace sc_core;

SC_MODULE(Relock) {
    sc_mutex door{"door"};
    SC_CTOR(Relock) { SC_THREAD(work); }
    void work() {
        door.lock();
        std::cout << "trylock by the owner of a mutex: " << door.trylock() << std::endl;
        door.lock();
        std::cout << "lock by the owner of a mutex: goes on" << std::endl;
    }
};

SC_MODULE(Sum) {
    SC_CTOR(Sum) { SC_THREAD(work); }
    void work() {
        const sc_time most = sc_time::from_value(~0ull);
        std::cout << "2^64 - 1 ps and 2 ps: " << (most + sc_time::from_value(2)).value() << " ps" << std::endl;
        wait(most - sc_time::from_value(1));
        wait(sc_time::from_value(5));
        std::cout << "a wait past 2^64 - 1 ps: over at " << sc_time_stamp().value() << " ps" << std::endl;
    }
};

template <typename Port> SC_MODULE(Holder) {
    Port port{"port"};
    SC_CTOR(Holder) {}
};

template <typename Channel, typename Port> SC_MODULE(Shared) {
    Channel channel{"channel"};
    Holder<Port> one{"one"};
    Holder<Port> two{"two"};
    SC_CTOR(Shared) {
        one.port(channel);
        two.port(channel);
    }
};

int sc_main(int count, char* words[]) {
    const std::string what = count > 1 ? words[1] : "";
    try {
        if (what == "mutex") {
            Relock m("m");
            sc_start();
        } else if (what == "sum") {
            Sum m("m");
            sc_start();
        } else if (what == "out") {
            Shared<sc_signal<bool>, sc_out<bool>> m("m");
            sc_start();
            std::cout << "two sc_out on one sc_signal: accepted" << std::endl;
        } else if (what == "fifo") {
            Shared<sc_fifo<int>, sc_fifo_in<int>> m("m");
            sc_start();
            std::cout << "two sc_fifo_in on one sc_fifo: accepted" << std::endl;
        } else {
            return 1;
        }
    } catch (const sc_report& it) {
        std::cout << what << ": " << it.get_msg_type() << std::endl;
    }
    return 0;
}
