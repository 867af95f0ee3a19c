// A method that toggles its own signal: as `plain`, or as `ports` with a port that reads it and one that writes it.
#include "count.h"

using namespace sc_core;

SC_MODULE(Plain) {
    sc_signal<bool> s{"s"};

    SC_CTOR(Plain) {
        SC_METHOD(turn);
        sensitive << s;
    }

    void turn() {
        count::one();
        s.write(!s.read());
    }
};

SC_MODULE(Inverter) {
    sc_in<bool> from{"from"};
    sc_out<bool> into{"into"};

    SC_CTOR(Inverter) {
        SC_METHOD(turn);
        sensitive << from;
    }

    void turn() {
        count::one();
        into.write(!from.read());
    }
};

SC_MODULE(Ports) {
    sc_signal<bool> s{"s"};
    Inverter i{"i"};

    SC_CTOR(Ports) {
        i.from(s);
        i.into(s);
    }
};

int sc_main(int, char* words[]) {
    count::begin(words);
    if (count::form == "plain") {
        Plain m("m");
        return count::run();
    }
    Ports m("m");
    return count::run();
}
