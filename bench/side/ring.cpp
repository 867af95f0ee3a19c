// A ring of processes, each of which hands the value of its signal on to the next one's; the last one inverts it, so that one
// process runs at a time. As `methods` with static lists, or as `threads` that name in each wait what they wait for.
#include "count.h"

using namespace sc_core;

struct Stage : sc_module {
    sc_signal<bool>& from;
    sc_signal<bool>& into;
    const bool inverts;

    SC_HAS_PROCESS(Stage);

    Stage(sc_module_name name, sc_signal<bool>& from, sc_signal<bool>& into, bool inverts)
        : sc_module(name), from(from), into(into), inverts(inverts) {
        if (count::form == "methods") {
            SC_METHOD(turn);
            sensitive << from;
        } else {
            SC_THREAD(turns);
        }
    }

    void turn() {
        count::one();
        into.write(from.read() != inverts);
    }

    void turns() {
        while (true) {
            turn();
            wait(from.value_changed_event());
        }
    }
};

SC_MODULE(Ring) {
    sc_vector<sc_signal<bool>> s{"s", count::processes};
    sc_vector<Stage> m{"m"};

    SC_CTOR(Ring) {
        m.init(count::processes, [this](const char* name, std::size_t at) {
            bool last = at + 1 == count::processes;
            return new Stage(name, s[at], s[last ? 0 : at + 1], last);
        });
    }
};

int sc_main(int, char* words[]) {
    count::begin(words);
    Ring m("m");
    return count::run();
}
