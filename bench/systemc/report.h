// What the SystemC programs of this folder write: the lines that tlmsim reports for the same model, and into taken.txt the
// serials of the processes in the order in which the kernel took them, which is a list for --replay.
#ifndef REPORT_H
#define REPORT_H

#include <fstream>
#include <iostream>
#include <string>
#include <systemc>
#include <vector>

namespace report {

// The processes in the order of tlmsim's serials.
inline std::vector<std::string> processes;

inline std::string own_name() { return sc_core::sc_get_current_process_handle().name(); }

// Whether a process runs because another one resets it: at once, and not because the kernel took it.
inline bool is_reset = false;

// The process that is running now was taken.
inline void turn() {
    static std::ofstream taken("taken.txt");
    if (is_reset)
        return;
    for (std::size_t serial = 0; serial < processes.size(); ++serial)
        if (processes[serial] == own_name()) {
            taken << serial << std::endl;
            return;
        }
    std::cerr << own_name() << " has no serial" << std::endl;
    std::exit(1);
}

// wait in any of its forms, behind which the process was taken again.
template <typename... Arguments> void await(const Arguments&... arguments) {
    sc_core::wait(arguments...);
    turn();
}

// A reset of another process, which unwinds and begins again before the caller goes on.
inline void reset(sc_core::sc_process_handle target) {
    is_reset = true;
    target.reset();
    is_reset = false;
}

inline sc_dt::uint64 now() { return sc_core::sc_time_stamp().value(); }

inline void say(const std::string& text) { std::cout << now() << ' ' << own_name() << ' ' << text << std::endl; }

template <typename Value> void say(const std::string& text, const Value& value) {
    std::cout << now() << ' ' << own_name() << ' ' << text << ' ' << value << std::endl;
}

template <typename Signal> void last(const Signal& signal) {
    std::cout << "final " << signal.name() << ' ' << signal.read() << std::endl;
}

inline void end() { std::cout << "end done " << now() << std::endl; }

} // namespace report

#endif
