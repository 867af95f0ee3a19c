// What the SystemC programs of this folder share: their words (the form, a number of processes, how much is to be done), the
// count of what was done, and the line that tells it.
#ifndef COUNT_H
#define COUNT_H

#define SC_INCLUDE_DYNAMIC_PROCESSES
#include <cstdlib>
#include <iostream>
#include <string>
#include <systemc>

namespace count {

inline std::string form;
inline unsigned long processes, wanted, done;

inline void begin(char* words[]) {
    form = words[1];
    processes = std::strtoul(words[2], nullptr, 10);
    wanted = std::strtoul(words[3], nullptr, 10);
    sc_core::sc_report_handler::set_actions(sc_core::SC_INFO, sc_core::SC_DO_NOTHING);
}

// One more was done; behind the last one that is wanted the run ends.
inline void one() {
    if (++done == wanted)
        sc_core::sc_stop();
}

// Runs until nothing is pending or all is done.
inline int run() {
    sc_core::sc_start();
    std::cerr << "done " << done << std::endl;
    return 0;
}

} // namespace count

#endif
