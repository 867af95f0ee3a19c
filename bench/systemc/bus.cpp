// The model of bus.tlm.
#include "report.h"
#include <tlm>
#include <tlm_utils/simple_initiator_socket.h>
#include <tlm_utils/simple_target_socket.h>
#include <tlm_utils/tlm_quantumkeeper.h>

using namespace sc_core;
using sc_dt::sc_uint;
using report::say;
using report::turn;

SC_MODULE(Master) {
    sc_in<sc_uint<8>> number{"number"};
    tlm_utils::simple_initiator_socket<Master> bus{"bus"};
    tlm_utils::tlm_quantumkeeper ahead;

    SC_CTOR(Master) { SC_THREAD(work); }

    void sync() {
        ahead.sync();
        turn();
    }

    void work() {
        turn();
        unsigned char byte = 0;
        tlm::tlm_generic_payload p;
        p.set_data_ptr(&byte);
        p.set_data_length(1);
        p.set_streaming_width(1);
        p.set_byte_enable_ptr(nullptr);
        ahead.reset();
        for (unsigned i = 0; i < 4; ++i) {
            sc_time delay = ahead.get_local_time();
            p.set_command(tlm::TLM_WRITE_COMMAND);
            p.set_address(number.read() * 4 + i);
            byte = number.read() * 16 + i;
            p.set_response_status(tlm::TLM_INCOMPLETE_RESPONSE);
            bus->b_transport(p, delay);
            ahead.set(delay);
            ahead.inc(sc_time(2, SC_NS) * static_cast<double>(number.read()));
            if (ahead.need_sync()) {
                say("ahead by", ahead.get_local_time().value());
                sync();
                say("synced", static_cast<int>(p.get_response_status()));
            }
        }
        sync();
        p.set_command(tlm::TLM_READ_COMMAND);
        p.set_address(40);
        sc_time none = SC_ZERO_TIME;
        p.set_response_status(tlm::TLM_INCOMPLETE_RESPONSE);
        bus->b_transport(p, none);
        say("status", static_cast<int>(p.get_response_status()));
    }
};

SC_MODULE(Ram) {
    tlm_utils::simple_target_socket<Ram> first{"first"};
    tlm_utils::simple_target_socket<Ram> second{"second"};
    unsigned char bytes[16] = {};

    SC_CTOR(Ram) {
        first.register_b_transport(this, &Ram::serve);
        second.register_b_transport(this, &Ram::serve);
    }

    void serve(tlm::tlm_generic_payload& p, sc_time& delay) {
        if (p.get_address() >= sizeof bytes)
            p.set_response_status(tlm::TLM_ADDRESS_ERROR_RESPONSE);
        else {
            if (p.is_write())
                bytes[p.get_address()] = *p.get_data_ptr();
            else
                *p.get_data_ptr() = bytes[p.get_address()];
            p.set_response_status(tlm::TLM_OK_RESPONSE);
        }
        delay += sc_time(3, SC_NS);
    }
};

SC_MODULE(Bench) {
    sc_signal<sc_uint<8>> one{"one", 1};
    sc_signal<sc_uint<8>> two{"two", 2};
    Master a{"a"};
    Master b{"b"};
    Ram ram{"ram"};

    SC_CTOR(Bench) {
        SC_THREAD(set_quantum);
        a.number(one);
        b.number(two);
        a.bus.bind(ram.first);
        b.bus.bind(ram.second);
    }

    void set_quantum() {
        turn();
        tlm_utils::tlm_quantumkeeper::set_global_quantum(sc_time(10, SC_NS));
    }
};

int sc_main(int, char*[]) {
    Bench m("m");
    report::processes = {"m.set_quantum", "m.a.work", "m.b.work"};
    sc_start();
    report::last(m.one);
    report::last(m.two);
    report::end();
    return 0;
}
