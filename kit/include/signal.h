#error "signal.h isn't here: there are no signals; the health monitor leaves notices, which the debugger shows"
