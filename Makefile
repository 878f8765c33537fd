# `make` alone prints the targets and how long each takes; tools/help.sh has the text.

PREFIX ?= /usr/local
PROGRAMS := seccheck scriptd scriptctl nodeagent
COUNT ?= 100000
ENGINES ?= /
BENCH_FLAGS := -std=gnu11 -O2 -Wall -Wextra

.PHONY: help test quick cases times planted mutants demo try lib install copy uninstall bench kernel table \
  fleet real look clean

help:
	@tools/help.sh

test:
	@tools/gate.sh

times:
	@tools/gate_times.py out/gate_times

planted:
	@tools/planted.py $(CRATE)

mutants:
	@tools/mutants.py $(PROGRAM)

quick:
	@tools/quick.py

# The cases of tests/ by the programs that make test built, or by those in the folder BIN.
cases:
	@tests/run $(CASES)

# Waits for no proof: the programs are compiled with checks at run time in place of proofs.
demo:
	@tools/demo.py

# Installs the programs to PREFIX, compiled with checks at run time in the place of proofs.
try:
	@tools/try.py $(DESTDIR)$(PREFIX)

lib:
	@echo 'lib: the library for C is proved and built; what rt prints of it:'
	@cd crates/motchidu_c && rt lib
	@tools/pack_library.sh crates/motchidu_c/out/libmotchidu_c.a out/c

install:
	@tools/build.py $(PROGRAMS) motchidu_c
	@$(MAKE) --no-print-directory lib
	@$(MAKE) --no-print-directory copy

# What make install or make test built, into PREFIX.
copy:
	@set -e; for program in $(PROGRAMS); do \
	  install -D -m 755 crates/$$program/out/$$program $(DESTDIR)$(PREFIX)/bin/$$program; \
	  install -D -m 644 man/$$program.1 $(DESTDIR)$(PREFIX)/share/man/man1/$$program.1; \
	done
	@tools/pack_library.sh crates/motchidu_c/out/libmotchidu_c.a out/install $(PREFIX) > /dev/null
	@install -D -m 644 out/install/libmotchidu.a $(DESTDIR)$(PREFIX)/lib/libmotchidu.a
	@install -D -m 755 out/install/libmotchidu.so.0 $(DESTDIR)$(PREFIX)/lib/libmotchidu.so.0
	@ln -sf libmotchidu.so.0 $(DESTDIR)$(PREFIX)/lib/libmotchidu.so
	@install -D -m 644 out/install/motchidu.pc $(DESTDIR)$(PREFIX)/lib/pkgconfig/motchidu.pc
	@install -D -m 644 out/install/motchidu.h $(DESTDIR)$(PREFIX)/include/motchidu.h
	@install -D -m 644 man/motchidu.3 $(DESTDIR)$(PREFIX)/share/man/man3/motchidu.3
	@tools/completions.py $(DESTDIR)$(PREFIX)
	@echo 'copy: installed $(PROGRAMS) in $(DESTDIR)$(PREFIX)/bin, libmotchidu in' \
	  '$(DESTDIR)$(PREFIX)/lib, motchidu.h in $(DESTDIR)$(PREFIX)/include, and the manual pages and' \
	  'completions in $(DESTDIR)$(PREFIX)/share'

# Removes what make copy and make try install.
uninstall:
	@rm -f $(foreach program,$(PROGRAMS),$(addprefix $(DESTDIR)$(PREFIX)/,bin/$(program) \
	  share/man/man1/$(program).1 share/bash-completion/completions/$(program) \
	  share/zsh/site-functions/_$(program) share/fish/vendor_completions.d/$(program).fish)) \
	  $(addprefix $(DESTDIR)$(PREFIX)/,lib/libmotchidu.a lib/libmotchidu.so.0 lib/libmotchidu.so \
	  lib/pkgconfig/motchidu.pc include/motchidu.h share/man/man3/motchidu.3)

# Prints a line and goes on if the machine has no libpcap, no libseccomp or no gVisor. The plain interpreter
# is assembled so that its jumps keep within 32 bytes, or its speed would depend on where the link puts it.
bench: lib
	@mkdir -p out/bench
	@$(CC) $(BENCH_FLAGS) -Wa,-mbranches-within-32B-boundaries -c bench/plain.c -o out/bench/plain.o
	@pcap=$$(printf '#if __has_include(<pcap/bpf.h>)\n-lpcap\n#endif\n' | $(CC) -E -P -x c -); \
	  $(CC) $(BENCH_FLAGS) -Iout/c bench/bench.c bench/pcap.c out/bench/plain.o out/c/libmotchidu.a \
	    $$pcap -o out/bench/bench
	@out/bench/bench
	@tools/call_names.sh > out/bench/names.h
	@seccomp=$$(printf '#if __has_include(<seccomp.h>)\n-lseccomp\n#endif\n' | $(CC) -E -P -x c -); \
	  gvisor=$$(tools/gvisor.sh out/bench $(ENGINES)) || exit 1; \
	  for program in profiles drawn costs compare; do \
	    $(CC) $(BENCH_FLAGS) -Iout/c -Iout/bench bench/$$program.c out/c/libmotchidu.a $$seccomp $$gvisor \
	      -o out/bench/$$program || exit 1; done
	@out/bench/profiles $$(tools/engine_profiles.py out/bench/engines $(ENGINES))
	@out/bench/drawn
	@out/bench/costs
	@out/bench/compare
	@tools/bench_runtime.sh
	@$(CC) $(BENCH_FLAGS) -pthread bench/echo.c -o out/bench/echo
	@tools/bench_calls.py out/bench/echo
	@tools/bench_creations.py
	@tools/bench_full.py
	@tools/bench_node.py
	@tools/bench_settle.py

# Compares what the running kernel does with drawn profiles and what the library returns, on COUNT calls.
kernel: lib
	@mkdir -p out/bench
	@$(CC) $(BENCH_FLAGS) -Iout/c bench/kernel.c out/c/libmotchidu.a -o out/bench/kernel
	@out/bench/kernel $(COUNT)

# The call table beside the kernel's header on this machine.
table:
	@tools/compare_call_table.sh
	@tools/compare_call_types.py

# Three nodes that read an etcd of this machine, by the programs that make test built, or those in the folder BIN.
fleet:
	@tools/fleet.py

# Real programs under filters, by the seccheck that make test built, or that in the folder BIN.
real:
	@tools/real.py

# Pages of seccheck report in a headless Chromium, by the seccheck that make test built, or that in the folder BIN.
look:
	@ENGINES=$(ENGINES) tools/look.py

clean:
	rm -rf out crates/*/out
