#!/bin/bash
# What make alone prints.
cat <<'TEXT'
make quick    for use while editing: skips the proofs. Compiles programs and tests with checks at run time, runs
              tests and cases. Eight to thirteen minutes on four cores
make test     the gate: proves every crate from nothing, tries the must-fail edits, runs the tests, the stored
              runs, the examples in C and the cases, and checks README and the manual pages against the programs.
              Two to three hours on four cores
make times    prints the processor seconds that the last gate spent, crate by crate. At once
make planted  tries all wrong bodies, also those that the gate leaves out; CRATE=NAME.. those of some crates.
              Each costs up to 30 CPU seconds, plus two proofs per crate: about two hours on four cores for all
make mutants  plants the wrong bodies of tests/mutants that no contract reaches, and runs the cases that should
              notice; PROGRAM=NAME.. those of some programs. Builds each program once. Half an hour on two cores
make cases    runs the cases of tests/ with the programs that make test built, or those in BIN=FOLDER;
              CASES=FILE.. runs some of them. Seven minutes; QUICK=1 leaves out the long ones
make demo     compiles a profile, judges calls with its filter, plays scripts, settles pods over a socket, and runs
              the pods of a folder, before any proof. A first verdict within a minute, two to four minutes in all
make try      installs the programs, their manual pages and completions to PREFIX (/usr/local), compiled with
              checks at run time in place of proofs; their --version says unproved. One and a half to eight minutes
make install  proves the programs and the library for C, and installs them with pages and completions to PREFIX
              (/usr/local). Two hours or more on four cores; make copy installs what is already built, and
              make uninstall removes it. At once
make lib      builds the library for C and its header, proved, in out/c. Half an hour of one core
make bench    measures the machine and the compiler beside others, the runtime with few and many uids, calls over
              a socket, creations, a full sandbox, and a long-running agent; uses what is already built.
              ENGINES=FOLDER: profiles of engines whose packages lie there. A quarter of an hour
make kernel   compares the running kernel with the library on COUNT drawn calls. A minute
make table    compares the tables of calls with the kernel of this machine, and its header. At once
make fleet    runs 60 pods on three nodes that read an etcd of Debian, and kills each kind of part once. Uses
              what is already built, or BIN=FOLDER. Two minutes
make real     runs real programs under filters, by bwrap, crun, runc, systemd and a program in C, and prints which
              packages are missing. Uses what is already built, or BIN=FOLDER. A few seconds
make look     opens pages of seccheck report in a headless Chromium, wide and narrow, light and dark, and keeps
              pictures in out/look. Fails if a page scrolls sideways or logs an error. Uses what is already built,
              or BIN=FOLDER. ENGINES=FOLDER as for bench. A minute
make clean    removes what is built and proved
TEXT
