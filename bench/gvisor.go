// Command gvisor is the benchmarks' compiler of rules by gVisor's package seccomp, with its optimiser, as a
// library for C.
package main

// #include "rule.h"
import "C"

import (
	"encoding/binary"
	"fmt"
	"os"
	"unsafe"

	"gvisor.dev/gvisor/pkg/abi/linux"
	"gvisor.dev/gvisor/pkg/bpf"
	"gvisor.dev/gvisor/pkg/seccomp"
)

func matcher(condition C.struct_condition) seccomp.ValueMatcher {
	value := uintptr(condition.value)
	switch condition.op {
	case C.NE:
		return seccomp.NotEqual(value)
	case C.LT:
		return seccomp.LessThan(value)
	case C.LE:
		return seccomp.LessThanOrEqual(value)
	case C.EQ:
		return seccomp.EqualTo(value)
	case C.GE:
		return seccomp.GreaterThanOrEqual(value)
	case C.GT:
		return seccomp.GreaterThan(value)
	default:
		return seccomp.MaskedEqual(value, uintptr(condition.two))
	}
}

// test holds where all conditions of the rule do.
func test(rule C.struct_rule) seccomp.SyscallRule {
	if rule.conditions == 0 {
		return seccomp.MatchAll{}
	}
	var all seccomp.And
	for _, condition := range rule.when[:rule.conditions] {
		var args seccomp.PerArg
		args[condition.index] = matcher(condition)
		all = append(all, args)
	}
	return all
}

// ruleSets has a set for each value, in the order in which the rules have them.
func ruleSets(rules []C.struct_rule) []seccomp.RuleSet {
	var sets []seccomp.RuleSet
	places := map[C.uint32_t]int{}
	for _, rule := range rules {
		place, there := places[rule.value]
		if !there {
			place = len(sets)
			places[rule.value] = place
			sets = append(sets, seccomp.RuleSet{
				Rules:  seccomp.NewSyscallRules(),
				Action: linux.BPFAction(rule.value),
			})
		}
		sets[place].Rules.Add(uintptr(rule.nr), test(rule))
	}
	return sets
}

func write(program []bpf.Instruction, to []byte) {
	for i, insn := range program {
		at := to[8*i:]
		binary.LittleEndian.PutUint16(at, insn.OpCode)
		at[2], at[3] = insn.JumpIfTrue, insn.JumpIfFalse
		binary.LittleEndian.PutUint32(at[4:], insn.K)
	}
}

//export gvisor_compile
func gvisor_compile(rules *C.struct_rule, count C.size_t, other C.uint32_t, filter *C.uint8_t,
	room C.size_t) C.size_t {
	program, _, err := seccomp.BuildProgram(ruleSets(unsafe.Slice(rules, count)), seccomp.ProgramOptions{
		DefaultAction: linux.BPFAction(other),
		BadArchAction: linux.SECCOMP_RET_KILL_PROCESS,
		Optimize:      true,
	})
	length := C.size_t(8 * len(program))
	if err != nil || length > room {
		fmt.Fprintln(os.Stderr, "gVisor:", length, "bytes,", err)
		return 0
	}
	write(program, unsafe.Slice((*byte)(filter), room))
	return length
}

func main() {}
