// Bench prints what a call takes, in nanoseconds of the processor: the best of some rounds, of 1,000 calls each. With `allocations` it is how many objects a call
// makes on Go's heap. usage: bench ROUNDS [allocations]
package main

import (
	"fmt"
	"os"
	"runtime"
	"strconv"
	"syscall"
	"unsafe"

	"palqytun.example/palqytun"
)

const (
	calls   = 1000
	process = 2 // CLOCK_PROCESS_CPUTIME_ID
)

func now() int64 {
	var it syscall.Timespec
	syscall.Syscall(syscall.SYS_CLOCK_GETTIME, process, uintptr(unsafe.Pointer(&it)), 0)
	return it.Nano()
}

func allocations() int64 {
	var it runtime.MemStats
	runtime.ReadMemStats(&it)
	return int64(it.Mallocs)
}

func must[T any](it T, err error) T {
	if err != nil {
		panic(err)
	}
	return it
}

func begun() *palqytun.VM {
	vm := must(palqytun.New(must(palqytun.ContentType(7)), palqytun.Options{}))
	for _, line := range []string{`Start id="abc" debug_id="abc" known_entries=1`, `Input value="Till"`} {
		must(0, vm.NotifyInput(must(palqytun.FrameOf(line))))
	}
	must(vm.SysInput())
	must(vm.SysSleep("", 1000))
	return vm
}

func main() {
	rounds := must(strconv.Atoi(os.Args[1]))
	read := now
	if len(os.Args) > 2 {
		read = allocations
	}
	target := palqytun.Target{Service: "Greeter", Handler: "greet"}
	cases := []struct {
		name string
		call func(vm *palqytun.VM)
	}{
		{"sleep", func(vm *palqytun.VM) { must(vm.SysSleep("", 1000)) }},
		{"state", func(vm *palqytun.VM) { must(0, vm.SysStateSet("key", []byte("value"), "", false)) }},
		{"call", func(vm *palqytun.VM) { must(vm.SysCall(target, []byte("Ada"), "", false)) }},
		{"await", func(vm *palqytun.VM) { must(vm.DoAwait(palqytun.Handle(17))) }},
	}
	for _, it := range cases {
		best := int64(1) << 62
		for round := 0; round < rounds; round++ {
			vm := begun()
			begin := read()
			for at := 0; at < calls; at++ {
				it.call(vm)
			}
			if took := read() - begin; took < best {
				best = took
			}
			must(0, vm.Close())
		}
		fmt.Printf("%s %.1f\n", it.name, float64(best)/calls)
	}
}
