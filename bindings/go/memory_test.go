package palqytun

import (
	"fmt"
	"os"
	"runtime"
	"testing"
)

const mostPages = 4096 // 16 MB, of which Go's own heap has most: VMs that stay would take more than 100 MB

func residentPages() (pages int) {
	var all int
	must(fmt.Sscan(string(must(os.ReadFile("/proc/self/statm"))), &all, &pages))
	return pages
}

func TestMemoryDoesNotGrow(t *testing.T) {
	open := func(many int) {
		for i := 0; i < many; i++ {
			must(0, begun().Close())
			must(0, must(NewJournal()).Close())
		}
	}
	open(5_000)
	runtime.GC()
	before := residentPages()
	open(100_000)
	runtime.GC()
	if grown := residentPages() - before; grown > mostPages {
		t.Errorf("%d pages more", grown)
	}
}
