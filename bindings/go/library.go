package palqytun

// #cgo CFLAGS: -std=c11 -O2
// #cgo LDFLAGS: -ldl -pthread
// #include <stdlib.h>
// #include "palqytun_abi.h"
import "C"

import (
	"io"
	"strings"
	"sync/atomic"
)

const mostSaid = 4096

var (
	isLoaded atomic.Bool
	_        io.Closer = (*VM)(nil)
	_        io.Closer = (*Journal)(nil)
)

// LoadError says why the shared object can't be used. Its text names the path that was looked for, and says what to do.
type LoadError struct {
	Path string
	said string
}

func (e *LoadError) Error() string { return e.said }

// load loads the library once. The next call tries again if it failed.
func load() error {
	if isLoaded.Load() {
		return nil
	}
	said := make([]byte, mostSaid)
	if C.pq_load(nil, (*C.char)(pointer(said)), mostSaid) {
		isLoaded.Store(true)
		return nil
	}
	text := C.GoString((*C.char)(pointer(said)))
	path, _, _ := strings.Cut(text, ": ")
	return &LoadError{path, text}
}

// Build is the library's version, the commit and the sum of the kit's logic that it was built of, and "proved" or "unproved".
func Build() (string, error) {
	if err := load(); err != nil {
		return "", err
	}
	return C.GoString(C.pq_build()), nil
}

// Version is the library's version, as "0.1.0".
func Version() (string, error) {
	if err := load(); err != nil {
		return "", err
	}
	return C.GoString(C.pq_version()), nil
}

// IsProved says whether the library was built of sources that were proved.
func IsProved() (bool, error) {
	if err := load(); err != nil {
		return false, err
	}
	return bool(C.pq_is_proved()), nil
}
