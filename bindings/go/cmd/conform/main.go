// Conform plays the conformance suite (docs/CONFORMANCE.md): it reads rows on standard input, a row a line, and prints "ok ROW", or what differs
// and then "not ok ROW". Its status is 0 if all rows fit.
package main

import (
	"bufio"
	"encoding/binary"
	"encoding/hex"
	"encoding/json"
	"errors"
	"fmt"
	"os"
	"reflect"

	"palqytun.example/palqytun"
)

type row struct {
	Row, Under string
	Steps      []fields
}

const longest = 1 << 26 // of a line, in bytes

func main() {
	status := 0
	lines := bufio.NewScanner(os.Stdin)
	lines.Buffer(nil, longest)
	for lines.Scan() {
		var it row
		read(lines.Bytes(), &it)
		if !play(it) {
			status = 1
		}
	}
	if lines.Err() != nil {
		fmt.Fprintln(os.Stderr, lines.Err())
		status = 2
	}
	os.Exit(status)
}

// play plays a row, and says whether it fits.
func play(it row) bool {
	var vm *palqytun.VM
	isWell := true
	for place, step := range it.Steps {
		var found any
		var err error
		if step.text("call") == "new" {
			vm, found, err = begin(vm, step)
		} else if vm == nil {
			break
		} else {
			found, err = calls[step.text("call")](vm, step)
		}
		if !fits(step, found, err) {
			fmt.Printf("%s (%s), step %d, %s: %v, %v\n", it.Row, it.Under, place, step.text("call"), found, err)
			isWell = false
		}
	}
	if vm != nil {
		vm.Close()
	}
	if isWell {
		fmt.Println("ok", it.Row)
	} else {
		fmt.Println("not ok", it.Row)
	}
	return isWell
}

func begin(before *palqytun.VM, step fields) (*palqytun.VM, any, error) {
	if before != nil {
		before.Close()
	}
	options := optionsOf(step.object("options"))
	made := func() (*palqytun.VM, error) {
		if !step.has("content_type") {
			return palqytun.NewWithoutContentType(options)
		}
		return palqytun.New(step.text("content_type"), options)
	}
	vm, err := made()
	if err != nil {
		return nil, nil, err
	}
	return vm, vm.Version(), nil
}

// fits says whether a step wants this.
func fits(step fields, found any, err error) bool {
	var refused *palqytun.Error
	if errors.As(err, &refused) {
		return step.has("error") && same(step["error"], refusal(refused, step.object("error").has("difference")))
	}
	if err != nil {
		return false
	}
	if types, isGiven := step["frames"]; isGiven {
		data, _ := hex.DecodeString(found.(string))
		frames, isWhole := framesOf(data)
		return isWhole && same(types, frames)
	}
	return step.has("returns") && same(step["returns"], found)
}

// refusal is an error as the suite has it: its difference stands there if it is asked for.
func refusal(it *palqytun.Error, hasDifference bool) fields {
	found := fields{"code": it.Code, "message": it.Message}
	if hasDifference && it.Difference != nil {
		found["difference"] = it.Difference.String()
	}
	return found
}

// same compares what JSON shows of two values.
func same(one, other any) bool {
	return reflect.DeepEqual(plain(one), plain(other))
}

func plain(it any) (found any) {
	text, err := json.Marshal(it)
	if err != nil {
		panic(err)
	}
	read(text, &found)
	return found
}

// framesOf gives the types of whole frames, and whether there is nothing else.
func framesOf(output []byte) (types []uint16, isWhole bool) {
	types = []uint16{}
	for len(output) > 0 {
		if len(output) < 10 || uint64(len(output)-10) < binary.BigEndian.Uint64(output[2:]) {
			return nil, false
		}
		types = append(types, binary.BigEndian.Uint16(output))
		output = output[10+binary.BigEndian.Uint64(output[2:]):]
	}
	return types, true
}
