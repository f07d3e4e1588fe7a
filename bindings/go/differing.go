package palqytun

// #include "palqytun_abi.h"
import "C"

import "fmt"

// Difference says in what a call isn't as the recorded command of this index, the Input being 0.
type Difference struct {
	Index uint32
	// Field is the first one that differs, by its name on the line of a frame (docs/FRAMES.md), and "type" if the two are of different types.
	Field string
	// Recorded and Asked are its values, in the journal and by the call, as such a line has them, up to 120 characters; the types, if these differ.
	// An empty one is a field at its default, or that of no command.
	Recorded, Asked string
	// RecordedType and AskedType are what both commands are. Nil is a command that isn't recorded, or a call that makes none, which is an await.
	RecordedType, AskedType *CommandType
}

// InWords is the same as a text, by an SDK's own names of commands. One that isn't there has its own.
func (it *Difference) InWords(names map[CommandType]string) string {
	recorded, asked := inWords(it.RecordedType, names), inWords(it.AskedType, names)
	switch {
	case it.RecordedType == nil:
		return fmt.Sprintf("no command is recorded at %d, and the call makes %s", it.Index, asked)
	case it.AskedType == nil:
		return fmt.Sprintf("command %d is recorded as %s, and the code awaits what hasn't come", it.Index, recorded)
	case it.Field == "type":
		return fmt.Sprintf("command %d is recorded as %s, and the call makes %s", it.Index, recorded, asked)
	}
	one, other := orNothing(it.Recorded), orNothing(it.Asked)
	return fmt.Sprintf("command %d, %s, is recorded with %s %s, and the call gives %s", it.Index, recorded, it.Field, one, other)
}

// String is the text by the commands' own names.
func (it *Difference) String() string { return it.InWords(nil) }

func inWords(of *CommandType, names map[CommandType]string) string {
	if of == nil {
		return ""
	}
	if own := names[*of]; own != "" {
		return own
	}
	return of.String()
}

func orNothing(value string) string {
	if value == "" {
		return "nothing"
	}
	return value
}

// replayed is what a VM was fed before its handler began, to say in what a call differs. It is kept until the journal is replayed.
type replayed struct {
	fed             []byte
	isKept, isBegun bool
	ignoresPayloads bool
}

func replayedBy(options Options) replayed {
	ignores := options.NonDeterministicChecks == NonDeterministicChecksPayloadChecksDisabled
	return replayed{isKept: options.JournalReplay == JournalReplayEnabled, ignoresPayloads: ignores}
}

func (it *replayed) feed(data []byte) {
	if it.isKept && !it.isBegun {
		it.fed = append(it.fed, data...)
	}
}

// ends lets it go: what comes from now on isn't replayed.
func (it *replayed) ends() { it.fed, it.isKept = nil, false }

// differs is in what the call that has failed the VM isn't as recorded, if this error is about that; else nil.
func (vm *VM) differs(found *Error, call func(it *C.palqytun_replied), of []argument) *Difference {
	index, message, isAbout := vm.place(found)
	if !vm.replayed.isKept || !isAbout {
		return nil
	}
	var compared C.palqytun_compared
	fed := vm.replayed.fed
	C.pq_mismatch(at(fed), size(fed), index, message, &compared)
	if Status(compared.status) != StatusDone {
		return nil
	}
	var asked []byte
	if compared.is_recorded && compared.is_asked && compared.recorded == compared.asked {
		asked = vm.again(call, bool(compared.is_lazy))
	}
	ignores := C.bool(vm.replayed.ignoresPayloads || isUnstable(of))
	parts := [3]string{}
	for i := range parts {
		part, err := written(func(out *C.uint8_t, most C.size_t, told *C.palqytun_told) {
			C.pq_mismatch_part(at(fed), size(fed), index, message, at(asked), size(asked), ignores, C.size_t(i), out, most, told)
		})
		if err != nil {
			return nil
		}
		parts[i] = string(part)
	}
	if parts[0] == "" {
		return nil
	}
	recorded, made := typeOf(compared.is_recorded, compared.recorded), typeOf(compared.is_asked, compared.asked)
	return &Difference{uint32(index), parts[0], parts[1], parts[2], recorded, made}
}

// place is the index of the recorded command, and the type of the call's message, 0 of an await, if the error is about these.
func (vm *VM) place(found *Error) (index, message C.uint32_t, isAbout bool) {
	switch found.Message {
	case "UncompletedDoProgressDuringReplay":
		var last C.palqytun_replied
		C.pq_last_command_index(vm.handle, &last)
		return C.uint32_t(last.number) + 1, 0, last.kind == C.PALQYTUN_INDEX
	case "UnavailableEntryError", "CommandTypeMismatchError", "CommandMismatchError":
		if it := found.Related; it != nil {
			return C.uint32_t(it.Index), C.uint32_t(it.Message), true
		}
	}
	return 0, 0, false
}

// again is what a call writes on a new VM, whose journal has an input alone, and whose state is empty. A read of the state is made in one of its two
// forms.
func (vm *VM) again(call func(it *C.palqytun_replied), isLazy bool) []byte {
	contentType, _ := ContentType(vm.version)
	fresh, err := New(contentType, Options{AwaitingOnPolicy: AwaitingOnPolicyDontSend})
	if err != nil {
		return nil
	}
	defer fresh.Close()
	for _, line := range []string{fmt.Sprintf(`Start id="-" debug_id="-" known_entries=1 partial=%t`, isLazy), "Input"} {
		frame, err := FrameOf(line)
		if err != nil || fresh.NotifyInput(frame) != nil {
			return nil
		}
	}
	if _, err := fresh.SysInput(); err != nil {
		return nil
	}
	var replied C.palqytun_replied
	own := vm.handle
	vm.handle = fresh.handle
	call(&replied)
	vm.handle = own
	output, _ := fresh.TakeOutput()
	return output
}

func typeOf(isThere C.bool, number C.uint32_t) *CommandType {
	if !isThere {
		return nil
	}
	found := CommandType(number)
	return &found
}
