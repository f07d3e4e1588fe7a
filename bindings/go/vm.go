package palqytun

// #include "palqytun_abi.h"
import "C"

import (
	"fmt"
	"log"
	"runtime"
	"sync"
)

// VM is one VM, for one attempt of an invocation. It is closed by [VM.Close]; one that is garbage without that is said by a line of the log.
// Goroutines may share it: one call is made after the other.
type VM struct {
	guard   sync.Mutex
	handle  C.uintptr_t
	replied C.palqytun_replied
	version int
	// It has failed by an error that was handed in, which each later call returns.
	failedByHandedIn bool
	// An error has failed it, which may say in what a call isn't as recorded.
	isRefused  bool
	difference *Difference
	replayed   replayed
}

// New makes a VM for the version that the content type names. It fails by an [*Error] with [CodeUnsupportedMediaType] if that names none that is
// supported.
func New(contentType string, options Options) (*VM, error) {
	return newVM(&contentType, options)
}

// NewWithoutContentType makes a VM of a request without the header, which the VM refuses.
func NewWithoutContentType(options Options) (*VM, error) { return newVM(nil, options) }

func newVM(contentType *string, options Options) (*VM, error) {
	if err := load(); err != nil {
		return nil, err
	}
	vm := &VM{replayed: replayedBy(options)}
	if err := failure(uint32(C.pq_open(&vm.handle))); err != nil {
		return nil, err
	}
	asked, many := (*C.uint8_t)(nil), C.size_t(0)
	if contentType != nil {
		// An empty text isn't absent: its pointer isn't nil.
		text := append([]byte(*contentType), 0)
		asked, many = at(text), textSize(*contentType)
	}
	err := vm.made(func(it *C.palqytun_replied) { C.pq_make(vm.handle, asked, many, optionsOf(options), it) }, casesOf(options)...)
	if err != nil {
		C.pq_close(vm.handle)
		return nil, err
	}
	vm.version = int(vm.replied.first)
	runtime.SetFinalizer(vm, func(vm *VM) {
		if vm.handle != 0 {
			log.Printf("palqytun: a VM became garbage and was not closed: its memory is lost; call Close")
		}
	})
	return vm, nil
}

// Close ends the VM and frees its memory. It may be called again.
func (vm *VM) Close() error {
	vm.guard.Lock()
	defer vm.guard.Unlock()
	if vm.handle == 0 {
		return nil
	}
	status := C.pq_close(vm.handle)
	vm.handle = 0
	return failure(uint32(status))
}

// Version is that of its messages.
func (vm *VM) Version() int { return vm.version }

// ---- The attempt

// GetResponseHead is the head of the response: status 200, and the content type of the version.
func (vm *VM) GetResponseHead() (head ResponseHead, err error) {
	err = vm.told(func(it *C.palqytun_replied) { C.pq_head(vm.handle, it) }, func() (err error) {
		head.StatusCode = uint16(vm.replied.number)
		head.Headers, err = vm.pairs(0)
		return err
	})
	return head, err
}

// NotifyInput feeds the next bytes of the attempt, cut anywhere. What they spell may fail the VM, which the next call returns.
func (vm *VM) NotifyInput(data []byte) error {
	vm.guard.Lock()
	defer vm.guard.Unlock()
	if err := failure(uint32(C.pq_feed(vm.handle, at(data), size(data)))); err != nil {
		return err
	}
	vm.replayed.feed(data)
	return nil
}

// NotifyInputClosed says that no more bytes come.
func (vm *VM) NotifyInputClosed() error {
	return vm.told(func(it *C.palqytun_replied) { C.pq_close_input(vm.handle, it) }, nil)
}

// NotifyError says that the handler failed by an error of its own, which fails the VM; one that has failed keeps its first error. Each later call
// returns it, and errors.Is takes it for none of the VM's own errors, with any code.
func (vm *VM) NotifyError(of HandlerError, related *RelatedCommand) error {
	var lent room
	defer lent.free()
	given, command := lent.error(of), lent.command(related)
	return vm.handIn(of, func(it *C.palqytun_replied) { C.pq_report_error(vm.handle, given, command, it) }, lent.of...)
}

// TakeOutput takes all bytes that wait to be sent: whole frames.
func (vm *VM) TakeOutput() ([]byte, error) {
	vm.guard.Lock()
	defer vm.guard.Unlock()
	output, err := written(func(out *C.uint8_t, most C.size_t, told *C.palqytun_told) {
		C.pq_take_output(vm.handle, out, most, told)
	})
	if len(output) > 0 {
		vm.replayed.ends()
	}
	return output, err
}

// String is the VM in a line for a log.
func (vm *VM) String() string {
	vm.guard.Lock()
	defer vm.guard.Unlock()
	line, err := written(func(out *C.uint8_t, most C.size_t, told *C.palqytun_told) {
		C.pq_describe(vm.handle, out, most, told)
	})
	if err != nil {
		return fmt.Sprintf("VM(%v)", err)
	}
	return "VM(" + string(line) + ")"
}

// IsReadyToExecute says whether the handler may begin: all known entries were fed.
func (vm *VM) IsReadyToExecute() (bool, error) {
	return vm.flag(func(it *C.palqytun_replied) { C.pq_is_ready(vm.handle, it) })
}

// State is the state of the VM.
func (vm *VM) State() (state State, err error) {
	err = vm.told(func(it *C.palqytun_replied) { C.pq_state(vm.handle, it) }, func() error {
		state = State(vm.replied.first)
		return nil
	})
	return state, err
}

// LastCommandIndex is the index of the last command; -1 before any.
func (vm *VM) LastCommandIndex() (index int64, err error) {
	err = vm.told(func(it *C.palqytun_replied) { C.pq_last_command_index(vm.handle, it) }, func() error {
		index = int64(vm.replied.number)
		if vm.replied.kind != C.PALQYTUN_INDEX {
			index = -1
		}
		return nil
	})
	return index, err
}

// ---- Awaits

// DoAwait says whether a future is awake, and if it isn't, what to do next.
func (vm *VM) DoAwait(future Future) (awaited Awaited, err error) {
	if err := checked("future", future); err != nil {
		return awaited, err
	}
	call := func(it *C.palqytun_replied) {
		if handle, isOne := future.(Handle); isOne {
			C.pq_await(vm.handle, C.uint32_t(handle), it)
			return
		}
		nodes := future.(*tree).nodes
		C.pq_await_tree(vm.handle, &nodes[0], C.size_t(len(nodes)), it)
	}
	err = vm.told(call, func() error {
		awaited = awaitedOf(&vm.replied)
		if awaited.Kind != AnyCompleted && awaited.Kind != CancelSignalReceived {
			vm.replayed.ends()
		}
		return nil
	})
	return awaited, err
}

func awaitedOf(it *C.palqytun_replied) Awaited {
	switch it.kind {
	case C.PALQYTUN_WAITING:
		return Awaited{Kind: WaitingExternalProgress, WaitingInput: it.first == 1, WaitingRunProposal: it.second == 1}
	case C.PALQYTUN_EXECUTE_RUN:
		return Awaited{Kind: ExecuteRun, Run: Handle(it.first)}
	case C.PALQYTUN_EPHEMERAL:
		return Awaited{Kind: EphemeralReady, Ephemeral: uint32(it.first)}
	case C.PALQYTUN_CANCELLED:
		return Awaited{Kind: CancelSignalReceived}
	}
	return Awaited{Kind: AnyCompleted}
}

// IsCompleted says whether a take of the handle would return a value.
func (vm *VM) IsCompleted(handle Handle) (bool, error) {
	return vm.flag(func(it *C.palqytun_replied) { C.pq_is_completed(vm.handle, C.uint32_t(handle), it) })
}

// TakeNotification takes the result of a handle; nil if it has none.
func (vm *VM) TakeNotification(handle Handle) (Value, error) {
	return vm.taken(func(it *C.palqytun_replied) { C.pq_take(vm.handle, C.uint32_t(handle), it) })
}

// TakeEphemeralNotification takes the value of an ephemeral read, [Void] if the key has none; nil if it isn't there.
func (vm *VM) TakeEphemeralNotification(id uint32) (Value, error) {
	return vm.taken(func(it *C.palqytun_replied) { C.pq_take_ephemeral(vm.handle, C.uint32_t(id), it) })
}

// ---- The handler's calls

// SysInput is what the handler was called with; its first call.
func (vm *VM) SysInput() (input Input, err error) {
	err = vm.told(func(it *C.palqytun_replied) { C.pq_input(vm.handle, it) }, func() (err error) {
		vm.replayed.isBegun = true
		input.RandomSeed = uint64(vm.replied.number)
		texts := [6]*string{}
		for i := range texts {
			data, err := vm.part(i)
			if err != nil {
				return err
			}
			if i == 0 {
				input.Input = data
			} else if data != nil {
				texts[i] = Text(string(data))
			}
		}
		if texts[1] == nil || texts[2] == nil {
			return StatusNoPart
		}
		input.InvocationID, input.Key = *texts[1], *texts[2]
		input.Scope, input.LimitKey, input.IdempotencyKey = texts[3], texts[4], texts[5]
		input.Headers, err = vm.pairs(6)
		return err
	})
	return input, err
}

// SysSleep is a sleep until a time; its result is [Void].
func (vm *VM) SysSleep(name string, wakeUpMillis uint64) (Handle, error) {
	return vm.one(func(it *C.palqytun_replied) {
		C.pq_sleep(vm.handle, textAt(name), textSize(name), C.uint64_t(wakeUpMillis), it)
	}, named("name", name))
}

// SysStateGet reads the value of a state key: [Success], or [Void].
func (vm *VM) SysStateGet(key, name string) (Handle, error) {
	return vm.one(func(it *C.palqytun_replied) {
		C.pq_state_get(vm.handle, textAt(key), textSize(key), textAt(name), textSize(name), it)
	}, named("key", key), named("name", name))
}

// SysStateGetKeys reads the keys that have a value: [StateKeys].
func (vm *VM) SysStateGetKeys(name string) (Handle, error) {
	return vm.one(func(it *C.palqytun_replied) { C.pq_state_get_keys(vm.handle, textAt(name), textSize(name), it) }, named("name", name))
}

// EphemeralStateGet reads the value of a state key and leaves nothing of it in the journal; it returns the read's id. It needs version 8, and is
// refused in replay.
func (vm *VM) EphemeralStateGet(key string) (uint32, error) {
	id, err := vm.one(func(it *C.palqytun_replied) { C.pq_ephemeral_state_get(vm.handle, textAt(key), textSize(key), it) }, named("key", key))
	return uint32(id), err
}

// SysStateSet gives a state key a value. Replay doesn't compare a value that is unstable.
func (vm *VM) SysStateSet(key string, value []byte, name string, unstable bool) error {
	return vm.told(func(it *C.palqytun_replied) {
		C.pq_state_set(vm.handle, textAt(key), textSize(key), at(value), size(value), textAt(name), textSize(name), C.bool(unstable), it)
	}, nil, named("key", key), named("name", name), payload(unstable))
}

// SysStateClear takes a state key's value away.
func (vm *VM) SysStateClear(key, name string) error {
	return vm.told(func(it *C.palqytun_replied) {
		C.pq_state_clear(vm.handle, textAt(key), textSize(key), textAt(name), textSize(name), it)
	}, nil, named("key", key), named("name", name))
}

// SysStateClearAll takes each state key's value away.
func (vm *VM) SysStateClearAll(name string) error {
	return vm.told(func(it *C.palqytun_replied) { C.pq_state_clear_all(vm.handle, textAt(name), textSize(name), it) }, nil, named("name", name))
}

// SysCall calls another handler.
func (vm *VM) SysCall(target Target, input []byte, name string, unstable bool) (handles CallHandles, err error) {
	var lent room
	defer lent.free()
	to := lent.target(target)
	call := func(it *C.palqytun_replied) {
		C.pq_call(vm.handle, to, at(input), size(input), textAt(name), textSize(name), C.bool(unstable), it)
	}
	err = vm.told(call, func() error {
		handles = CallHandles{Handle(vm.replied.first), Handle(vm.replied.second)}
		return nil
	}, lent.with(named("name", name), payload(unstable))...)
	return handles, err
}

// SysCallWithDeadline calls another handler and sleeps until a time, in one call. Await the first that comes of the last two handles.
func (vm *VM) SysCallWithDeadline(target Target, input []byte, deadlineMillis uint64, name string, unstable bool) (handles DeadlineHandles, err error) {
	var lent room
	defer lent.free()
	to, until := lent.target(target), C.uint64_t(deadlineMillis)
	call := func(it *C.palqytun_replied) {
		C.pq_call_with_deadline(vm.handle, to, at(input), size(input), until, textAt(name), textSize(name), C.bool(unstable), it)
	}
	err = vm.told(call, func() error {
		handles = DeadlineHandles{Handle(vm.replied.first), Handle(vm.replied.second), Handle(vm.replied.third)}
		return nil
	}, lent.with(named("name", name), payload(unstable))...)
	return handles, err
}

// SysSend calls another handler, at once if the time is 0, and nobody waits for the result; it returns the handle of the invocation's id.
func (vm *VM) SysSend(target Target, input []byte, atMillis uint64, name string, unstable bool) (Handle, error) {
	var lent room
	defer lent.free()
	to := lent.target(target)
	return vm.one(func(it *C.palqytun_replied) {
		C.pq_send(vm.handle, to, at(input), size(input), C.uint64_t(atMillis), textAt(name), textSize(name), C.bool(unstable), it)
	}, lent.with(named("name", name), payload(unstable))...)
}

// SysCancelInvocation sends the cancel signal to another invocation.
func (vm *VM) SysCancelInvocation(invocationID string) error {
	return vm.told(func(it *C.palqytun_replied) {
		C.pq_cancel_invocation(vm.handle, textAt(invocationID), textSize(invocationID), it)
	}, nil, named("invocationID", invocationID))
}

// SysAttachInvocation attaches to another invocation; it returns the handle of its result.
func (vm *VM) SysAttachInvocation(target InvocationTarget) (Handle, error) {
	var lent room
	defer lent.free()
	to, err := lent.invocation(target)
	if err != nil {
		return 0, err
	}
	return vm.one(func(it *C.palqytun_replied) { C.pq_attach(vm.handle, to, it) }, lent.of...)
}

// SysGetInvocationOutput looks whether another invocation has an output; it returns the handle of it, or of [Void].
func (vm *VM) SysGetInvocationOutput(target InvocationTarget) (Handle, error) {
	var lent room
	defer lent.free()
	to, err := lent.invocation(target)
	if err != nil {
		return 0, err
	}
	return vm.one(func(it *C.palqytun_replied) { C.pq_get_output(vm.handle, to, it) }, lent.of...)
}

// SysAwakeable makes an awakeable.
func (vm *VM) SysAwakeable() (awakeable Awakeable, err error) {
	err = vm.told(func(it *C.palqytun_replied) { C.pq_awakeable(vm.handle, it) }, func() (err error) {
		awakeable.Handle = Handle(vm.replied.first)
		awakeable.ID, err = vm.text(0)
		return err
	})
	return awakeable, err
}

// SysCompleteAwakeable gives the awakeable of this id its result.
func (vm *VM) SysCompleteAwakeable(id string, value Given, unstable bool) error {
	var lent room
	defer lent.free()
	given := lent.given(value)
	return vm.told(func(it *C.palqytun_replied) {
		C.pq_complete_awakeable(vm.handle, textAt(id), textSize(id), given, C.bool(unstable), it)
	}, nil, lent.with(named("id", id), payload(unstable))...)
}

// CreateSignalHandle is a handle for the signal of this name.
func (vm *VM) CreateSignalHandle(name string) (Handle, error) {
	return vm.one(func(it *C.palqytun_replied) { C.pq_signal(vm.handle, textAt(name), textSize(name), it) }, named("name", name))
}

// SysCompleteSignal sends a named signal to another invocation.
func (vm *VM) SysCompleteSignal(invocationID, name string, value Given) error {
	var lent room
	defer lent.free()
	given := lent.given(value)
	return vm.told(func(it *C.palqytun_replied) {
		C.pq_complete_signal(vm.handle, textAt(invocationID), textSize(invocationID), textAt(name), textSize(name), given, it)
	}, nil, lent.with(named("invocationID", invocationID), named("name", name))...)
}

// SysGetPromise awaits a promise of the workflow; it returns the handle of its value.
func (vm *VM) SysGetPromise(key string) (Handle, error) {
	return vm.one(func(it *C.palqytun_replied) { C.pq_get_promise(vm.handle, textAt(key), textSize(key), it) }, named("key", key))
}

// SysPeekPromise looks whether a promise of the workflow is completed; it returns the handle of its value, or of [Void].
func (vm *VM) SysPeekPromise(key string) (Handle, error) {
	return vm.one(func(it *C.palqytun_replied) { C.pq_peek_promise(vm.handle, textAt(key), textSize(key), it) }, named("key", key))
}

// SysCompletePromise completes a promise of the workflow; it returns the handle of [Void], or of a failure if it had been completed before.
func (vm *VM) SysCompletePromise(key string, value Given, unstable bool) (Handle, error) {
	var lent room
	defer lent.free()
	given := lent.given(value)
	return vm.one(func(it *C.palqytun_replied) {
		C.pq_complete_promise(vm.handle, textAt(key), textSize(key), given, C.bool(unstable), it)
	}, lent.with(named("key", key), payload(unstable))...)
}

// SysRun calls a run, an effect whose result is recorded; an await says when to execute it.
func (vm *VM) SysRun(name string) (run RunHandle, err error) {
	err = vm.told(func(it *C.palqytun_replied) { C.pq_run(vm.handle, textAt(name), textSize(name), it) }, func() error {
		run = RunHandle{Handle(vm.replied.first), vm.replied.second == 1}
		return nil
	}, named("name", name))
	return run, err
}

// ProposeRunCompletion gives the result of a run that an await asked to execute.
func (vm *VM) ProposeRunCompletion(handle Handle, value Given, policy RetryPolicy) error {
	var lent room
	defer lent.free()
	given, under := lent.given(value), lent.policy(policy)
	return vm.told(func(it *C.palqytun_replied) { C.pq_propose(vm.handle, C.uint32_t(handle), given, under, it) }, nil, lent.of...)
}

// ProposeRetryableFailure says that a try of a run failed after this many milliseconds, and may be made again. The policy says whether the
// invocation fails to be tried again, pauses, or has the error as the run's result.
func (vm *VM) ProposeRetryableFailure(handle Handle, tookMillis uint64, of HandlerError, policy RetryPolicy) error {
	var lent room
	defer lent.free()
	given, under := lent.error(of), lent.policy(policy)
	return vm.handIn(of, func(it *C.palqytun_replied) {
		C.pq_propose_retryable(vm.handle, C.uint32_t(handle), C.uint64_t(tookMillis), given, under, it)
	}, lent.of...)
}

// SysWriteOutput is the handler's result.
func (vm *VM) SysWriteOutput(value Given, unstable bool) error {
	var lent room
	defer lent.free()
	given := lent.given(value)
	return vm.told(func(it *C.palqytun_replied) { C.pq_write_output(vm.handle, given, C.bool(unstable), it) }, nil, lent.with(payload(unstable))...)
}

// SysEnd ends the handler; its last call.
func (vm *VM) SysEnd() error {
	return vm.told(func(it *C.palqytun_replied) { C.pq_end(vm.handle, it) }, nil)
}

// ---- Replies

// told makes a typed call and reads its reply, while no other call is made. An error is about one of the arguments, if one is wrong.
func (vm *VM) told(call func(it *C.palqytun_replied), read func() error, of ...argument) error {
	vm.guard.Lock()
	defer vm.guard.Unlock()
	if err := vm.made(call, of...); err != nil || read == nil {
		return err
	}
	return read()
}

// handIn makes a call that hands in this error. If the VM fails by it, each later call is refused by it; a VM that had failed keeps its first error.
func (vm *VM) handIn(given HandlerError, call func(it *C.palqytun_replied), of ...argument) error {
	vm.guard.Lock()
	defer vm.guard.Unlock()
	if vm.hasFailed() {
		return vm.made(call, of...)
	}
	call(&vm.replied)
	replied := vm.replied
	isBy, err := vm.hasFailedBy(given)
	if err != nil {
		return err
	}
	vm.failedByHandedIn, vm.isRefused, vm.replied = isBy, vm.isRefused || isBy, replied
	return vm.outcome(call, of)
}

// hasFailedBy says, after a call that handed in this error, whether the VM has failed by it. It may also have failed by one of its own, which
// says something else: the version has no such behavior, nobody waits for the run, or no memory was found.
func (vm *VM) hasFailedBy(given HandlerError) (bool, error) {
	if Status(vm.replied.status) != StatusRefused {
		C.pq_is_ready(vm.handle, &vm.replied)
	}
	if !vm.isFailure() || uint16(vm.replied.number) != given.Code {
		return false, nil
	}
	message, err := vm.text(0)
	return message == given.Message, err
}

// hasFailed says whether the VM has failed: only then an error that it returns is of this kind.
func (vm *VM) hasFailed() bool {
	C.pq_is_ready(vm.handle, &vm.replied)
	return vm.isFailure()
}

// isFailure says whether the last reply is an error by which the VM has failed.
func (vm *VM) isFailure() bool {
	return Status(vm.replied.status) == StatusRefused && vm.replied.kind == C.PALQYTUN_ERROR
}

func (vm *VM) made(call func(it *C.palqytun_replied), of ...argument) error {
	call(&vm.replied)
	return vm.outcome(call, of)
}

// outcome is the error of the last reply, which is that of this call; nil if it is done.
func (vm *VM) outcome(call func(it *C.palqytun_replied), of []argument) error {
	switch Status(vm.replied.status) {
	case StatusDone:
		return nil
	case StatusRefused:
		return vm.refusal(call, of)
	}
	return refused(Status(vm.replied.status), of)
}

func (vm *VM) refusal(call func(it *C.palqytun_replied), of []argument) error {
	it := vm.replied
	texts := [3]string{}
	for i := range texts {
		text, err := vm.text(i)
		if err != nil {
			return err
		}
		texts[i] = text
	}
	found := &Error{Code: uint16(it.number), Message: texts[0], Stacktrace: texts[1], kind: uint32(it.kind)}
	found.handedIn = vm.failedByHandedIn && it.kind == C.PALQYTUN_ERROR
	if it.first == 1 {
		found.Related = &Related{Index: uint32(it.second), Message: MessageType(it.third), Name: texts[2]}
	}
	var retry C.palqytun_retry
	C.pq_next_retry(vm.handle, &retry)
	found.Behavior = ErrorBehavior(retry.behavior)
	if retry.has_delay {
		delay := uint64(retry.delay_millis)
		found.NextRetryDelayMillis = &delay
	}
	if it.kind == C.PALQYTUN_ERROR && !vm.isRefused {
		vm.isRefused = true
		vm.difference = vm.differs(found, call, of)
	}
	if it.kind == C.PALQYTUN_ERROR {
		found.Difference = vm.difference
	}
	return found
}

func (vm *VM) flag(call func(it *C.palqytun_replied)) (is bool, err error) {
	err = vm.told(call, func() error {
		is = vm.replied.first == 1
		return nil
	})
	return is, err
}

func (vm *VM) one(call func(it *C.palqytun_replied), of ...argument) (handle Handle, err error) {
	err = vm.told(call, func() error {
		handle = Handle(vm.replied.first)
		return nil
	}, of...)
	return handle, err
}

func (vm *VM) taken(call func(it *C.palqytun_replied)) (value Value, err error) {
	err = vm.told(call, func() (err error) {
		value, err = vm.value()
		return err
	})
	return value, err
}

func (vm *VM) value() (Value, error) {
	switch vm.replied.kind {
	case C.PALQYTUN_VOID:
		return Void{}, nil
	case C.PALQYTUN_VALUE:
		data, err := vm.part(0)
		return Success(data), err
	case C.PALQYTUN_INVOCATION_ID:
		id, err := vm.text(0)
		return InvocationID(id), err
	case C.PALQYTUN_FAILURE:
		message, err := vm.text(0)
		if err != nil {
			return nil, err
		}
		metadata, err := vm.pairs(1)
		return &Failure{uint16(vm.replied.number), message, metadata}, err
	case C.PALQYTUN_KEYS:
		keys := make(StateKeys, vm.replied.rows)
		for i := range keys {
			key, err := vm.text(i)
			if err != nil {
				return nil, err
			}
			keys[i] = key
		}
		return keys, nil
	}
	return nil, nil
}

// part is a part of the last reply, nil if there is none.
func (vm *VM) part(at int) ([]byte, error) {
	return written(func(out *C.uint8_t, most C.size_t, told *C.palqytun_told) {
		C.pq_part(vm.handle, C.size_t(at), out, most, told)
	})
}

func (vm *VM) text(at int) (string, error) {
	data, err := vm.part(at)
	return string(data), err
}

func (vm *VM) pairs(first int) ([]Pair, error) {
	return pairsOf(int(vm.replied.rows), first, vm.text)
}

func pairsOf(rows, first int, text func(at int) (string, error)) ([]Pair, error) {
	pairs := make([]Pair, rows)
	for i := range pairs {
		key, err := text(first + 2*i)
		if err != nil {
			return nil, err
		}
		value, err := text(first + 2*i + 1)
		if err != nil {
			return nil, err
		}
		pairs[i] = Pair{key, value}
	}
	return pairs, nil
}
