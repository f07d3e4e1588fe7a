package palqytun

import (
	"bytes"
	"errors"
	"fmt"
	"log"
	"os"
	"runtime"
	"strings"
	"sync"
	"testing"
	"time"
)

func must[T any](it T, err error) T {
	if err != nil {
		panic(err)
	}
	return it
}

// begun is a VM of version 7 that has its input.
func begun() *VM {
	vm := must(New(must(ContentType(7)), Options{}))
	for _, line := range []string{`Start id="abc" debug_id="abc" known_entries=1`, `Input value="Till"`} {
		must(0, vm.NotifyInput(must(FrameOf(line))))
	}
	if input := must(vm.SysInput()); string(input.Input) != "Till" || input.InvocationID == "" || input.Scope != nil {
		panic(input)
	}
	return vm
}

func wants(t *testing.T, err, wanted error) {
	t.Helper()
	if !errors.Is(err, wanted) {
		t.Errorf("%v, not %v", err, wanted)
	}
}

func TestWhatWasClosed(t *testing.T) {
	vm := begun()
	must(0, vm.Close())
	must(0, vm.Close())
	if fmt.Sprint(vm) != "VM(NoSession: the VM was closed)" {
		t.Error(vm)
	}
	_, err := vm.SysSleep("", 1)
	wants(t, err, StatusNoSession)
	wants(t, vm.NotifyInput(nil), StatusNoSession)
	_, err = vm.TakeOutput()
	wants(t, err, StatusNoSession)
	journal := must(NewJournal())
	must(0, journal.Close())
	must(0, journal.Close())
	wants(t, journal.Keep(), StatusNoJournal)
	if text := err.Error(); text != "NoSession: the VM was closed" {
		t.Error(text)
	}
}

func TestALineForALog(t *testing.T) {
	vm := begun()
	defer vm.Close()
	if said := fmt.Sprint(vm); said != "VM(V7 abc Processing, last command 0)" {
		t.Error(said)
	}
}

func TestGoroutinesShareAVM(t *testing.T) {
	vm := begun()
	defer vm.Close()
	var all sync.WaitGroup
	for i := 0; i < 8; i++ {
		all.Add(1)
		go func() {
			defer all.Done()
			for j := 0; j < 200; j++ {
				must(vm.SysSleep("nap", 1000))
				must(vm.State())
				must(vm.TakeOutput())
				if must(vm.SysAwakeable()).ID == "" {
					panic("an awakeable has no id")
				}
			}
		}()
	}
	all.Wait()
	if index := must(vm.LastCommandIndex()); index != 1600 {
		t.Error(index)
	}
}

func TestAVMThatIsClosedWhileItIsUsed(t *testing.T) {
	for i := 0; i < 50; i++ {
		vm := begun()
		done := make(chan error)
		go func() {
			for {
				if _, err := vm.SysSleep("", 1); err != nil {
					done <- err
					return
				}
			}
		}()
		must(0, vm.Close())
		wants(t, <-done, StatusNoSession)
	}
}

func TestAHandleOfAnotherVM(t *testing.T) {
	one, other := begun(), begun()
	defer one.Close()
	defer other.Close()
	var handle Handle
	for i := 0; i < 5; i++ {
		handle = must(one.CreateSignalHandle("go"))
	}
	if must(other.IsCompleted(handle)) || must(other.TakeNotification(handle)) != nil {
		t.Error("another VM's handle has a result")
	}
	if it := must(other.DoAwait(handle)); it.Kind != WaitingExternalProgress || !it.WaitingInput {
		t.Error(it)
	}
}

func TestWhatNamesNoCase(t *testing.T) {
	vm := begun()
	defer vm.Close()
	_, err := New(must(ContentType(7)), Options{SignalDelivery: 7})
	wants(t, err, StatusBadNumber)
	wants(t, vm.NotifyError(HandlerError{Code: 418, Behavior: 9}, nil), StatusBadNumber)
	wants(t, vm.NotifyError(HandlerError{Code: 418}, &RelatedCommand{Kind: 9}), StatusBadNumber)
	wants(t, vm.ProposeRetryableFailure(17, 1, HandlerError{}, RetryPolicy{Kind: RetryExponential}), StatusBadNumber)
	_, err = vm.SysSleep("\xff", 1)
	wants(t, err, StatusBadText)
	_, err = vm.SysAttachInvocation(nil)
	wants(t, err, StatusBadPointer)
	if it := must(vm.DoAwait(AllCompleted())); it.Kind != AnyCompleted {
		t.Error(it)
	}
	if state := must(vm.State()); state != StateProcessing {
		t.Error(state)
	}
}

// says wants an error with this text.
func says(t *testing.T, err error, text string) {
	t.Helper()
	if err == nil || err.Error() != text {
		t.Errorf("%v, not %v", err, text)
	}
}

func TestAnArgumentThatIsRefusedIsNamed(t *testing.T) {
	vm := begun()
	defer vm.Close()
	bad, of := "k\xc3\xffy", Text("\xe2\x82")
	_, err := vm.SysStateGet("key", bad)
	says(t, err, "BadText: name must be UTF-8: at byte 1 stands 0xc3")
	says(t, vm.SysStateSet(bad, nil, "", false), "BadText: key must be UTF-8: at byte 1 stands 0xc3")
	_, err = vm.CreateSignalHandle(bad)
	says(t, err, "BadText: name must be UTF-8: at byte 1 stands 0xc3")
	_, err = vm.SysCall(Target{Service: "S", Handler: "h", Headers: []Pair{{"a", "b"}, {"a", bad}}}, nil, "", false)
	says(t, err, "BadText: a value of Target.Headers must be UTF-8: at byte 1 stands 0xc3")
	_, err = vm.SysSend(Target{Service: "S", Handler: "h", Key: of}, nil, 0, "", false)
	says(t, err, "BadText: Target.Key must be UTF-8: at byte 0 stands 0xe2")
	says(t, vm.SysWriteOutput(Given{Failure: &Failure{Message: bad}}, false), "BadText: Failure.Message must be UTF-8: at byte 1 stands 0xc3")
	says(t, vm.NotifyError(HandlerError{Stacktrace: bad}, nil), "BadText: HandlerError.Stacktrace must be UTF-8: at byte 1 stands 0xc3")
	_, err = vm.SysAttachInvocation(IdempotencyID{Service: "S", Handler: "h", IdempotencyKey: "i", Scope: of})
	says(t, err, "BadText: IdempotencyID.Scope must be UTF-8: at byte 0 stands 0xe2")
	says(t, vm.SysCancelInvocation(bad), "BadText: invocationID must be UTF-8: at byte 1 stands 0xc3")
	_, err = FrameOf(bad)
	says(t, err, "BadText: line must be UTF-8: at byte 1 stands 0xc3")
	_, err = NamedSignal(bad, must(ValueFrame(nil)))
	says(t, err, "BadText: name must be UTF-8: at byte 1 stands 0xc3")

	_, err = New(must(ContentType(7)), Options{SignalDelivery: 7})
	says(t, err, "BadNumber: Options.SignalDelivery must be from 0 to 1, not 7")
	says(t, vm.NotifyError(HandlerError{Code: 418, Behavior: 9}, nil), "BadNumber: HandlerError.Behavior must be from 0 to 2, not 9")
	says(t, vm.NotifyError(HandlerError{}, &RelatedCommand{Kind: 9}), "BadNumber: RelatedCommand.Kind must be from 0 to 3, not 9")
	says(t, vm.NotifyError(HandlerError{}, &RelatedCommand{Kind: RelatedNext, Type: 19}), "BadNumber: RelatedCommand.Type must be from 0 to 18, not 19")
	run := must(vm.SysRun("charge"))
	under := RetryPolicy{Kind: RetryExponential, Numerator: 2}
	err = vm.ProposeRetryableFailure(run.Handle, 1, HandlerError{}, under)
	says(t, err, "BadNumber: RetryPolicy.Denominator must be from 1 to 4294967295, not 0")
	err = vm.ProposeRunCompletion(run.Handle, Given{}, RetryPolicy{Kind: 4})
	says(t, err, "BadNumber: RetryPolicy.Kind must be from 0 to 3, not 4")
	journal := must(NewJournal())
	defer journal.Close()
	for _, version := range []int{-1, 4, 9, 1<<32 + 7} {
		_, err = journal.Store(version, nil)
		says(t, err, fmt.Sprintf("BadNumber: version must be from 5 to 8, not %d", version))
	}

	_, err = vm.DoAwait(nil)
	says(t, err, "BadTree: future must be a Handle or what FirstCompleted and the others make, not nil")
	_, err = vm.DoAwait(AllCompleted(run.Handle, FirstCompleted(nil)))
	says(t, err, "BadTree: a child of a child of future must be a Handle or what FirstCompleted and the others make, not nil")
	for it, found := range map[InvocationTarget]string{nil: "<nil>", &WorkflowID{}: "*palqytun.WorkflowID"} {
		_, err = vm.SysGetInvocationOutput(it)
		says(t, err, "BadPointer: target must be an InvocationID, a WorkflowID or an IdempotencyID, not "+found)
	}
	if index := must(vm.LastCommandIndex()); index != 1 {
		t.Error(index)
	}
}

func TestTheContentTypeOfAVersion(t *testing.T) {
	if found := must(ContentType(8)); found != "application/vnd.restate.invocation.v8" {
		t.Error(found)
	}
	for version, found := range map[int]string{4: "4", 9: "9", -1: "-1", 1<<32 + 7: "4294967303"} {
		_, err := ContentType(version)
		says(t, err, "BadNumber: version must be from 5 to 8, not "+found)
	}
}

func TestTheTextsOfErrors(t *testing.T) {
	_, err := New("text/plain", Options{})
	says(t, err, "415 UnsupportedMediaType: BadContentType (the content type must be application/vnd.restate.invocation.vN with N from 5 to 8)")
	vm, own := begun(), begun()
	defer vm.Close()
	defer own.Close()
	must(0, vm.SysEnd())
	_, err = vm.SysSleep("", 1)
	says(t, err, `598 Closed: ClosedError (command 1: SleepCommand "")`)
	must(0, own.NotifyError(HandlerError{Code: 570, Message: "no tea"}, nil))
	says(t, own.SysEnd(), "570 no tea")
	says(t, &Error{Code: CodeInternal}, "500 Internal: no memory was found")
}

func TestErrorsHaveAllTheirFields(t *testing.T) {
	vm := must(New(must(ContentType(7)), Options{}))
	defer vm.Close()
	lines := []string{
		`Start id="abc" debug_id="abc" known_entries=2`, `Input value="Till"`, `Sleep wake_up_time=1000 result_completion_id=1 name="nap"`,
	}
	for _, line := range lines {
		must(0, vm.NotifyInput(must(FrameOf(line))))
	}
	must(vm.SysInput())
	_, err := vm.SysCall(Target{Service: "Greeter", Handler: "greet", Key: Text("Ada")}, []byte("Ada"), "call", false)
	wants(t, err, ErrJournalMismatch)
	var refused *Error
	if !errors.As(err, &refused) || refused.Code != CodeJournalMismatch || refused.Related == nil || refused.Related.Name != "call" {
		t.Errorf("%#v", refused)
	}
	own := begun()
	defer own.Close()
	must(0, own.NotifyError(HandlerError{Code: 418, Message: "no tea", Stacktrace: "at 1"}, &RelatedCommand{Kind: RelatedLast}))
	err = own.SysEnd()
	if !errors.As(err, &refused) || refused.Code != 418 || refused.Message != "no tea" || refused.Stacktrace != "at 1" {
		t.Errorf("%#v", refused)
	}
}

func TestSuspensionAndEnd(t *testing.T) {
	vm := begun()
	defer vm.Close()
	slept := must(vm.SysSleep("nap", 1000))
	must(0, vm.NotifyInputClosed())
	_, err := vm.DoAwait(FirstCompleted(slept, CancelHandle))
	wants(t, err, ErrSuspended)
	_, err = vm.IsReadyToExecute()
	wants(t, err, ErrClosed)
	if errors.Is(err, ErrSuspended) || errors.Is(err, ErrNoMemory) {
		t.Error(err)
	}
	other := begun()
	defer other.Close()
	must(0, other.SysWriteOutput(Given{Success: []byte("done")}, false))
	must(0, other.SysEnd())
	_, err = other.SysSleep("", 1)
	wants(t, err, ErrClosed)
}

func TestAHandlersErrorIsNoneOfTheVMsOwn(t *testing.T) {
	for _, given := range []HandlerError{{Code: CodeSuspended, Message: "SUSPENDED"}, {Code: CodeInternal}} {
		vm := begun()
		must(0, vm.NotifyError(given, nil))
		_, err := vm.DoAwait(CancelHandle)
		var found *Error
		if !errors.As(err, &found) || found.Code != given.Code || found.Message != given.Message {
			t.Errorf("%#v", err)
		}
		if errors.Is(err, ErrSuspended) || errors.Is(err, ErrNoMemory) {
			t.Error(err)
		}
		must(0, vm.Close())
	}
	wants(t, &Error{Code: CodeInternal, kind: 23}, ErrNoMemory) // PALQYTUN_OUT_OF_MEMORY, since a test of Go has no names of C
	wants(t, StatusNoMemory, ErrNoMemory)
}

// A call that hands an error in and finds no memory isn't refused by that error.
func TestACallThatHandsInFindsNoMemory(t *testing.T) {
	vm := begun()
	defer vm.Close()
	vm.failedByHandedIn = true
	vm.replied.kind, vm.replied.number = 23, CodeInternal // PALQYTUN_OUT_OF_MEMORY
	wants(t, vm.refusal(nil, nil), ErrNoMemory)
}

var handedIn = []HandlerError{
	{Code: CodeJournalMismatch, Message: "CommandTypeMismatchError"},
	{Code: CodeClosed, Message: "ClosedError"},
	{Code: CodeSuspended, Message: "SUSPENDED"},
	{Code: CodeInternal},
}

// isPlain wants an error with this code that is none of the VM's own.
func isPlain(t *testing.T, err error, code uint16) {
	t.Helper()
	var found *Error
	if !errors.As(err, &found) || found.Code != code {
		t.Errorf("%#v", err)
	}
	for _, own := range []error{ErrSuspended, ErrClosed, ErrJournalMismatch, ErrNoMemory} {
		if errors.Is(err, own) {
			t.Errorf("%v is %v", err, own)
		}
	}
}

func TestAnErrorThatIsHandedInIsPlain(t *testing.T) {
	for _, given := range handedIn {
		vm, ended, ran := begun(), begun(), begun()
		must(0, vm.NotifyError(given, nil))
		must(0, vm.NotifyError(HandlerError{Code: 418}, nil)) // it keeps its first error
		must(0, ended.SysEnd())
		must(ended.State())
		must(0, ended.NotifyError(given, nil))
		run := must(ran.SysRun("charge"))
		must(ran.DoAwait(run.Handle))
		isPlain(t, ran.ProposeRetryableFailure(run.Handle, 1, given, RetryPolicy{}), given.Code)
		for _, it := range []*VM{vm, ended, ran} {
			_, err := it.SysSleep("", 1)
			isPlain(t, err, given.Code)
			isPlain(t, it.SysEnd(), given.Code)
			must(0, it.Close())
		}
	}
}

func TestAnErrorAfterAFailureIsNotHandedIn(t *testing.T) {
	vm := begun()
	defer vm.Close()
	must(0, vm.SysEnd())
	_, err := vm.SysSleep("", 1)
	wants(t, err, ErrClosed)
	must(0, vm.NotifyError(HandlerError{Code: CodeClosed, Message: "ClosedError"}, nil))
	_, err = vm.SysSleep("", 1)
	wants(t, err, ErrClosed)
}

func TestAFailureThatIsTheResultOfARunIsNotHandedIn(t *testing.T) {
	vm := begun()
	defer vm.Close()
	run := must(vm.SysRun("charge"))
	must(vm.DoAwait(run.Handle))
	must(0, vm.ProposeRetryableFailure(run.Handle, 1, HandlerError{Code: CodeClosed}, RetryPolicy{Kind: RetryNever}))
	wants(t, vm.NotifyError(HandlerError{Code: CodeClosed, Behavior: 9}, nil), StatusBadNumber)
	must(0, vm.SysEnd())
	_, err := vm.IsReadyToExecute()
	wants(t, err, ErrClosed)
	if errors.Is(err, ErrNoMemory) {
		t.Error(err)
	}
	_, err = vm.SysSleep("", 1)
	wants(t, err, ErrClosed)
}

// Errors of the VM's own by which a call that hands one in may fail: the version has no such behavior, and nobody waits for the run.
func TestAnOwnErrorOfACallThatHandsInIsOwn(t *testing.T) {
	for _, code := range []uint16{418, CodeInternal, CodeUnsupportedFeature} {
		given := HandlerError{Code: code, Message: "mine", Behavior: ErrorBehaviorPause}
		old := must(New(must(ContentType(6)), Options{}))
		must(0, old.NotifyError(given, nil))
		says(t, old.SysEnd(), "573 UnsupportedFeature: UnsupportedFeatureForNegotiatedVersion")
		must(0, old.Close())
		vm := begun()
		says(t, vm.ProposeRetryableFailure(99, 1, given, RetryPolicy{}), "500 Internal: no pending run")
		says(t, vm.SysEnd(), "500 Internal: no pending run")
		must(0, vm.Close())
	}
}

func TestAJournalAndItsEffects(t *testing.T) {
	input, sleep := must(FrameOf(`Input value="Till"`)), must(FrameOf("Sleep wake_up_time=1000 result_completion_id=1"))
	journal := must(NewJournal(input, sleep))
	defer journal.Close()
	slept := must(FrameOf("Notification id=completion(1) result=void"))
	if row := must(journal.Arrive(slept)); row.Completes == nil || *row.Completes != 1 || row.Message != MessageTypeNotification {
		t.Error(row)
	}
	must(0, journal.Keep())
	_, err := journal.Arrive(slept)
	wants(t, err, StatusSecondCompletion)
	run := append(must(FrameOf(`Run name="a" result_completion_id=2`)), must(FrameOf(`ProposeRunCompletion id=2 result=value("x")`))...)
	stored := must(journal.Store(7, run))
	if len(stored.Rows) != 2 || *stored.Rows[1].Completes != 2 || len(stored.Feed) == 0 {
		t.Error(stored)
	}
	effect := must(stored.Rows[0].Effect())
	if effect.Type != MessageTypeRunCommand || effect.ID != 2 || must(effect.Text(0)) != "a" {
		t.Error(effect)
	}
	must(0, journal.Undo())
	if many := must(journal.Entries()); many != 3 {
		t.Error(many)
	}
	_, err = journal.Store(4, nil)
	wants(t, err, StatusBadNumber)
}

func TestFrames(t *testing.T) {
	completed := must(Completion(3, must(FrameOf(`Output result=value("Till")`))))
	if line := must(LineOf(completed)); line != `Notification id=completion(3) result=value("Till")` {
		t.Error(line)
	}
	suspension := must(FrameOf("Suspension future=(kind=FirstCompleted completions=[3])"))
	if must(IsAwake(suspension, nil)) || !must(IsAwake(suspension, completed)) {
		t.Error("awake too early, or not at all")
	}
	value := must(ValueFrame([]byte("Till")))
	if line := must(LineOf(must(NamedSignal("go", value)))); !strings.Contains(line, `name("go")`) {
		t.Error(line)
	}
	_, err := LineOf([]byte("x"))
	wants(t, err, StatusNotAFrame)
	_, err = Signal(17, must(FrameOf("End")))
	wants(t, err, StatusNoResult)
}

// said is what the log says while a function runs. It is shared with finalizers.
type said struct {
	guard sync.Mutex
	text  bytes.Buffer
}

func (it *said) Write(data []byte) (int, error) {
	it.guard.Lock()
	defer it.guard.Unlock()
	return it.text.Write(data)
}

func (it *said) has(part string) bool {
	it.guard.Lock()
	defer it.guard.Unlock()
	return strings.Contains(it.text.String(), part)
}

func TestGarbageThatWasNotClosedIsSaid(t *testing.T) {
	heard := &said{}
	log.SetOutput(heard)
	defer log.SetOutput(os.Stderr)
	begun()
	for i := 0; i < 600 && !heard.has("a VM became garbage and was not closed"); i++ {
		runtime.GC()
		time.Sleep(100 * time.Millisecond)
	}
	if !heard.has("a VM became garbage and was not closed") {
		t.Error("nothing was said for a minute")
	}
}
