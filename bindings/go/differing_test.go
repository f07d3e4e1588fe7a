package palqytun

import (
	"errors"
	"strings"
	"testing"
)

const (
	adaLine   = `Call service_name="Greeter" handler_name="greet" parameter="Ada" invocation_id_notification_idx=1 result_completion_id=2`
	sleepLine = `Sleep wake_up_time=1000 result_completion_id=1`
)

// over is a VM that has its input, with these lines of frames behind it in the journal.
func over(options Options, lines ...string) *VM {
	vm := must(New(must(ContentType(7)), options))
	all := append([]string{`Start id="abc" debug_id="abc" known_entries=` + string(rune('1'+len(lines))), "Input"}, lines...)
	for _, line := range all {
		frame := must(FrameOf(line))
		must(0, vm.NotifyInput(frame))
		for i := range frame {
			frame[i] = 0xff // the caller's buffer is its own again
		}
	}
	must(vm.SysInput())
	return vm
}

func greets(vm *VM, parameter, name string, unstable bool) error {
	_, err := vm.SysCall(Target{Service: "Greeter", Handler: "greet"}, []byte(parameter), name, unstable)
	return err
}

// differenceOf is what an error of the VM says of the journal.
func differenceOf(t *testing.T, err error) *Difference {
	t.Helper()
	var found *Error
	if !errors.As(err, &found) {
		t.Fatalf("%#v", err)
	}
	return found.Difference
}

func TestACallWithAnotherArgument(t *testing.T) {
	vm := over(Options{}, adaLine)
	defer vm.Close()
	err := greets(vm, "Bob", "", false)
	it := differenceOf(t, err)
	if it.Index != 1 || it.Field != "parameter" || it.Recorded != `"Ada"` || it.Asked != `"Bob"` {
		t.Error(it)
	}
	if *it.RecordedType != CommandTypeCall || *it.AskedType != CommandTypeCall {
		t.Error(it)
	}
	text := `570 JournalMismatch: CommandMismatchError: command 1, Call, is recorded with parameter "Ada", and the call gives "Bob"`
	if err.Error() != text {
		t.Error(err)
	}
	var found *Error
	errors.As(err, &found)
	names := map[CommandType]string{CommandTypeCall: "ctx.Service"}
	if own := found.InWords(names); own != strings.Replace(text, ", Call,", ", ctx.Service,", 1) {
		t.Error(own)
	}
	if _, later := vm.SysSleep("", 1); later.Error() != text {
		t.Error(later)
	}
}

func TestADifferenceThatIsNotCompared(t *testing.T) {
	for _, it := range []struct {
		options  Options
		unstable bool
	}{{Options{}, true}, {Options{NonDeterministicChecks: NonDeterministicChecksPayloadChecksDisabled}, false}} {
		vm := over(it.options, adaLine+` name="n"`)
		found := differenceOf(t, greets(vm, "Bob", "m", it.unstable))
		if found.Field != "name" || found.Recorded != `"n"` || found.Asked != `"m"` {
			t.Error(found)
		}
		must(0, vm.Close())
	}
}

func TestIdsFollowThoseBefore(t *testing.T) {
	for last, wanted := range map[string][3]string{"3": {"parameter", `"Ada"`, `"Bob"`}, "7": {"parameter", `"Ada"`, `"Bob"`}} {
		vm := over(Options{}, sleepLine, strings.NewReplacer("=1 r", "=2 r", "id=2", "id="+last).Replace(adaLine))
		must(vm.SysSleep("", 1000))
		if it := differenceOf(t, greets(vm, "Bob", "", false)); [3]string{it.Field, it.Recorded, it.Asked} != wanted {
			t.Error(it)
		}
		must(0, vm.Close())
	}
	vm := over(Options{}, sleepLine, strings.NewReplacer("=1 r", "=2 r", "id=2", "id=7").Replace(adaLine))
	defer vm.Close()
	must(vm.SysSleep("", 1000))
	it := differenceOf(t, greets(vm, "Ada", "", false))
	if [3]string{it.Field, it.Recorded, it.Asked} != [3]string{"result_completion_id", "7", "3"} {
		t.Error(it)
	}
}

func TestAnotherCommandAndNone(t *testing.T) {
	vm := over(Options{}, sleepLine)
	defer vm.Close()
	_, err := vm.SysRun("charge")
	it := differenceOf(t, err)
	if it.Field != "type" || it.Recorded != "Sleep" || it.Asked != "Run" || it.String() != "command 1 is recorded as Sleep, and the call makes Run" {
		t.Error(it)
	}
	waits := over(Options{}, sleepLine)
	defer waits.Close()
	_, err = waits.DoAwait(must(waits.CreateSignalHandle("go")))
	if it := differenceOf(t, err); it.AskedType != nil || it.String() != "command 1 is recorded as Sleep, and the code awaits what hasn't come" {
		t.Error(it)
	}
}

func TestWhatIsDoneAfterAnError(t *testing.T) {
	delay := uint64(500)
	vm := begun()
	defer vm.Close()
	must(0, vm.NotifyError(HandlerError{Code: 418, Message: "no tea", Behavior: ErrorBehaviorPause, NextRetryDelayMillis: &delay}, nil))
	_, err := vm.SysRun("charge")
	var found *Error
	if !errors.As(err, &found) || found.Behavior != ErrorBehaviorPause || found.NextRetryDelayMillis == nil || *found.NextRetryDelayMillis != 500 {
		t.Error(err)
	}
	fails := over(Options{JournalMismatchRetryBehavior: JournalMismatchRetryBehaviorFailTerminally}, sleepLine)
	defer fails.Close()
	_, err = fails.SysRun("charge")
	if !errors.As(err, &found) || found.Behavior != ErrorBehaviorFail || found.NextRetryDelayMillis != nil {
		t.Error(err)
	}
}

func TestWithoutADifference(t *testing.T) {
	vm := over(Options{}, sleepLine)
	defer vm.Close()
	must(0, vm.NotifyError(HandlerError{Code: CodeJournalMismatch, Message: "CommandTypeMismatchError"}, nil))
	_, err := vm.SysRun("charge")
	if it := differenceOf(t, err); it != nil {
		t.Error(it)
	}
	ended := begun()
	defer ended.Close()
	must(0, ended.SysEnd())
	_, err = ended.SysRun("charge")
	if it := differenceOf(t, err); it != nil {
		t.Error(it)
	}
}

func TestALongValueIsShortened(t *testing.T) {
	vm := over(Options{}, `Output result=value("a")`)
	defer vm.Close()
	it := differenceOf(t, vm.SysWriteOutput(Given{Success: append([]byte("\"\xff"), make([]byte, 1<<20)...)}, false))
	if it.Recorded != `value("a")` || len(it.Asked) != 122 || !strings.HasPrefix(it.Asked, `value("\x22\xff\x00`) || !strings.HasSuffix(it.Asked, "..") {
		t.Error(it)
	}
}
