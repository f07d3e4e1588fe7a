package palqytun

// #include "palqytun_abi.h"
import "C"

import (
	"errors"
	"fmt"
	"strings"
)

// What an [*Error] may be, for errors.Is. One that was handed in, by [VM.NotifyError] or [VM.ProposeRetryableFailure], is none of these, with any
// code.
var (
	// ErrSuspended: the invocation is suspended, since what is awaited can't come in this attempt.
	ErrSuspended = errors.New("the invocation is suspended")
	// ErrClosed: the handler has ended, so no call comes after.
	ErrClosed = errors.New("the handler has ended")
	// ErrJournalMismatch: the handler makes another call than the journal has recorded.
	ErrJournalMismatch = errors.New("the handler makes another call than the journal has recorded")
	// ErrNoMemory: a call that changes nothing found no memory, and may be made again. [StatusNoMemory] is one too: the call wasn't made, or the VM
	// has failed since it found no memory.
	ErrNoMemory = errors.New("no memory was found")
)

// Error is what the VM refuses a call by. It has failed, or is suspended or closed, and returns the same from each later call; or it is an
// [ErrNoMemory].
type Error struct {
	// Code is a Code constant of this package, or that of the handler's own error.
	Code       uint16
	Message    string
	Stacktrace string
	// Related is the command that it relates to, or nil.
	Related *Related
	// Behavior is what is done after it, and NextRetryDelayMillis the delay of the next try, or nil.
	Behavior             ErrorBehavior
	NextRetryDelayMillis *uint64
	// Difference says in what the call isn't as the journal has it, if the error is about that and the journal was fed to this VM; else nil.
	Difference *Difference
	// The kind of the reply, by which a suspension isn't an error with the same code that was handed in.
	kind uint32
	// It was handed in, so its code says nothing of the VM.
	handedIn bool
}

// Related is a command that an error relates to.
type Related struct {
	Index   uint32
	Message MessageType
	Name    string
}

// namesOfCodes has the names of the codes of the VM's own errors.
var namesOfCodes = map[uint16]string{
	CodeBadRequest:           "BadRequest",
	CodeUnsupportedMediaType: "UnsupportedMediaType",
	CodeInternal:             "Internal",
	CodeJournalMismatch:      "JournalMismatch",
	CodeProtocolViolation:    "ProtocolViolation",
	CodeUnsupportedFeature:   "UnsupportedFeature",
	CodeClosed:               "Closed",
	CodeSuspended:            "Suspended",
}

// Error is the code, its name if the error is the VM's own, the message, and in what the call isn't as recorded or the command that it relates to.
func (e *Error) Error() string { return e.InWords(nil) }

// InWords is the same by an SDK's own names of commands. One that isn't there has its own.
func (e *Error) InWords(names map[CommandType]string) string {
	text := fmt.Sprint(e.Code)
	if name := namesOfCodes[e.Code]; name != "" && !e.handedIn && !strings.EqualFold(name, strings.ReplaceAll(e.Message, "_", "")) {
		text += " " + name + ":"
	}
	text += " " + e.Message
	if e.has(CodeInternal) && e.Message == "" {
		text += ErrNoMemory.Error()
	}
	if e.has(CodeUnsupportedMediaType) {
		text += fmt.Sprintf(" (the content type must be application/vnd.restate.invocation.vN with N from %d to %d)", MinimumVersion, MaximumVersion)
	}
	if it := e.Difference; it != nil {
		return text + ": " + it.InWords(names)
	}
	if it := e.Related; it != nil {
		text += fmt.Sprintf(" (command %d: %v %q)", it.Index, it.Message, it.Name)
	}
	return text
}

// Is says whether the error is this one, for errors.Is.
func (e *Error) Is(target error) bool {
	switch target {
	case ErrSuspended:
		return e.kind == C.PALQYTUN_SUSPENDED
	case ErrClosed:
		return e.has(CodeClosed)
	case ErrJournalMismatch:
		return e.has(CodeJournalMismatch)
	case ErrNoMemory:
		return e.kind == C.PALQYTUN_OUT_OF_MEMORY
	}
	return false
}

// has says whether it is an error of the VM's own, and has the code.
func (e *Error) has(code uint16) bool { return e.Code == code && !e.handedIn }

// Error says why a call wasn't made.
func (it Status) Error() string {
	return fmt.Sprintf("%v: %s", it.String(), textsOfStatus[it])
}

// Is says whether the status is this error, for errors.Is.
func (it Status) Is(target error) bool {
	return target == ErrNoMemory && it == StatusNoMemory
}

// failure is the error of a status, nil if it is done.
func failure(status uint32) error {
	if Status(status) == StatusDone {
		return nil
	}
	return Status(status)
}
