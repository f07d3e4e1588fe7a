package palqytun

// #include <stdlib.h>
// #include "palqytun_abi.h"
import "C"

import (
	"fmt"
	"math"
	"unsafe"
)

// pointer is where bytes stand, nil if there are none. They are lent for a call.
func pointer(data []byte) unsafe.Pointer {
	if len(data) == 0 {
		return nil
	}
	return unsafe.Pointer(&data[0])
}

func at(data []byte) *C.uint8_t { return (*C.uint8_t)(pointer(data)) }

func size(data []byte) C.size_t { return C.size_t(len(data)) }

// textAt is where a text stands, which is lent for a call.
func textAt(text string) *C.uint8_t {
	if text == "" {
		return nil
	}
	return *(**C.uint8_t)(unsafe.Pointer(&text))
}

func textSize(text string) C.size_t { return C.size_t(len(text)) }

// room is memory of C, since what a struct of C points to can't be Go's. It is freed once the call has returned. Beside it is what was lent, by names.
type room struct {
	blocks []unsafe.Pointer
	of     []argument
}

// with is what was lent, and these arguments.
func (it *room) with(more ...argument) []argument { return append(it.of, more...) }

func (it *room) free() {
	for _, block := range it.blocks {
		C.free(block)
	}
}

func (it *room) data(data []byte) C.palqytun_bytes {
	if len(data) == 0 {
		return C.palqytun_bytes{}
	}
	block := C.CBytes(data)
	it.blocks = append(it.blocks, block)
	return C.palqytun_bytes{at: (*C.uint8_t)(block), len: size(data)}
}

func (it *room) text(name, text string) C.palqytun_bytes {
	it.of = append(it.of, named(name, text))
	return it.data([]byte(text))
}

func (it *room) optional(name string, text *string) C.palqytun_optional {
	if text == nil {
		return C.palqytun_optional{}
	}
	return C.palqytun_optional{is_given: true, bytes: it.text(name, *text)}
}

func (it *room) pairs(name string, of []Pair) (*C.palqytun_pair, C.size_t) {
	if len(of) == 0 {
		return nil, 0
	}
	block := C.malloc(C.size_t(len(of)) * C.sizeof_palqytun_pair)
	it.blocks = append(it.blocks, block)
	made := unsafe.Slice((*C.palqytun_pair)(block), len(of))
	key, value := "a key of "+name, "a value of "+name
	for i, pair := range of {
		made[i] = C.palqytun_pair{key: it.text(key, pair.Key), value: it.text(value, pair.Value)}
	}
	return &made[0], C.size_t(len(of))
}

func (it *room) given(of Given) *C.palqytun_value {
	if of.Failure == nil {
		return &C.palqytun_value{bytes: it.data(of.Success)}
	}
	metadata, many := it.pairs("Failure.Metadata", of.Failure.Metadata)
	code, bytes := C.uint16_t(of.Failure.Code), it.text("Failure.Message", of.Failure.Message)
	return &C.palqytun_value{is_failure: true, code: code, bytes: bytes, metadata: metadata, metadata_len: many}
}

func (it *room) target(of Target) *C.palqytun_target {
	headers, many := it.pairs("Target.Headers", of.Headers)
	return &C.palqytun_target{
		service: it.text("Target.Service", of.Service), handler: it.text("Target.Handler", of.Handler),
		key: it.optional("Target.Key", of.Key), idempotency_key: it.optional("Target.IdempotencyKey", of.IdempotencyKey),
		scope: it.optional("Target.Scope", of.Scope), limit_key: it.optional("Target.LimitKey", of.LimitKey),
		headers: headers, headers_len: many,
	}
}

func (it *room) invocation(of InvocationTarget) (*C.palqytun_invocation, error) {
	made := &C.palqytun_invocation{}
	switch of := of.(type) {
	case InvocationID:
		made.kind, made.name = C.PALQYTUN_TARGET_INVOCATION_ID, it.text("InvocationID", string(of))
	case WorkflowID:
		made.kind, made.name = C.PALQYTUN_TARGET_WORKFLOW_ID, it.text("WorkflowID.Name", of.Name)
		made.key, made.scope = it.text("WorkflowID.Key", of.Key), it.optional("WorkflowID.Scope", of.Scope)
	case IdempotencyID:
		made.kind, made.name = C.PALQYTUN_TARGET_IDEMPOTENCY_ID, it.text("IdempotencyID.Service", of.Service)
		made.handler, made.key = it.text("IdempotencyID.Handler", of.Handler), it.text("IdempotencyID.IdempotencyKey", of.IdempotencyKey)
		made.service_key, made.scope = it.optional("IdempotencyID.ServiceKey", of.ServiceKey), it.optional("IdempotencyID.Scope", of.Scope)
	default:
		why := fmt.Sprintf("must be an InvocationID, a WorkflowID or an IdempotencyID, not %T", of)
		return nil, &ArgumentError{StatusBadPointer, "target", why}
	}
	return made, nil
}

func (it *room) error(of HandlerError) *C.palqytun_error {
	it.of = append(it.of, caseOf("HandlerError.Behavior", uint32(of.Behavior), len(namesErrorBehavior)))
	made := &C.palqytun_error{code: C.uint16_t(of.Code), behavior: C.uint32_t(of.Behavior)}
	made.message, made.stacktrace = it.text("HandlerError.Message", of.Message), it.text("HandlerError.Stacktrace", of.Stacktrace)
	if of.NextRetryDelayMillis != nil {
		made.has_delay, made.delay_millis = true, C.uint64_t(*of.NextRetryDelayMillis)
	}
	return made
}

func (it *room) command(of *RelatedCommand) *C.palqytun_command {
	if of == nil {
		return &C.palqytun_command{}
	}
	kind := bounded("RelatedCommand.Kind", uint32(of.Kind), 0, uint32(RelatedSpecific))
	it.of = append(it.of, kind, caseOf("RelatedCommand.Type", uint32(of.Type), len(namesCommandType)))
	made := &C.palqytun_command{kind: C.uint32_t(of.Kind), index: C.uint32_t(of.Index), _type: C.uint32_t(of.Type)}
	made.name = it.optional("RelatedCommand.Name", of.Name)
	return made
}

func (it *room) policy(of RetryPolicy) *C.palqytun_policy {
	it.of = append(it.of, bounded("RetryPolicy.Kind", uint32(of.Kind), 0, uint32(RetryExponential)))
	if of.Kind == RetryExponential {
		it.of = append(it.of, bounded("RetryPolicy.Denominator", of.Denominator, 1, math.MaxUint32))
	}
	made := &C.palqytun_policy{kind: C.uint32_t(of.Kind), initial_millis: C.uint64_t(of.InitialMillis), pauses: C.bool(of.Pauses)}
	made.numerator, made.denominator = C.uint32_t(of.Numerator), C.uint32_t(of.Denominator)
	if of.IntervalMillis != nil {
		made.has_interval, made.interval_millis = true, C.uint64_t(*of.IntervalMillis)
	}
	if of.MaxAttempts != nil {
		made.has_attempts, made.attempts = true, C.uint32_t(*of.MaxAttempts)
	}
	if of.MaxDurationMillis != nil {
		made.has_duration, made.duration_millis = true, C.uint64_t(*of.MaxDurationMillis)
	}
	return made
}

func optionsOf(of Options) *C.palqytun_options {
	return &C.palqytun_options{
		cancellation: C.uint32_t(of.ImplicitCancellation), checks: C.uint32_t(of.NonDeterministicChecks),
		awaiting: C.uint32_t(of.AwaitingOnPolicy), mismatch: C.uint32_t(of.JournalMismatchRetryBehavior),
		replay: C.uint32_t(of.JournalReplay), delivery: C.uint32_t(of.SignalDelivery), seed: C.uint64_t(of.FallbackRandomSeed),
	}
}

// casesOf is each option that names a case.
func casesOf(of Options) []argument {
	return []argument{
		caseOf("Options.ImplicitCancellation", uint32(of.ImplicitCancellation), len(namesImplicitCancellation)),
		caseOf("Options.NonDeterministicChecks", uint32(of.NonDeterministicChecks), len(namesNonDeterministicChecks)),
		caseOf("Options.AwaitingOnPolicy", uint32(of.AwaitingOnPolicy), len(namesAwaitingOnPolicy)),
		caseOf("Options.JournalMismatchRetryBehavior", uint32(of.JournalMismatchRetryBehavior), len(namesJournalMismatchRetryBehavior)),
		caseOf("Options.JournalReplay", uint32(of.JournalReplay), len(namesJournalReplay)),
		caseOf("Options.SignalDelivery", uint32(of.SignalDelivery), len(namesSignalDelivery)),
	}
}

// written is what a call writes to a buffer, whose need it tells; nil without an error if there is no such part.
func written(call func(out *C.uint8_t, most C.size_t, told *C.palqytun_told), of ...argument) ([]byte, error) {
	var told C.palqytun_told
	out := make([]byte, 128)
	for {
		call(at(out), size(out), &told)
		switch Status(told.status) {
		case StatusDone:
			return out[:told.len:told.len], nil
		case StatusNoRoom:
			out = make([]byte, told.len)
		case StatusNoPart:
			return nil, nil
		default:
			return nil, refused(Status(told.status), of)
		}
	}
}
