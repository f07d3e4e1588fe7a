package palqytun

import "fmt"

// Handle is the number under which a result comes.
type Handle uint32

// CancelHandle is the handle of the cancel signal, which a handler may await if [ImplicitCancellationDisabled].
const CancelHandle Handle = 1

// ContentType is that of a version, from [MinimumVersion] to [MaximumVersion]; another one is an [*ArgumentError].
func ContentType(version int) (string, error) {
	if err := badVersion(version); err != nil {
		return "", err
	}
	return fmt.Sprintf("application/vnd.restate.invocation.v%d", version), nil
}

// badVersion is the error of a version that no VM has.
func badVersion(version int) error {
	if MinimumVersion <= version && version <= MaximumVersion {
		return nil
	}
	why := fmt.Sprintf("must be from %d to %d, not %d", MinimumVersion, MaximumVersion, version)
	return &ArgumentError{StatusBadNumber, "version", why}
}

// Text is a text that is there, for what may be absent.
func Text(text string) *string { return &text }

// Options are what a VM is asked to do in another way. The zero value has the defaults.
type Options struct {
	ImplicitCancellation         ImplicitCancellation
	NonDeterministicChecks       NonDeterministicChecks
	AwaitingOnPolicy             AwaitingOnPolicy
	JournalMismatchRetryBehavior JournalMismatchRetryBehavior
	JournalReplay                JournalReplay
	SignalDelivery               SignalDelivery
	// FallbackRandomSeed is the handler's random seed, if the version hands none out.
	FallbackRandomSeed uint64
}

// Pair is a header, or a pair of metadata.
type Pair struct {
	Key, Value string
}

// Target is the handler that is called, and how.
type Target struct {
	Service, Handler                     string
	Key, IdempotencyKey, Scope, LimitKey *string
	Headers                              []Pair
}

// Failure is a terminal failure: a result, or what a handler ends with.
type Failure struct {
	Code     uint16
	Message  string
	Metadata []Pair
}

// Given is a value that a handler gives: bytes, or a failure if there is one.
type Given struct {
	Success []byte
	Failure *Failure
}

// InvocationTarget is an invocation that is attached to: an [InvocationID], a [WorkflowID] or an [IdempotencyID].
type InvocationTarget interface{ isTarget() }

// WorkflowID names a workflow.
type WorkflowID struct {
	Name, Key string
	Scope     *string
}

// IdempotencyID names an invocation by its idempotency key.
type IdempotencyID struct {
	Service, Handler, IdempotencyKey string
	ServiceKey, Scope                *string
}

func (InvocationID) isTarget()  {}
func (WorkflowID) isTarget()    {}
func (IdempotencyID) isTarget() {}

// HandlerError is an error of the handler's own.
type HandlerError struct {
	Code                uint16
	Message, Stacktrace string
	Behavior            ErrorBehavior
	// NextRetryDelayMillis is the delay of the next try, or nil.
	NextRetryDelayMillis *uint64
}

// RelatedCommand is the command that a handler's error relates to.
type RelatedCommand struct {
	// Kind says which: RelatedLast, RelatedNext or RelatedSpecific.
	Kind  RelatedKind
	Index uint32
	Type  CommandType
	Name  *string
}

// RelatedKind says which command an error relates to.
type RelatedKind uint32

// The last command, the next one, or that of an index.
const (
	RelatedLast     RelatedKind = 1
	RelatedNext     RelatedKind = 2
	RelatedSpecific RelatedKind = 3
)

// RetryPolicy says when a run that failed is tried again. The zero value is as often as it fails.
type RetryPolicy struct {
	Kind PolicyKind
	// InitialMillis is the first delay that grows, by Numerator over Denominator, which isn't 0.
	InitialMillis          uint64
	Numerator, Denominator uint32
	// IntervalMillis is the delay, and of a growing one the longest.
	IntervalMillis *uint64
	// MaxAttempts and MaxDurationMillis are the bounds. At one the invocation pauses, or the error is the run's result.
	MaxAttempts       *uint32
	MaxDurationMillis *uint64
	Pauses            bool
}

// PolicyKind is always, never, after the same delay each time, or after a growing delay.
type PolicyKind uint32

// The kinds of policies.
const (
	RetryForever     PolicyKind = 0
	RetryNever       PolicyKind = 1
	RetryFixed       PolicyKind = 2
	RetryExponential PolicyKind = 3
)

// Value is the result of a handle: [Void], [Success], [*Failure], [StateKeys] or [InvocationID].
type Value interface{ isValue() }

// Void is a result without a value, as a sleep's.
type Void struct{}

// Success is a result in bytes.
type Success []byte

// StateKeys are the keys of the state.
type StateKeys []string

// InvocationID is an invocation's id.
type InvocationID string

func (Void) isValue()         {}
func (Success) isValue()      {}
func (*Failure) isValue()     {}
func (StateKeys) isValue()    {}
func (InvocationID) isValue() {}

// Input is what the handler was called with.
type Input struct {
	InvocationID                    string
	RandomSeed                      uint64
	Key                             string
	Scope, LimitKey, IdempotencyKey *string
	Headers                         []Pair
	Input                           []byte
}

// ResponseHead is the head of the response to the runtime.
type ResponseHead struct {
	StatusCode uint16
	Headers    []Pair
}

// AwaitedKind says what an await returned.
type AwaitedKind int

// What an await may return.
const (
	// AnyCompleted: the future is awake.
	AnyCompleted AwaitedKind = iota
	// WaitingExternalProgress: nothing awaited is there yet.
	WaitingExternalProgress
	// ExecuteRun: a run is to be executed now; then await again.
	ExecuteRun
	// EphemeralReady: the value of an ephemeral read is there; take it and await again.
	EphemeralReady
	// CancelSignalReceived: the invocation was cancelled.
	CancelSignalReceived
)

// Awaited is what an await returned.
type Awaited struct {
	Kind AwaitedKind
	// WaitingInput says that more input may bring what is awaited, and WaitingRunProposal that the result of a run may.
	WaitingInput, WaitingRunProposal bool
	// Run is the run that is to be executed.
	Run Handle
	// Ephemeral is the id of the ephemeral read.
	Ephemeral uint32
}

// CallHandles are those of a call.
type CallHandles struct {
	InvocationID, Result Handle
}

// DeadlineHandles are those of a call with a deadline.
type DeadlineHandles struct {
	InvocationID, Result, Deadline Handle
}

// RunHandle is a run that the handler called: the handle of its result, and whether the journal has that result already.
type RunHandle struct {
	Handle   Handle
	Replayed bool
}

// Awakeable is the id by which others complete it, and the handle to await.
type Awakeable struct {
	ID     string
	Handle Handle
}
