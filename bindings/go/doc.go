// Package palqytun is the invocation VM of Palqytun, a proved core for durable execution.
//
// A [VM] is one attempt of an invocation: bytes go in and out, and each thing that a handler wants is one call. A [Journal] is a stored journal
// for its only writer; [LineOf], [FrameOf], [Completion] and others read and make what stands in it. docs/SDK.md has the loop of an SDK, call by
// call.
//
// The shared object is loaded by the first call: the file that the environment variable PALQYTUN_LIBRARY names, or the one that the system finds
// as libpalqytun.so.1. If there is none that can be used, each call fails by a [*LoadError].
//
// An error of the VM is an [*Error], and one of [ErrSuspended], [ErrClosed], [ErrJournalMismatch] and [ErrNoMemory] if errors.Is says so. A call that
// can't be made fails by a [Status], or by an [*ArgumentError] that names the argument; then nothing was done. Times are whole milliseconds since
// the Unix epoch, and a name may be empty: then the command has none.
package palqytun
