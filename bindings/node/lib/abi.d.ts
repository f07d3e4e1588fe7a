// tools/header --write writes this file, from palqytun.h.

/** How a call ended. */
export type Status = 'DONE' | 'NO_MEMORY' | 'NO_SESSION' | 'NO_VM' | 'NO_ROOM' | 'REFUSED' | 'BAD_TEXT' | 'BAD_TREE' | 'BAD_NUMBER' | 'NO_PART' | 'BAD_OUTPUT' | 'NOT_A_NOTIFICATION' | 'NO_SUCH_ID' | 'SECOND_COMPLETION' | 'WRONG_KIND' | 'RUN_IS_PROPOSED' | 'JOURNAL_FULL' | 'BAD_JOURNAL' | 'NOT_A_FRAME' | 'BAD_LINE' | 'NO_RESULT' | 'NOT_A_SUSPENSION' | 'NO_JOURNAL' | 'NO_ROW' | 'NOT_FRAMES' | 'BUSY' | 'BAD_HANDLE' | 'BAD_POINTER' | 'NO_FRAME' | 'LAYERED';

/** What a cancelled await cancels; or the cancel signal ends no await. */
export type ImplicitCancellation = 'calls' | 'nothing' | 'sends' | 'callsAndSends' | 'disabled';

/** Whether replay compares payloads. */
export type NonDeterministicChecks = 'enabled' | 'payloadChecksDisabled';

/** When an await that waits for input says what it waits for. */
export type AwaitingOnPolicy = 'dontSendWhenExecutingRun' | 'sendAlways' | 'dontSend';

/** What becomes of an invocation whose journal doesn't fit its handler. */
export type JournalMismatchRetryBehavior = 'followRetryPolicy' | 'pause' | 'failTerminally';

/** Whether recorded commands are replayed, or skipped. */
export type JournalReplay = 'enabled' | 'disabled';

/** Several deliveries of one signal queue up, or the newest replaces the others. */
export type SignalDelivery = 'queued' | 'overwrite';

/** What is done after an error. */
export type ErrorBehavior = 'retry' | 'pause' | 'fail';

/** What a command is. */
export type CommandType = 'input' | 'output' | 'getState' | 'getStateKeys' | 'setState' | 'clearState' | 'clearAllState' | 'getPromise' | 'peekPromise' | 'completePromise' | 'sleep' | 'call' | 'oneWayCall' | 'sendSignal' | 'run' | 'attachInvocation' | 'getInvocationOutput' | 'completeAwakeable' | 'cancelInvocation';

/** The state of a VM. */
export type State = 'waitingPreFlight' | 'replaying' | 'processing' | 'closed';

/** The type of a message. */
export type MessageType = 'start' | 'suspension' | 'error' | 'end' | 'proposeRunCompletion' | 'proposeRunCompletionAck' | 'awaitingOn' | 'getStateEphemeralCommand' | 'getStateEphemeralNotification' | 'inputCommand' | 'getEagerStateCommand' | 'getLazyStateCommand' | 'getEagerStateKeysCommand' | 'getLazyStateKeysCommand' | 'setStateCommand' | 'clearStateCommand' | 'clearAllStateCommand' | 'sleepCommand' | 'callCommand' | 'oneWayCallCommand' | 'completeAwakeableCommand' | 'sendSignalCommand' | 'getPromiseCommand' | 'peekPromiseCommand' | 'completePromiseCommand' | 'runCommand' | 'attachInvocationCommand' | 'getInvocationOutputCommand' | 'outputCommand' | 'notification';

/** The versions of the messages that a VM may have: the least and the greatest. */
export const SUPPORTED_VERSIONS: readonly [5, 8];
