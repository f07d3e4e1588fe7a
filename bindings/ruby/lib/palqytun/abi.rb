# frozen_string_literal: true

# tools/header --write writes this file, from palqytun.h.
module Palqytun
  # The numbers, names and error texts of the interface.
  module ABI
    ABI = 1
    STACK = 32768
    DONE = 0
    NO_MEMORY = 1
    NO_SESSION = 2
    NO_VM = 3
    NO_ROOM = 4
    REFUSED = 5
    BAD_TEXT = 6
    BAD_TREE = 7
    BAD_NUMBER = 8
    NO_PART = 9
    BUSY = 25
    BAD_HANDLE = 26
    BAD_POINTER = 27
    NO_FRAME = 28
    LAYERED = 29
    LAYER_OWN = 0
    LAYER_SHORT = 1
    LAYER_SHORT_V6 = 2
    SINGLE = 0
    FIRST_COMPLETED = 1
    ALL_COMPLETED = 2
    FIRST_SUCCEEDED_OR_ALL_FAILED = 3
    ALL_SUCCEEDED_OR_FIRST_FAILED = 4
    UNKNOWN = 5
    MINIMUM_VERSION = 5
    MAXIMUM_VERSION = 8
    CANCEL_CALLS = 0
    CANCEL_NOTHING = 1
    CANCEL_SENDS = 2
    CANCEL_CALLS_AND_SENDS = 3
    CANCEL_DISABLED = 4
    CANCEL_HANDLE = 1
    CHECKS_ENABLED = 0
    CHECKS_PAYLOAD_CHECKS_DISABLED = 1
    AWAITING_DONT_SEND_WHEN_EXECUTING_RUN = 0
    AWAITING_SEND_ALWAYS = 1
    AWAITING_DONT_SEND = 2
    MISMATCH_FOLLOW_RETRY_POLICY = 0
    MISMATCH_PAUSE = 1
    MISMATCH_FAIL_TERMINALLY = 2
    REPLAY_ENABLED = 0
    REPLAY_DISABLED = 1
    DELIVERY_QUEUED = 0
    DELIVERY_OVERWRITE = 1
    BEHAVIOR_RETRY = 0
    BEHAVIOR_PAUSE = 1
    BEHAVIOR_FAIL = 2
    CODE_BAD_REQUEST = 400
    CODE_UNSUPPORTED_MEDIA_TYPE = 415
    CODE_INTERNAL = 500
    CODE_JOURNAL_MISMATCH = 570
    CODE_PROTOCOL_VIOLATION = 571
    CODE_UNSUPPORTED_FEATURE = 573
    CODE_CLOSED = 598
    CODE_SUSPENDED = 599
    RELATED_TO_NONE = 0
    RELATED_TO_LAST = 1
    RELATED_TO_NEXT = 2
    RELATED_TO_SPECIFIC = 3
    COMMAND_INPUT = 0
    COMMAND_OUTPUT = 1
    COMMAND_GET_STATE = 2
    COMMAND_GET_STATE_KEYS = 3
    COMMAND_SET_STATE = 4
    COMMAND_CLEAR_STATE = 5
    COMMAND_CLEAR_ALL_STATE = 6
    COMMAND_GET_PROMISE = 7
    COMMAND_PEEK_PROMISE = 8
    COMMAND_COMPLETE_PROMISE = 9
    COMMAND_SLEEP = 10
    COMMAND_CALL = 11
    COMMAND_ONE_WAY_CALL = 12
    COMMAND_SEND_SIGNAL = 13
    COMMAND_RUN = 14
    COMMAND_ATTACH_INVOCATION = 15
    COMMAND_GET_INVOCATION_OUTPUT = 16
    COMMAND_COMPLETE_AWAKEABLE = 17
    COMMAND_CANCEL_INVOCATION = 18
    TARGET_INVOCATION_ID = 0
    TARGET_WORKFLOW_ID = 1
    TARGET_IDEMPOTENCY_ID = 2
    POLICY_INFINITE = 0
    POLICY_NONE = 1
    POLICY_FIXED_DELAY = 2
    POLICY_EXPONENTIAL = 3
    NOTHING = 0
    HANDLE = 1
    AWAKEABLE = 2
    RUN = 3
    EPHEMERAL = 4
    FLAG = 5
    STATE = 6
    INDEX = 7
    VERSION = 8
    HEAD = 9
    OUTPUT = 10
    INPUT = 11
    AWAKE = 12
    WAITING = 13
    EXECUTE_RUN = 14
    CANCELLED = 15
    VOID = 16
    VALUE = 17
    FAILURE = 18
    KEYS = 19
    INVOCATION_ID = 20
    ERROR = 21
    SUSPENDED = 22
    OUT_OF_MEMORY = 23
    CLOSED = 24
    STATE_WAITING_PRE_FLIGHT = 0
    STATE_REPLAYING = 1
    STATE_PROCESSING = 2
    STATE_CLOSED = 3
    BAD_VERSION = 8
    BAD_OUTPUT = 10
    NOT_A_NOTIFICATION = 11
    NO_SUCH_ID = 12
    SECOND_COMPLETION = 13
    WRONG_KIND = 14
    RUN_IS_PROPOSED = 15
    JOURNAL_FULL = 16
    BAD_JOURNAL = 17
    NO_JOURNAL = 22
    NO_ROW = 23
    EFFECT_NOTHING = 0
    EFFECT_BEGIN = 1
    EFFECT_WAIT = 2
    EFFECT_SEND = 3
    EFFECT_RESULT = 4
    EFFECT_COMMAND = 5
    NOT_A_FRAME = 18
    BAD_LINE = 19
    NO_RESULT = 20
    NOT_A_SUSPENSION = 21
    NOT_FRAMES = 24
    COMPLETION = 0
    SIGNAL = 1
    NAMED_SIGNAL = 2
    MESSAGE_START = 1
    MESSAGE_SUSPENSION = 2
    MESSAGE_ERROR = 3
    MESSAGE_END = 4
    MESSAGE_PROPOSE_RUN_COMPLETION = 5
    MESSAGE_PROPOSE_RUN_COMPLETION_ACK = 6
    MESSAGE_AWAITING_ON = 7
    MESSAGE_GET_STATE_EPHEMERAL_COMMAND = 8
    MESSAGE_GET_STATE_EPHEMERAL_NOTIFICATION = 9
    MESSAGE_INPUT_COMMAND = 10
    MESSAGE_GET_EAGER_STATE_COMMAND = 11
    MESSAGE_GET_LAZY_STATE_COMMAND = 12
    MESSAGE_GET_EAGER_STATE_KEYS_COMMAND = 13
    MESSAGE_GET_LAZY_STATE_KEYS_COMMAND = 14
    MESSAGE_SET_STATE_COMMAND = 15
    MESSAGE_CLEAR_STATE_COMMAND = 16
    MESSAGE_CLEAR_ALL_STATE_COMMAND = 17
    MESSAGE_SLEEP_COMMAND = 18
    MESSAGE_CALL_COMMAND = 19
    MESSAGE_ONE_WAY_CALL_COMMAND = 20
    MESSAGE_COMPLETE_AWAKEABLE_COMMAND = 21
    MESSAGE_SEND_SIGNAL_COMMAND = 22
    MESSAGE_GET_PROMISE_COMMAND = 23
    MESSAGE_PEEK_PROMISE_COMMAND = 24
    MESSAGE_COMPLETE_PROMISE_COMMAND = 25
    MESSAGE_RUN_COMMAND = 26
    MESSAGE_ATTACH_INVOCATION_COMMAND = 27
    MESSAGE_GET_INVOCATION_OUTPUT_COMMAND = 28
    MESSAGE_OUTPUT_COMMAND = 29
    MESSAGE_NOTIFICATION = 30
    NO_RESULT_THERE = 0
    RESULT_VOID = 1
    RESULT_VALUE = 2
    RESULT_FAILURE = 3
    RESULT_KEYS = 4
    RESULT_INVOCATION_ID = 5

    # The name of each status, and what it says.
    STATUSES = {
      0 => [:done, "the call was made"],
      1 => [:no_memory, "no memory was found"],
      2 => [:no_session, "the VM was closed"],
      3 => [:no_vm, "there is no VM"],
      4 => [:no_room, "the buffer is too short"],
      5 => [:refused, "the VM refused the call"],
      6 => [:bad_text, "a text isn't UTF-8"],
      7 => [:bad_tree, "the nodes aren't one tree"],
      8 => [:bad_number, "a number names no case of what it is to name"],
      9 => [:no_part, "there is no such part"],
      10 => [:bad_output, "the output isn't whole frames"],
      11 => [:not_a_notification, "it isn't one whole frame of a notification"],
      12 => [:no_such_id, "no stored command has the completion id"],
      13 => [:second_completion, "the completion id was completed before"],
      14 => [:wrong_kind, "the id of an invocation is completed by something else"],
      15 => [:run_is_proposed, "the result of a run is proposed by the attempt that ran it"],
      16 => [:journal_full, "the journal is full"],
      17 => [:bad_journal, "it isn't one whole frame of a command or a notification, or the first one isn't an Input"],
      18 => [:not_a_frame, "it isn't one whole frame"],
      19 => [:bad_line, "the line has no meaning"],
      20 => [:no_result, "the frame has no result"],
      21 => [:not_a_suspension, "the frame isn't one of a suspension"],
      22 => [:no_journal, "the journal was closed"],
      23 => [:no_row, "the last store has no such row"],
      24 => [:not_frames, "the notifications aren't whole frames"],
      25 => [:busy, "a call of another thread has not ended; let a lock guard it"],
      26 => [:bad_handle, "the handle is of something else"],
      27 => [:bad_pointer, "a pointer is NULL that may not be"],
      28 => [:no_frame, "the next message has no frame in the layer of the peer"],
      29 => [:layered, "the peer speaks another layer, and the call is in the own bytes of the VM"],
    }.freeze

    # What a cancelled await cancels; or the cancel signal ends no await.
    IMPLICIT_CANCELLATION_CASES = {
      calls: 0,
      nothing: 1,
      sends: 2,
      calls_and_sends: 3,
      disabled: 4,
    }.freeze

    # Whether replay compares payloads.
    NON_DETERMINISTIC_CHECKS_CASES = {
      enabled: 0,
      payload_checks_disabled: 1,
    }.freeze

    # When an await that waits for input says what it waits for.
    AWAITING_ON_POLICY_CASES = {
      dont_send_when_executing_run: 0,
      send_always: 1,
      dont_send: 2,
    }.freeze

    # What becomes of an invocation whose journal doesn't fit its handler.
    JOURNAL_MISMATCH_RETRY_BEHAVIOR_CASES = {
      follow_retry_policy: 0,
      pause: 1,
      fail_terminally: 2,
    }.freeze

    # Whether recorded commands are replayed, or skipped.
    JOURNAL_REPLAY_CASES = {
      enabled: 0,
      disabled: 1,
    }.freeze

    # Several deliveries of one signal queue up, or the newest replaces the others.
    SIGNAL_DELIVERY_CASES = {
      queued: 0,
      overwrite: 1,
    }.freeze

    # What is done after an error.
    ERROR_BEHAVIOR_CASES = {
      retry: 0,
      pause: 1,
      fail: 2,
    }.freeze

    # What a command is.
    COMMAND_TYPE_CASES = {
      input: 0,
      output: 1,
      get_state: 2,
      get_state_keys: 3,
      set_state: 4,
      clear_state: 5,
      clear_all_state: 6,
      get_promise: 7,
      peek_promise: 8,
      complete_promise: 9,
      sleep: 10,
      call: 11,
      one_way_call: 12,
      send_signal: 13,
      run: 14,
      attach_invocation: 15,
      get_invocation_output: 16,
      complete_awakeable: 17,
      cancel_invocation: 18,
    }.freeze

    # The state of a VM.
    STATE_CASES = {
      waiting_pre_flight: 0,
      replaying: 1,
      processing: 2,
      closed: 3,
    }.freeze

    # The type of a message.
    MESSAGE_TYPE_CASES = {
      start: 1,
      suspension: 2,
      error: 3,
      end: 4,
      propose_run_completion: 5,
      propose_run_completion_ack: 6,
      awaiting_on: 7,
      get_state_ephemeral_command: 8,
      get_state_ephemeral_notification: 9,
      input_command: 10,
      get_eager_state_command: 11,
      get_lazy_state_command: 12,
      get_eager_state_keys_command: 13,
      get_lazy_state_keys_command: 14,
      set_state_command: 15,
      clear_state_command: 16,
      clear_all_state_command: 17,
      sleep_command: 18,
      call_command: 19,
      one_way_call_command: 20,
      complete_awakeable_command: 21,
      send_signal_command: 22,
      get_promise_command: 23,
      peek_promise_command: 24,
      complete_promise_command: 25,
      run_command: 26,
      attach_invocation_command: 27,
      get_invocation_output_command: 28,
      output_command: 29,
      notification: 30,
    }.freeze
  end
end
