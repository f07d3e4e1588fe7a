package main

import (
	"encoding/hex"
	"strconv"

	"palqytun.example/palqytun"
)

const largestExact = 1<<53 - 1

// call makes the call of a step, and returns what it returned as the suite has it.
type call func(vm *palqytun.VM, step fields) (any, error)

func nothing(err error) (any, error) { return nil, err }

func some[T any](it T, err error) (any, error) {
	if err != nil {
		return nil, err
	}
	return it, nil
}

func shown[T any](it T, err error, show func(T) any) (any, error) {
	if err != nil {
		return nil, err
	}
	return show(it), nil
}

var calls = map[string]call{
	"get_response_head": func(vm *palqytun.VM, step fields) (any, error) {
		head, err := vm.GetResponseHead()
		return some(fields{"status_code": head.StatusCode, "version": vm.Version(), "headers": listed(head.Headers)}, err)
	},
	"notify_input":        func(vm *palqytun.VM, step fields) (any, error) { return nothing(vm.NotifyInput(step.octets("data"))) },
	"notify_input_closed": func(vm *palqytun.VM, step fields) (any, error) { return nothing(vm.NotifyInputClosed()) },
	"notify_error": func(vm *palqytun.VM, step fields) (any, error) {
		return nothing(vm.NotifyError(errorOf(step), relatedOf(step)))
	},
	"take_output": func(vm *palqytun.VM, step fields) (any, error) {
		output, err := vm.TakeOutput()
		return some(hex.EncodeToString(output), err)
	},
	"is_ready_to_execute": func(vm *palqytun.VM, step fields) (any, error) { return some(vm.IsReadyToExecute()) },
	"is_completed":        func(vm *palqytun.VM, step fields) (any, error) { return some(vm.IsCompleted(step.handle("handle"))) },
	"state": func(vm *palqytun.VM, step fields) (any, error) {
		state, err := vm.State()
		return some(state.String(), err)
	},
	"last_command_index": func(vm *palqytun.VM, step fields) (any, error) { return some(vm.LastCommandIndex()) },
	"do_await": func(vm *palqytun.VM, step fields) (any, error) {
		awaited, err := vm.DoAwait(futureOf(step["future"]))
		return shown(awaited, err, shownAwaited)
	},
	"take_notification": func(vm *palqytun.VM, step fields) (any, error) {
		value, err := vm.TakeNotification(step.handle("handle"))
		return shown(value, err, shownValue)
	},
	"take_ephemeral_notification": func(vm *palqytun.VM, step fields) (any, error) {
		value, err := vm.TakeEphemeralNotification(uint32(step.number("id")))
		return shown(value, err, shownValue)
	},
	"sys_input": func(vm *palqytun.VM, step fields) (any, error) {
		input, err := vm.SysInput()
		return shown(input, err, shownInput)
	},
	"sys_sleep": func(vm *palqytun.VM, step fields) (any, error) {
		return some(vm.SysSleep(step.text("name"), step.number("wake_up_time")))
	},
	"sys_state_get": func(vm *palqytun.VM, step fields) (any, error) {
		return some(vm.SysStateGet(step.text("key"), step.text("name")))
	},
	"sys_state_get_keys":  func(vm *palqytun.VM, step fields) (any, error) { return some(vm.SysStateGetKeys(step.text("name"))) },
	"ephemeral_state_get": func(vm *palqytun.VM, step fields) (any, error) { return some(vm.EphemeralStateGet(step.text("key"))) },
	"sys_state_set": func(vm *palqytun.VM, step fields) (any, error) {
		return nothing(vm.SysStateSet(step.text("key"), step.octets("value"), step.text("name"), step.flag("unstable")))
	},
	"sys_state_clear": func(vm *palqytun.VM, step fields) (any, error) {
		return nothing(vm.SysStateClear(step.text("key"), step.text("name")))
	},
	"sys_state_clear_all": func(vm *palqytun.VM, step fields) (any, error) {
		return nothing(vm.SysStateClearAll(step.text("name")))
	},
	"sys_call": func(vm *palqytun.VM, step fields) (any, error) {
		made, err := vm.SysCall(targetOf(step), step.octets("value"), step.text("name"), step.flag("unstable"))
		return some([]palqytun.Handle{made.InvocationID, made.Result}, err)
	},
	"sys_call_with_deadline": func(vm *palqytun.VM, step fields) (any, error) {
		time := step.number("wake_up_time")
		made, err := vm.SysCallWithDeadline(targetOf(step), step.octets("value"), time, step.text("name"), step.flag("unstable"))
		return some([]palqytun.Handle{made.InvocationID, made.Result, made.Deadline}, err)
	},
	"sys_send": func(vm *palqytun.VM, step fields) (any, error) {
		return some(vm.SysSend(targetOf(step), step.octets("value"), step.number("at"), step.text("name"), step.flag("unstable")))
	},
	"sys_cancel_invocation": func(vm *palqytun.VM, step fields) (any, error) {
		return nothing(vm.SysCancelInvocation(step.text("invocation_id")))
	},
	"sys_attach_invocation": func(vm *palqytun.VM, step fields) (any, error) {
		return some(vm.SysAttachInvocation(invocationOf(step.object("target"))))
	},
	"sys_get_invocation_output": func(vm *palqytun.VM, step fields) (any, error) {
		return some(vm.SysGetInvocationOutput(invocationOf(step.object("target"))))
	},
	"sys_awakeable": func(vm *palqytun.VM, step fields) (any, error) {
		made, err := vm.SysAwakeable()
		return some(fields{"handle": made.Handle, "id": made.ID}, err)
	},
	"sys_complete_awakeable": func(vm *palqytun.VM, step fields) (any, error) {
		return nothing(vm.SysCompleteAwakeable(step.text("id"), givenOf(step.object("value")), step.flag("unstable")))
	},
	"create_signal_handle": func(vm *palqytun.VM, step fields) (any, error) { return some(vm.CreateSignalHandle(step.text("name"))) },
	"sys_complete_signal": func(vm *palqytun.VM, step fields) (any, error) {
		return nothing(vm.SysCompleteSignal(step.text("invocation_id"), step.text("name"), givenOf(step.object("value"))))
	},
	"sys_get_promise":  func(vm *palqytun.VM, step fields) (any, error) { return some(vm.SysGetPromise(step.text("key"))) },
	"sys_peek_promise": func(vm *palqytun.VM, step fields) (any, error) { return some(vm.SysPeekPromise(step.text("key"))) },
	"sys_complete_promise": func(vm *palqytun.VM, step fields) (any, error) {
		return some(vm.SysCompletePromise(step.text("key"), givenOf(step.object("value")), step.flag("unstable")))
	},
	"sys_run": func(vm *palqytun.VM, step fields) (any, error) {
		run, err := vm.SysRun(step.text("name"))
		return some(fields{"handle": run.Handle, "replayed": run.Replayed}, err)
	},
	"propose_run_completion": func(vm *palqytun.VM, step fields) (any, error) {
		handle, result, policy := step.handle("handle"), step.object("result"), policyOf(step.object("policy"))
		if it := result.object("retryable"); it != nil {
			return nothing(vm.ProposeRetryableFailure(handle, it.number("duration"), errorOf(it), policy))
		}
		return nothing(vm.ProposeRunCompletion(handle, givenOf(result), policy))
	},
	"sys_write_output": func(vm *palqytun.VM, step fields) (any, error) {
		return nothing(vm.SysWriteOutput(givenOf(step.object("value")), step.flag("unstable")))
	},
	"sys_end": func(vm *palqytun.VM, step fields) (any, error) { return nothing(vm.SysEnd()) },
}

func listed(pairs []palqytun.Pair) [][2]string {
	found := [][2]string{}
	for _, pair := range pairs {
		found = append(found, [2]string{pair.Key, pair.Value})
	}
	return found
}

// exact is a number, or a string of digits if not every reader of JSON has it whole.
func exact(it uint64) any {
	if it <= largestExact {
		return it
	}
	return strconv.FormatUint(it, 10)
}

func shownAwaited(it palqytun.Awaited) any {
	switch it.Kind {
	case palqytun.CancelSignalReceived:
		return "cancelled"
	case palqytun.ExecuteRun:
		return fields{"run": it.Run}
	case palqytun.EphemeralReady:
		return fields{"ephemeral": it.Ephemeral}
	case palqytun.WaitingExternalProgress:
		return fields{"wait": fields{"input": it.WaitingInput, "run": it.WaitingRunProposal}}
	}
	return "any"
}

func shownValue(it palqytun.Value) any {
	switch it := it.(type) {
	case palqytun.Void:
		return "void"
	case palqytun.Success:
		return fields{"success": hex.EncodeToString(it)}
	case *palqytun.Failure:
		return fields{"failure": fields{"code": it.Code, "message": it.Message, "metadata": listed(it.Metadata)}}
	case palqytun.StateKeys:
		return fields{"keys": it}
	case palqytun.InvocationID:
		return fields{"invocation": it}
	}
	return "none"
}

func shownInput(it palqytun.Input) any {
	return fields{
		"invocation_id": it.InvocationID, "random_seed": exact(it.RandomSeed), "key": it.Key, "scope": it.Scope, "limit_key": it.LimitKey,
		"idempotency_key": it.IdempotencyKey, "headers": listed(it.Headers), "value": hex.EncodeToString(it.Input),
	}
}
