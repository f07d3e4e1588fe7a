package main

import (
	"bytes"
	"encoding/hex"
	"encoding/json"
	"fmt"
	"strconv"

	"palqytun.example/palqytun"
)

// fields are those of an object.
type fields map[string]any

// read reads one value of JSON, whose numbers stay as they are written.
func read(text []byte, into any) {
	decoder := json.NewDecoder(bytes.NewReader(text))
	decoder.UseNumber()
	if err := decoder.Decode(into); err != nil {
		panic(err)
	}
}

func (it fields) has(name string) bool {
	_, isGiven := it[name]
	return isGiven
}

func (it fields) text(name string) string {
	text, _ := it[name].(string)
	return text
}

func (it fields) optional(name string) *string {
	if !it.has(name) {
		return nil
	}
	return palqytun.Text(it.text(name))
}

func (it fields) octets(name string) []byte {
	data, err := hex.DecodeString(it.text(name))
	if err != nil {
		panic(err)
	}
	return data
}

func (it fields) flag(name string) bool {
	flag, _ := it[name].(bool)
	return flag
}

func (it fields) object(name string) fields {
	object, _ := it[name].(map[string]any)
	return object
}

// number is a number, which may be a string of digits; 0 if there is none.
func (it fields) number(name string) uint64 {
	if !it.has(name) {
		return 0
	}
	number, err := strconv.ParseUint(fmt.Sprint(it[name]), 10, 64)
	if err != nil {
		panic(err)
	}
	return number
}

func (it fields) may(name string) *uint64 {
	if !it.has(name) {
		return nil
	}
	number := it.number(name)
	return &number
}

func (it fields) handle(name string) palqytun.Handle { return palqytun.Handle(it.number(name)) }

func (it fields) pairs(name string) []palqytun.Pair {
	var pairs []palqytun.Pair
	list, _ := it[name].([]any)
	for _, pair := range list {
		both := pair.([]any)
		pairs = append(pairs, palqytun.Pair{Key: both[0].(string), Value: both[1].(string)})
	}
	return pairs
}

// place is the place of a field's word among these, 0 if there is none.
func (it fields) place(name string, words ...string) uint32 {
	for place, word := range words {
		if it.text(name) == word {
			return uint32(place)
		}
	}
	if it.has(name) {
		panic("no word " + it.text(name))
	}
	return 0
}

func optionsOf(of fields) palqytun.Options {
	return palqytun.Options{
		ImplicitCancellation:         palqytun.ImplicitCancellation(of.place("cancel", "calls", "none", "sends", "both", "off")),
		NonDeterministicChecks:       palqytun.NonDeterministicChecks(of.place("checks", "on", "off")),
		AwaitingOnPolicy:             palqytun.AwaitingOnPolicy(of.place("awaiting", "norun", "always", "never")),
		JournalMismatchRetryBehavior: palqytun.JournalMismatchRetryBehavior(of.place("mismatch", "follow", "pause", "fail")),
		JournalReplay:                palqytun.JournalReplay(of.place("replay", "on", "off")),
		SignalDelivery:               palqytun.SignalDelivery(of.place("delivery", "queued", "overwrite")),
		FallbackRandomSeed:           of.number("seed"),
	}
}

func givenOf(of fields) palqytun.Given {
	if !of.has("failure") {
		return palqytun.Given{Success: of.octets("success")}
	}
	it := of.object("failure")
	code := uint16(it.number("code"))
	return palqytun.Given{Failure: &palqytun.Failure{Code: code, Message: it.text("message"), Metadata: it.pairs("metadata")}}
}

func targetOf(of fields) palqytun.Target {
	return palqytun.Target{
		Service: of.text("service"), Handler: of.text("handler"), Key: of.optional("key"), IdempotencyKey: of.optional("idempotency_key"),
		Scope: of.optional("scope"), LimitKey: of.optional("limit_key"), Headers: of.pairs("headers"),
	}
}

func invocationOf(of fields) palqytun.InvocationTarget {
	if it := of.object("workflow"); it != nil {
		return palqytun.WorkflowID{Name: it.text("name"), Key: it.text("key"), Scope: it.optional("scope")}
	}
	if it := of.object("idempotency"); it != nil {
		return palqytun.IdempotencyID{
			Service: it.text("service"), Handler: it.text("handler"), IdempotencyKey: it.text("idempotency_key"),
			ServiceKey: it.optional("service_key"), Scope: it.optional("scope"),
		}
	}
	return palqytun.InvocationID(of.text("invocation_id"))
}

func errorOf(of fields) palqytun.HandlerError {
	behavior := palqytun.ErrorBehavior(of.place("behaviour", "retry", "pause", "fail"))
	return palqytun.HandlerError{
		Code: uint16(of.number("code")), Message: of.text("message"), Stacktrace: of.text("stacktrace"),
		Behavior: behavior, NextRetryDelayMillis: of.may("delay"),
	}
}

func relatedOf(step fields) *palqytun.RelatedCommand {
	if step.text("related") == "last" {
		return &palqytun.RelatedCommand{Kind: palqytun.RelatedLast}
	}
	of := step.object("related")
	if of == nil {
		return nil
	}
	kind := palqytun.RelatedKind(2 + of.place("kind", "next", "at"))
	return &palqytun.RelatedCommand{Kind: kind, Index: uint32(of.number("index")), Type: commandType(of.text("type")), Name: of.optional("name")}
}

func commandType(name string) palqytun.CommandType {
	for it := palqytun.CommandType(0); it.String() != ""; it++ {
		if it.String() == name {
			return it
		}
	}
	panic("no command is called " + name)
}

func policyOf(of fields) palqytun.RetryPolicy {
	policy := palqytun.RetryPolicy{
		Kind: palqytun.PolicyKind(of.place("kind", "infinite", "none", "fixed", "exp")), InitialMillis: of.number("initial"),
		IntervalMillis: of.may("interval"), MaxDurationMillis: of.may("duration"), Pauses: of.flag("pause"),
	}
	if attempts := of.may("attempts"); attempts != nil {
		most := uint32(*attempts)
		policy.MaxAttempts = &most
	}
	if factor, isGiven := of["factor"].([]any); isGiven {
		both := fields{"one": factor[0], "other": factor[1]}
		policy.Numerator, policy.Denominator = uint32(both.number("one")), uint32(both.number("other"))
	}
	return policy
}

var trees = map[string]func(...palqytun.Future) palqytun.Future{
	"first_completed":               palqytun.FirstCompleted,
	"all_completed":                 palqytun.AllCompleted,
	"first_succeeded_or_all_failed": palqytun.FirstSucceededOrAllFailed,
	"all_succeeded_or_first_failed": palqytun.AllSucceededOrFirstFailed,
	"unknown":                       palqytun.Unknown,
}

func futureOf(it any) palqytun.Future {
	tree, isTree := it.(map[string]any)
	if !isTree {
		return fields{"handle": it}.handle("handle")
	}
	for kind, children := range tree {
		below := []palqytun.Future{}
		for _, child := range children.([]any) {
			below = append(below, futureOf(child))
		}
		return trees[kind](below...)
	}
	panic("a tree has no kind")
}
