package palqytun

import (
	"fmt"
	"unicode/utf8"
)

// ArgumentError says which argument a call refused, what is wrong with it, and what is allowed. It is its status for errors.Is.
type ArgumentError struct {
	// Status is StatusBadText, StatusBadNumber, StatusBadTree or StatusBadPointer.
	Status Status
	// Name is that of the parameter, and of the field in it, as "target.Service".
	Name string
	// Why is what is wrong and what is allowed.
	Why string
}

func (e *ArgumentError) Error() string {
	return fmt.Sprintf("%v: %s %s", e.Status.String(), e.Name, e.Why)
}

// Unwrap is the status.
func (e *ArgumentError) Unwrap() error { return e.Status }

// argument is a text that has to be UTF-8, or a number with its bounds: what a call may refuse.
type argument struct {
	name, text         string
	isNumber           bool
	value, least, most uint32
	isUnstable         bool
}

func named(name, value string) argument { return argument{name: name, text: value} }

func bounded(name string, value, least, most uint32) argument {
	return argument{name: name, isNumber: true, value: value, least: least, most: most}
}

// payload says whether replay doesn't compare the payload.
func payload(unstable bool) argument { return argument{isUnstable: unstable} }

// isUnstable says whether replay doesn't compare the payload among these arguments.
func isUnstable(of []argument) bool {
	for _, it := range of {
		if it.isUnstable {
			return true
		}
	}
	return false
}

// caseOf is a number that names one of so many cases, from 0 on.
func caseOf(name string, value uint32, cases int) argument {
	return bounded(name, value, 0, uint32(cases)-1)
}

// wrong says what is wrong with it, if it is what a call was refused for by this status.
func (it argument) wrong(status Status) string {
	switch {
	case it.isNumber && status == StatusBadNumber && (it.value < it.least || it.most < it.value):
		return fmt.Sprintf("must be from %d to %d, not %d", it.least, it.most, it.value)
	case !it.isNumber && status == StatusBadText && !utf8.ValidString(it.text):
		place := badByte(it.text)
		return fmt.Sprintf("must be UTF-8: at byte %d stands 0x%02x", place, it.text[place])
	}
	return ""
}

// badByte is the place of the first byte of a text that is of no character.
func badByte(text string) int {
	for place, character := range text {
		if _, size := utf8.DecodeRuneInString(text[place:]); character == utf8.RuneError && size == 1 {
			return place
		}
	}
	return len(text)
}

// refused is the error of a status: about the first of the arguments that is wrong.
func refused(status Status, of []argument) error {
	for _, it := range of {
		if why := it.wrong(status); why != "" {
			return &ArgumentError{status, it.name, why}
		}
	}
	return status
}
