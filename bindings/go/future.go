package palqytun

// #include "palqytun_abi.h"
import "C"

import "strings"

// Future is what can be awaited: a [Handle], or a tree that [FirstCompleted] and the others make.
type Future interface{ isFuture() }

// tree has its nodes, each after those of its children, made once for all awaits of it.
type tree struct {
	nodes []C.palqytun_node
	// How many trees stand over a child that is nil, or 0 if none is.
	overNil int
}

func (Handle) isFuture() {}
func (*tree) isFuture()  {}

func treeOver(kind C.uint32_t, children []Future) Future {
	made := &tree{}
	for _, child := range children {
		switch it := child.(type) {
		case Handle:
			made.nodes = append(made.nodes, C.palqytun_node{kind: C.PALQYTUN_SINGLE, number: C.uint32_t(it)})
		case *tree:
			made.nodes = append(made.nodes, it.nodes...)
			if it.overNil > 0 && made.overNil == 0 {
				made.overNil = it.overNil + 1
			}
		default:
			if made.overNil == 0 {
				made.overNil = 1
			}
		}
	}
	made.nodes = append(made.nodes, C.palqytun_node{kind: kind, number: C.uint32_t(len(children))})
	return made
}

// FirstCompleted is awaited until some child has a result.
func FirstCompleted(children ...Future) Future { return treeOver(C.PALQYTUN_FIRST_COMPLETED, children) }

// AllCompleted is awaited until all children have a result.
func AllCompleted(children ...Future) Future { return treeOver(C.PALQYTUN_ALL_COMPLETED, children) }

// FirstSucceededOrAllFailed is awaited until some child succeeds, or all have failed.
func FirstSucceededOrAllFailed(children ...Future) Future {
	return treeOver(C.PALQYTUN_FIRST_SUCCEEDED_OR_ALL_FAILED, children)
}

// AllSucceededOrFirstFailed is awaited until all children succeed, or some child has failed.
func AllSucceededOrFirstFailed(children ...Future) Future {
	return treeOver(C.PALQYTUN_ALL_SUCCEEDED_OR_FIRST_FAILED, children)
}

// Unknown is some way of the caller's own: asked again at each result of a child.
func Unknown(children ...Future) Future { return treeOver(C.PALQYTUN_UNKNOWN, children) }

// checked refuses what is nil, or has a child that is nil.
func checked(name string, future Future) error {
	it, isTree := future.(*tree)
	if future != nil && (!isTree || it.overNil == 0) {
		return nil
	}
	if isTree {
		name = strings.Repeat("a child of ", it.overNil) + name
	}
	return &ArgumentError{StatusBadTree, name, "must be a Handle or what FirstCompleted and the others make, not nil"}
}
