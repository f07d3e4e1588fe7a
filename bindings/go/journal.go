package palqytun

// #include "palqytun_abi.h"
import "C"

import (
	"log"
	"runtime"
	"sync"
)

// Row is an entry to be appended.
type Row struct {
	Message MessageType
	// Completes is the completion id that it completes, or nil.
	Completes *uint32
	Frame     []byte
}

// Effect is what the row asks a runtime for, as a call, a sleep or a send: its message's numbers and parts.
func (it Row) Effect() (*Message, error) { return ReadMessage(it.Frame) }

// Stored is what is stored of an attempt's output: the rows to append, in order, and what the attempt is fed after the commit.
type Stored struct {
	Rows []Row
	Feed []byte
}

// Journal is a stored journal, as its only writer knows it, without its entries. What may not be appended is a [Status] that says why; what came
// since the last [Journal.Keep] is then taken back. It is closed by [Journal.Close]. Goroutines may share it.
type Journal struct {
	guard  sync.Mutex
	handle C.uintptr_t
}

// NewJournal makes a journal of these entries, each one whole frame, the first one an Input; they are kept.
func NewJournal(entries ...[]byte) (*Journal, error) {
	if err := load(); err != nil {
		return nil, err
	}
	journal := &Journal{}
	if err := failure(uint32(C.pq_journal_open(&journal.handle))); err != nil {
		return nil, err
	}
	runtime.SetFinalizer(journal, func(journal *Journal) {
		if journal.handle != 0 {
			log.Printf("palqytun: a Journal became garbage and was not closed: its memory is lost; call Close")
		}
	})
	for _, entry := range entries {
		if _, err := journal.Entry(entry); err != nil {
			return nil, journal.closedBy(err)
		}
	}
	if len(entries) > 0 {
		if err := journal.Keep(); err != nil {
			return nil, journal.closedBy(err)
		}
	}
	return journal, nil
}

func (journal *Journal) closedBy(err error) error {
	_ = journal.Close()
	return err
}

// Close ends the journal and frees its memory. It may be called again.
func (journal *Journal) Close() error {
	journal.guard.Lock()
	defer journal.guard.Unlock()
	if journal.handle == 0 {
		return nil
	}
	status := C.pq_journal_close(journal.handle)
	journal.handle = 0
	return failure(uint32(status))
}

// Entries is how many entries it has, those that aren't committed too.
func (journal *Journal) Entries() (int, error) {
	journal.guard.Lock()
	defer journal.guard.Unlock()
	var told C.palqytun_told
	C.pq_journal_entries(journal.handle, &told)
	return int(told.len), failure(uint32(told.status))
}

// Entry is the next entry of a journal that is loaded.
func (journal *Journal) Entry(frame []byte) (Row, error) {
	journal.guard.Lock()
	defer journal.guard.Unlock()
	var row C.palqytun_row
	C.pq_journal_entry(journal.handle, at(frame), size(frame), &row)
	return rowOf(&row, frame)
}

// Arrive is the entry that a notification is. The attempt is fed its bytes after the commit.
func (journal *Journal) Arrive(notification []byte) (Row, error) {
	journal.guard.Lock()
	defer journal.guard.Unlock()
	var row C.palqytun_row
	C.pq_journal_arrive(journal.handle, at(notification), size(notification), &row)
	return rowOf(&row, notification)
}

// Store is what is stored of what an attempt of this version wrote since the last store, as [VM.TakeOutput] gave it: its commands, and the
// completions that its proposals are.
func (journal *Journal) Store(version int, output []byte) (Stored, error) {
	if err := badVersion(version); err != nil {
		return Stored{}, err
	}
	journal.guard.Lock()
	defer journal.guard.Unlock()
	var told C.palqytun_stored
	C.pq_journal_store(journal.handle, C.uint32_t(version), at(output), size(output), &told)
	if err := failure(uint32(told.status)); err != nil {
		return Stored{}, err
	}
	stored := Stored{Rows: make([]Row, told.rows)}
	for i := range stored.Rows {
		row, err := journal.row(i)
		if err != nil {
			return Stored{}, err
		}
		stored.Rows[i] = row
	}
	feed, err := written(func(out *C.uint8_t, most C.size_t, told *C.palqytun_told) {
		C.pq_journal_answer(journal.handle, out, most, told)
	})
	stored.Feed = feed
	return stored, err
}

func (journal *Journal) row(place int) (Row, error) {
	var row C.palqytun_row
	C.pq_journal_row(journal.handle, C.size_t(place), &row)
	frame, err := written(func(out *C.uint8_t, most C.size_t, told *C.palqytun_told) {
		C.pq_journal_frame(journal.handle, C.size_t(place), out, most, told)
	})
	if err != nil {
		return Row{}, err
	}
	return rowOf(&row, frame)
}

func rowOf(row *C.palqytun_row, frame []byte) (Row, error) {
	if err := failure(uint32(row.status)); err != nil {
		return Row{}, err
	}
	found := Row{Message: MessageType(row._type), Frame: frame}
	if row.is_completion {
		id := uint32(row.completes)
		found.Completes = &id
	}
	return found, nil
}

// Keep says that what came since the last of these calls is committed. After [StatusNoMemory] the journal has to be loaded again, into another.
func (journal *Journal) Keep() error {
	journal.guard.Lock()
	defer journal.guard.Unlock()
	return failure(uint32(C.pq_journal_keep(journal.handle)))
}

// Undo says that what came since the last commit isn't committed: the journal is again as it was then.
func (journal *Journal) Undo() error {
	journal.guard.Lock()
	defer journal.guard.Unlock()
	return failure(uint32(C.pq_journal_undo(journal.handle)))
}
