package palqytun

// #include "palqytun_abi.h"
import "C"

// What writes to a buffer of C.
type writes = func(out *C.uint8_t, most C.size_t, told *C.palqytun_told)

func writtenByLibrary(call writes, of ...argument) ([]byte, error) {
	if err := load(); err != nil {
		return nil, err
	}
	return written(call, of...)
}

// LineOf is the line of a frame (docs/FRAMES.md).
func LineOf(frame []byte) (string, error) {
	line, err := writtenByLibrary(func(out *C.uint8_t, most C.size_t, told *C.palqytun_told) {
		C.pq_frame_line(at(frame), size(frame), out, most, told)
	})
	return string(line), err
}

// FrameOf is the frame that a line shows.
func FrameOf(line string) ([]byte, error) {
	return writtenByLibrary(func(out *C.uint8_t, most C.size_t, told *C.palqytun_told) {
		C.pq_line_frame(textAt(line), textSize(line), out, most, told)
	}, named("line", line))
}

func notification(kind, id C.uint32_t, name string, frame []byte) ([]byte, error) {
	return writtenByLibrary(func(out *C.uint8_t, most C.size_t, told *C.palqytun_told) {
		C.pq_notification(kind, id, textAt(name), textSize(name), at(frame), size(frame), out, most, told)
	}, named("name", name))
}

// Completion is the notification that completes an id, with the result that a frame has: an output, a notification, the proposal of a run, or the
// completion of an awakeable, a signal or a promise.
func Completion(id uint32, frame []byte) ([]byte, error) {
	return notification(C.PALQYTUN_COMPLETION, C.uint32_t(id), "", frame)
}

// Signal is the notification of the signal with this number, with the result that a frame has.
func Signal(index uint32, frame []byte) ([]byte, error) {
	return notification(C.PALQYTUN_SIGNAL, C.uint32_t(index), "", frame)
}

// NamedSignal is the notification of the signal with this name, with the result that a frame has.
func NamedSignal(name string, frame []byte) ([]byte, error) {
	return notification(C.PALQYTUN_NAMED_SIGNAL, 0, name, frame)
}

// ValueFrame is a frame that has these bytes as its result: the notification of completion 0.
func ValueFrame(value []byte) ([]byte, error) {
	return writtenByLibrary(func(out *C.uint8_t, most C.size_t, told *C.palqytun_told) {
		C.pq_value_frame(at(value), size(value), out, most, told)
	})
}

// InputFrame is the frame of an input, with this value instead of its own.
func InputFrame(frame, value []byte) ([]byte, error) {
	return writtenByLibrary(func(out *C.uint8_t, most C.size_t, told *C.palqytun_told) {
		C.pq_input_frame(at(frame), size(frame), at(value), size(value), out, most, told)
	})
}

// IsAwake says whether the future of a suspension is awake by the notifications among these frames, of which the first of each id counts.
func IsAwake(suspension, notifications []byte) (bool, error) {
	if err := load(); err != nil {
		return false, err
	}
	var judged C.palqytun_judged
	C.pq_is_awake(at(suspension), size(suspension), at(notifications), size(notifications), &judged)
	return bool(judged.is_awake), failure(uint32(judged.status))
}

// Message is what a frame says: the type of its message, its numbers, and its parts, which are texts and bytes, by their places. palqytun.h has
// the meaning of each number and each place (palqytun_frame_row, palqytun_frame_part).
type Message struct {
	frame                    []byte
	Type                     MessageType
	Kind, Result, ID, Second uint32
	Number                   uint64
	Rows                     int
}

// ReadMessage reads a frame.
func ReadMessage(frame []byte) (*Message, error) {
	if err := load(); err != nil {
		return nil, err
	}
	var row C.palqytun_frame_row
	C.pq_frame_read(at(frame), size(frame), &row)
	if err := failure(uint32(row.status)); err != nil {
		return nil, err
	}
	return &Message{
		frame: frame, Type: MessageType(row._type), Kind: uint32(row.kind), Result: uint32(row.result),
		ID: uint32(row.id), Second: uint32(row.second), Number: uint64(row.number), Rows: int(row.rows),
	}, nil
}

// Part is the bytes at a place, nil if there are none.
func (it *Message) Part(place int) ([]byte, error) {
	return writtenByLibrary(func(out *C.uint8_t, most C.size_t, told *C.palqytun_told) {
		C.pq_frame_part(at(it.frame), size(it.frame), C.size_t(place), out, most, told)
	})
}

// Text is the text at a place, empty if there is none.
func (it *Message) Text(place int) (string, error) {
	data, err := it.Part(place)
	return string(data), err
}

// Pairs are the headers, or the metadata of a failure, of which the first key stands at this place.
func (it *Message) Pairs(first int) ([]Pair, error) { return pairsOf(it.Rows, first, it.Text) }
