# frozen_string_literal: true

module Palqytun
  # Frames beside a journal: each as its line (docs/FRAMES.md) and back, its result as a notification, and whether a suspension is awake; and what a frame
  # says.
  module Frames
    A = Arguments
    L = Library
    private_constant :A, :L

    module_function

    # The line of a frame.
    def line_of(frame) = L.text(L.written(L.ext.pq_frame_line(A.bytes("frame", frame))))

    # The frame that a line shows.
    def frame_of(line) = L.written(L.ext.pq_line_frame(A.text("line", line)))

    # The notification that completes an id, with the result that a frame has.
    def completion(id, frame) = L.written(L.ext.pq_notification(ABI::COMPLETION, A.u32("id", id), "", A.bytes("frame", frame)))

    # The notification of the signal with this number, with the result that a frame has.
    def signal(index, frame) = L.written(L.ext.pq_notification(ABI::SIGNAL, A.u32("index", index), "", A.bytes("frame", frame)))

    # The notification of the signal with this name, with the result that a frame has.
    def named_signal(name, frame) = L.written(L.ext.pq_notification(ABI::NAMED_SIGNAL, 0, A.text("name", name), A.bytes("frame", frame)))

    # A frame that has these bytes as its result: the notification of completion 0.
    def value_frame(value) = L.written(L.ext.pq_value_frame(A.bytes("value", value)))

    # The frame of an input, with this value in the place of its own.
    def input_frame(frame, value) = L.written(L.ext.pq_input_frame(A.bytes("frame", frame), A.bytes("value", value)))

    # Whether the future of a suspension is awake by the notifications among these frames, of which the first of each id counts.
    def awake?(suspension, notifications)
      judged = L.ext.pq_is_awake(A.bytes("suspension", suspension), A.bytes("notifications", notifications))
      L.done(judged[:status])
      judged[:is_awake] == 1
    end

    # What a frame says: the type of its message as a symbol, its numbers, and its parts by their places. `palqytun.h` has the meaning of each number and
    # each place (`palqytun_frame_row`, `palqytun_frame_part`).
    class Message
      RESULTS = {
        ABI::NO_RESULT_THERE => nil, ABI::RESULT_VOID => :void, ABI::RESULT_VALUE => :value, ABI::RESULT_FAILURE => :failure,
        ABI::RESULT_KEYS => :keys, ABI::RESULT_INVOCATION_ID => :invocation_id,
      }.freeze

      attr_reader :type, :kind, :result, :id, :second, :number, :rows

      def initialize(frame)
        @frame = A.bytes("frame", frame)
        row = L.ext.pq_frame_read(@frame)
        L.done(row[:status])
        @type, @result = ABI::MESSAGE_TYPE_CASES.key(row[:type]), RESULTS[row[:result]]
        @kind, @id, @second, @number, @rows = row.values_at(:kind, :id, :second, :number, :rows)
      end

      # The bytes at a place, nil if there are none.
      def part(at) = L.part(L.ext.pq_frame_part(@frame, A.u32("at", at)))

      # The text at a place, empty if there is none.
      def text(at) = L.text(part(at)) || ""

      # The headers, or the metadata of a failure, of which the first key stands at this place.
      def pairs(first) = Array.new(@rows) { |row| [text(first + 2 * row), text(first + 2 * row + 1)] }
    end
  end
end
