/* What the numbers of palqytun.h say. */
/* tools/header --write writes this file, from palqytun.h and tools/abi/words.py. */
#include "handles.h"

const char *const COMMAND_NAMES[] = {
    [PALQYTUN_COMMAND_INPUT] = "Input",
    [PALQYTUN_COMMAND_OUTPUT] = "Output",
    [PALQYTUN_COMMAND_GET_STATE] = "GetState",
    [PALQYTUN_COMMAND_GET_STATE_KEYS] = "GetStateKeys",
    [PALQYTUN_COMMAND_SET_STATE] = "SetState",
    [PALQYTUN_COMMAND_CLEAR_STATE] = "ClearState",
    [PALQYTUN_COMMAND_CLEAR_ALL_STATE] = "ClearAllState",
    [PALQYTUN_COMMAND_GET_PROMISE] = "GetPromise",
    [PALQYTUN_COMMAND_PEEK_PROMISE] = "PeekPromise",
    [PALQYTUN_COMMAND_COMPLETE_PROMISE] = "CompletePromise",
    [PALQYTUN_COMMAND_SLEEP] = "Sleep",
    [PALQYTUN_COMMAND_CALL] = "Call",
    [PALQYTUN_COMMAND_ONE_WAY_CALL] = "OneWayCall",
    [PALQYTUN_COMMAND_SEND_SIGNAL] = "SendSignal",
    [PALQYTUN_COMMAND_RUN] = "Run",
    [PALQYTUN_COMMAND_ATTACH_INVOCATION] = "AttachInvocation",
    [PALQYTUN_COMMAND_GET_INVOCATION_OUTPUT] = "GetInvocationOutput",
    [PALQYTUN_COMMAND_COMPLETE_AWAKEABLE] = "CompleteAwakeable",
    [PALQYTUN_COMMAND_CANCEL_INVOCATION] = "CancelInvocation",
};

const message_command MESSAGE_COMMANDS[] = {
    [10] = {true, PALQYTUN_COMMAND_INPUT},
    [11] = {true, PALQYTUN_COMMAND_GET_STATE},
    [12] = {true, PALQYTUN_COMMAND_GET_STATE},
    [13] = {true, PALQYTUN_COMMAND_GET_STATE_KEYS},
    [14] = {true, PALQYTUN_COMMAND_GET_STATE_KEYS},
    [15] = {true, PALQYTUN_COMMAND_SET_STATE},
    [16] = {true, PALQYTUN_COMMAND_CLEAR_STATE},
    [17] = {true, PALQYTUN_COMMAND_CLEAR_ALL_STATE},
    [18] = {true, PALQYTUN_COMMAND_SLEEP},
    [19] = {true, PALQYTUN_COMMAND_CALL},
    [20] = {true, PALQYTUN_COMMAND_ONE_WAY_CALL},
    [21] = {true, PALQYTUN_COMMAND_COMPLETE_AWAKEABLE},
    [22] = {true, PALQYTUN_COMMAND_SEND_SIGNAL},
    [23] = {true, PALQYTUN_COMMAND_GET_PROMISE},
    [24] = {true, PALQYTUN_COMMAND_PEEK_PROMISE},
    [25] = {true, PALQYTUN_COMMAND_COMPLETE_PROMISE},
    [26] = {true, PALQYTUN_COMMAND_RUN},
    [27] = {true, PALQYTUN_COMMAND_ATTACH_INVOCATION},
    [28] = {true, PALQYTUN_COMMAND_GET_INVOCATION_OUTPUT},
    [29] = {true, PALQYTUN_COMMAND_OUTPUT},
};

const size_t MESSAGE_TYPES = sizeof MESSAGE_COMMANDS / sizeof *MESSAGE_COMMANDS;

const char *palqytun_status_name(uint32_t status)
{
    switch (status) {
    case 0:
        return "DONE";
    case 1:
        return "NO_MEMORY";
    case 2:
        return "NO_SESSION";
    case 3:
        return "NO_VM";
    case 4:
        return "NO_ROOM";
    case 5:
        return "REFUSED";
    case 6:
        return "BAD_TEXT";
    case 7:
        return "BAD_TREE";
    case 8:
        return "BAD_NUMBER";
    case 9:
        return "NO_PART";
    case 10:
        return "BAD_OUTPUT";
    case 11:
        return "NOT_A_NOTIFICATION";
    case 12:
        return "NO_SUCH_ID";
    case 13:
        return "SECOND_COMPLETION";
    case 14:
        return "WRONG_KIND";
    case 15:
        return "RUN_IS_PROPOSED";
    case 16:
        return "JOURNAL_FULL";
    case 17:
        return "BAD_JOURNAL";
    case 18:
        return "NOT_A_FRAME";
    case 19:
        return "BAD_LINE";
    case 20:
        return "NO_RESULT";
    case 21:
        return "NOT_A_SUSPENSION";
    case 22:
        return "NO_JOURNAL";
    case 23:
        return "NO_ROW";
    case 24:
        return "NOT_FRAMES";
    case 25:
        return "BUSY";
    case 26:
        return "BAD_HANDLE";
    case 27:
        return "BAD_POINTER";
    case 28:
        return "NO_FRAME";
    case 29:
        return "LAYERED";
    default:
        return NULL;
    }
}

const char *palqytun_status_text(uint32_t status)
{
    switch (status) {
    case 0:
        return "the call was made";
    case 1:
        return "no memory was found";
    case 2:
        return "the VM was closed";
    case 3:
        return "there is no VM";
    case 4:
        return "the buffer is too short";
    case 5:
        return "the VM refused the call";
    case 6:
        return "a text isn't UTF-8";
    case 7:
        return "the nodes aren't one tree";
    case 8:
        return "a number names no case of what it is to name";
    case 9:
        return "there is no such part";
    case 10:
        return "the output isn't whole frames";
    case 11:
        return "it isn't one whole frame of a notification";
    case 12:
        return "no stored command has the completion id";
    case 13:
        return "the completion id was completed before";
    case 14:
        return "the id of an invocation is completed by something else";
    case 15:
        return "the result of a run is proposed by the attempt that ran it";
    case 16:
        return "the journal is full";
    case 17:
        return "it isn't one whole frame of a command or a notification, or the first one isn't an Input";
    case 18:
        return "it isn't one whole frame";
    case 19:
        return "the line has no meaning";
    case 20:
        return "the frame has no result";
    case 21:
        return "the frame isn't one of a suspension";
    case 22:
        return "the journal was closed";
    case 23:
        return "the last store has no such row";
    case 24:
        return "the notifications aren't whole frames";
    case 25:
        return "a call of another thread has not ended; let a lock guard it";
    case 26:
        return "the handle is of something else";
    case 27:
        return "a pointer is NULL that may not be";
    case 28:
        return "the next message has no frame in the layer of the peer";
    case 29:
        return "the peer speaks another layer, and the call is in the own bytes of the VM";
    default:
        return NULL;
    }
}

const char *palqytun_code_name(uint32_t code)
{
    switch (code) {
    case 400:
        return "BAD_REQUEST";
    case 415:
        return "UNSUPPORTED_MEDIA_TYPE";
    case 500:
        return "INTERNAL";
    case 570:
        return "JOURNAL_MISMATCH";
    case 571:
        return "PROTOCOL_VIOLATION";
    case 573:
        return "UNSUPPORTED_FEATURE";
    case 598:
        return "CLOSED";
    case 599:
        return "SUSPENDED";
    default:
        return NULL;
    }
}
