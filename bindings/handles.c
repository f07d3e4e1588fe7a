/* Handles that can't be misused, and the functions that make and end them.

   A handle is a number in the form of a pointer: the place of a slot, and how often the slot was used before. So a handle that is closed,
   or was never made, is found out, and nothing is read where it seems to point to. A slot holds the block of a session or a journal. A call
   takes the block by one atomic exchange and gives it back by one atomic store. Slots are never freed, only used again, so each may be
   looked at at any time. */
#include "handles.h"
#include "proved.h"

#include <stdatomic.h>
#include <stdlib.h>

_Static_assert(sizeof(uintptr_t) == sizeof(uint64_t), "a handle has 64 bits");

/* What may be done with a slot. */
enum { FREE = 0, IDLE = 1, BUSY = 2 };

typedef struct {
    palqytun_held held;
    /* How often it was used before, 32 bits; a byte of 0, its kind, and its state. */
    _Atomic uint64_t word;
    /* The next one that is free, counted from 1, or 0. */
    _Atomic uint32_t next;
} slot;

/* Slots stand in rows, each twice as long as the one before it. Each but the first is made once it is needed. */
enum { FIRST_ROW = 64, ROWS = 24 };
static const uint32_t MOST_SLOTS = FIRST_ROW * ((1u << ROWS) - 1);

static slot first_row[FIRST_ROW];
static _Atomic(slot *) rows[ROWS] = {first_row};
/* How many slots were ever used. */
static _Atomic uint32_t used;
/* The slot that became free last, counted from 1, and above it a number that each change makes another. */
static _Atomic uint64_t free_slots;

static uint64_t word_of(uint64_t uses, unsigned kind, unsigned state)
{
    return uses << 32 | kind << 8 | state;
}

static slot *slot_at(uint32_t place)
{
    unsigned row = 0;
    while (place >= (uint32_t)FIRST_ROW << row)
        place -= (uint32_t)FIRST_ROW << row++;
    slot *slots = atomic_load_explicit(&rows[row], memory_order_acquire);
    return &slots[place];
}

/* Sees to it that the row of a slot is there. */
static bool has_row(uint32_t place)
{
    unsigned row = 0;
    while (place >= (uint32_t)FIRST_ROW << row)
        place -= (uint32_t)FIRST_ROW << row++;
    if (atomic_load_explicit(&rows[row], memory_order_acquire) != NULL)
        return true;
    slot *made = calloc((size_t)FIRST_ROW << row, sizeof *made), *none = NULL;
    if (made == NULL)
        return false;
    if (!atomic_compare_exchange_strong_explicit(&rows[row], &none, made, memory_order_acq_rel, memory_order_acquire))
        free(made);
    return true;
}

/* A slot that nobody uses, counted from 1, or 0 if no memory was found. */
static uint32_t next_slot(void)
{
    uint64_t top = atomic_load_explicit(&free_slots, memory_order_acquire);
    while ((uint32_t)top != 0) {
        uint32_t next = atomic_load_explicit(&slot_at((uint32_t)top - 1)->next, memory_order_relaxed);
        uint64_t rest = ((top >> 32) + 1) << 32 | next;
        if (atomic_compare_exchange_weak_explicit(&free_slots, &top, rest, memory_order_acq_rel, memory_order_acquire))
            return (uint32_t)top;
    }
    uint32_t place = atomic_load_explicit(&used, memory_order_acquire);
    do {
        if (place >= MOST_SLOTS || !has_row(place))
            return 0;
    } while (!atomic_compare_exchange_weak_explicit(&used, &place, place + 1, memory_order_acq_rel, memory_order_acquire));
    return place + 1;
}

/* The slot is free again, for a handle that differs from all before. One that has no more such handles stays unused. */
static void free_slot(slot *it, uint32_t number, uint64_t uses)
{
    atomic_store_explicit(&it->word, word_of(uses, 0, FREE), memory_order_release);
    if (uses == UINT32_MAX)
        return;
    uint64_t top = atomic_load_explicit(&free_slots, memory_order_relaxed), more;
    do {
        atomic_store_explicit(&it->next, (uint32_t)top, memory_order_relaxed);
        more = ((top >> 32) + 1) << 32 | number;
    } while (!atomic_compare_exchange_weak_explicit(&free_slots, &top, more, memory_order_acq_rel, memory_order_relaxed));
}

/* Makes what a handle is of. The layer is a session's. */
static uint32_t make(palqytun_held *held, unsigned kind, uint32_t layer)
{
    return kind == A_VM ? proved_new(held, layer) : proved_journal_new(held);
}

/* Makes a handle. It is 0 if it has nothing that it would be of. */
static uint64_t handle_open(uint32_t *status, unsigned kind, uint32_t layer)
{
    uint32_t number = next_slot();
    if (number == 0) {
        *status = PALQYTUN_NO_MEMORY;
        return 0;
    }
    slot *it = slot_at(number - 1);
    uint64_t uses = atomic_load_explicit(&it->word, memory_order_acquire) >> 32;
    it->held.at = NULL;
    *status = make(&it->held, kind, layer);
    if (*status != PALQYTUN_DONE) {
        free_slot(it, number, uses);
        return 0;
    }
    atomic_store_explicit(&it->word, word_of(uses, kind, IDLE), memory_order_release);
    return uses << 32 | number;
}

/* The slot of a number that a handle has, if there is one. */
static slot *slot_of(uint32_t number)
{
    if (number - 1 < FIRST_ROW)
        return &first_row[number - 1];
    return number != 0 && number <= atomic_load_explicit(&used, memory_order_acquire) ? slot_at(number - 1) : NULL;
}

/* Why a handle isn't taken, by the word of its slot. */
static uint32_t refusal(uint64_t uses, unsigned kind, uint64_t word)
{
    if (word == word_of(uses, kind, BUSY))
        return PALQYTUN_BUSY;
    if (uses < word >> 32 || word == word_of(uses, 0, FREE))
        return kind == A_VM ? PALQYTUN_NO_SESSION : PALQYTUN_NO_JOURNAL;
    return PALQYTUN_BAD_HANDLE;
}

palqytun_held *handle_take(uint32_t *status, const void *handle, unsigned kind)
{
    if (*status != PALQYTUN_DONE)
        return NULL;
    uint64_t uses = (uintptr_t)handle >> 32;
    slot *it = slot_of((uint32_t)(uintptr_t)handle);
    if (it == NULL) {
        *status = handle != NULL ? PALQYTUN_BAD_HANDLE : kind == A_VM ? PALQYTUN_NO_SESSION : PALQYTUN_NO_JOURNAL;
        return NULL;
    }
    uint64_t word = word_of(uses, kind, IDLE);
    if (atomic_compare_exchange_strong_explicit(&it->word, &word, word_of(uses, kind, BUSY), memory_order_acquire, memory_order_relaxed))
        return &it->held;
    *status = refusal(uses, kind, word);
    return NULL;
}

void handle_give(palqytun_held *held)
{
    slot *it = (slot *)held; /* which begins with it */
    uint64_t word = atomic_load_explicit(&it->word, memory_order_relaxed);
    atomic_store_explicit(&it->word, word - BUSY + IDLE, memory_order_release);
}

/* Ends what a handle is of. */
static uint32_t handle_close(const void *handle, unsigned kind, void (*end)(palqytun_held *))
{
    uint32_t status = PALQYTUN_DONE;
    palqytun_held *held = handle_take(&status, handle, kind);
    if (held != NULL) {
        end(held);
        free_slot((slot *)held, (uint32_t)(uintptr_t)handle, ((uintptr_t)handle >> 32) + 1);
    }
    return status;
}

uint32_t palqytun_open(palqytun_vm **vm)
{
    return palqytun_open_over(vm, PALQYTUN_LAYER_OWN);
}

uint32_t palqytun_open_over(palqytun_vm **vm, uint32_t layer)
{
    uint32_t status = PALQYTUN_BAD_POINTER;
    if (vm != NULL)
        *vm = (palqytun_vm *)(uintptr_t)handle_open(&status, A_VM, layer);
    return status;
}

uint32_t palqytun_close(palqytun_vm *vm)
{
    return handle_close(vm, A_VM, proved_free);
}

uint32_t palqytun_journal_open(palqytun_journal **journal)
{
    uint32_t status = PALQYTUN_BAD_POINTER;
    if (journal != NULL)
        *journal = (palqytun_journal *)(uintptr_t)handle_open(&status, A_JOURNAL, PALQYTUN_LAYER_OWN);
    return status;
}

uint32_t palqytun_journal_close(palqytun_journal *journal)
{
    return handle_close(journal, A_JOURNAL, proved_journal_free);
}
