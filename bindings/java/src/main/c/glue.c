/* How values of Java are read and made. */
#include "glue.h"

static struct {
    jclass bytes, lists, longs, booleans, objects;
    jmethodID long_of, long_value, boolean_value;
} known;

static jclass kept(JNIEnv *env, const char *name)
{
    jclass found = (*env)->FindClass(env, name);
    return found == NULL ? NULL : (*env)->NewGlobalRef(env, found);
}

bool find_classes(JNIEnv *env)
{
    if ((known.bytes = kept(env, "[B")) == NULL || (known.lists = kept(env, "[[B")) == NULL || (known.longs = kept(env, "java/lang/Long")) == NULL
        || (known.booleans = kept(env, "java/lang/Boolean")) == NULL || (known.objects = kept(env, "[Ljava/lang/Object;")) == NULL)
        return false;
    known.long_of = (*env)->GetStaticMethodID(env, known.longs, "valueOf", "(J)Ljava/lang/Long;");
    known.long_value = known.long_of == NULL ? NULL : (*env)->GetMethodID(env, known.longs, "longValue", "()J");
    known.boolean_value = known.long_value == NULL ? NULL : (*env)->GetMethodID(env, known.booleans, "booleanValue", "()Z");
    return known.boolean_value != NULL;
}

void raise(JNIEnv *env, const char *class, const char *text)
{
    jclass thrown = (*env)->ExceptionCheck(env) ? NULL : (*env)->FindClass(env, class);
    if (thrown != NULL)
        (*env)->ThrowNew(env, thrown, text);
}

static void wrong(struct lent *lent, const char *class, const char *text)
{
    lent->is_wrong = true;
    raise(lent->env, class, text);
}

/* ---- What is lent */

struct block {
    struct block *next;
    _Alignas(16) uint8_t bytes[];
};

void begin(struct lent *lent, JNIEnv *env, jobjectArray args, jsize count)
{
    lent->env = env;
    lent->args = args;
    lent->of = NULL;
    lent->at = 0;
    lent->is_wrong = false;
    lent->blocks = NULL;
    lent->used = 0;
    if (args == NULL || (*env)->GetArrayLength(env, args) != count)
        wrong(lent, "java/lang/IllegalArgumentException", "a call has another number of arguments");
}

static void end(struct lent *lent)
{
    while (lent->blocks != NULL) {
        struct block *block = lent->blocks;
        lent->blocks = block->next;
        free(block);
    }
}

/* Room for so many bytes, which is aligned; NULL if there is none. */
static void *room_for(struct lent *lent, size_t len)
{
    size_t wanted = (len + 15) & ~(size_t)15;
    if (wanted <= ROOM - lent->used) {
        void *at = lent->room + lent->used;
        lent->used += wanted;
        return at;
    }
    struct block *block = malloc(sizeof *block + len);
    if (block == NULL) {
        wrong(lent, "java/lang/OutOfMemoryError", "no memory was found for an argument");
        return NULL;
    }
    block->next = lent->blocks;
    lent->blocks = block;
    return block->bytes;
}

jobject argument(struct lent *lent, jsize at)
{
    return lent->is_wrong ? NULL : (*lent->env)->GetObjectArrayElement(lent->env, lent->args, at);
}

bool is_read(const struct lent *lent)
{
    return !lent->is_wrong;
}

static bool is_of(struct lent *lent, jobject it, jclass class, const char *text)
{
    if (!lent->is_wrong && (it == NULL || !(*lent->env)->IsInstanceOf(lent->env, it, class)))
        wrong(lent, "java/lang/IllegalArgumentException", text);
    return !lent->is_wrong;
}

jobject field(struct lent *lent, jobject of, const char *name)
{
    (void)name;
    if (of != lent->of) {
        lent->of = of;
        lent->at = 0;
    }
    if (!is_of(lent, of, known.objects, "an argument is no Object[]"))
        return NULL;
    jobject found = (*lent->env)->GetObjectArrayElement(lent->env, of, lent->at++);
    if ((*lent->env)->ExceptionCheck(lent->env))
        lent->is_wrong = true;
    return found;
}

/* ---- Arguments */

palqytun_bytes read_bytes(struct lent *lent, jobject it)
{
    palqytun_bytes none = {NULL, 0};
    if (!is_of(lent, it, known.bytes, "an argument is no byte[]"))
        return none;
    jsize len = (*lent->env)->GetArrayLength(lent->env, it);
    uint8_t *at = room_for(lent, (size_t)len);
    if (at == NULL)
        return none;
    (*lent->env)->GetByteArrayRegion(lent->env, it, 0, len, (jbyte *)at);
    (*lent->env)->DeleteLocalRef(lent->env, it);
    return (palqytun_bytes){at, (size_t)len};
}

palqytun_optional read_optional(struct lent *lent, jobject it)
{
    palqytun_optional none = {false, {NULL, 0}};
    return it == NULL ? none : (palqytun_optional){true, read_bytes(lent, it)};
}

palqytun_bytes read_lent(struct lent *lent, jobject it)
{
    return read_optional(lent, it).bytes;
}

const palqytun_pair *read_pairs(struct lent *lent, jobject it, size_t *len)
{
    if (!is_of(lent, it, known.lists, "an argument is no byte[][]"))
        return NULL;
    jsize count = (*lent->env)->GetArrayLength(lent->env, it) / 2;
    palqytun_pair *made = count == 0 ? NULL : room_for(lent, (size_t)count * sizeof *made);
    if (made == NULL)
        return NULL;
    for (jsize at = 0; at < count && !lent->is_wrong; at++) {
        made[at].key = read_bytes(lent, (*lent->env)->GetObjectArrayElement(lent->env, it, 2 * at));
        made[at].value = read_bytes(lent, (*lent->env)->GetObjectArrayElement(lent->env, it, 2 * at + 1));
    }
    *len = (size_t)count;
    return made;
}

const palqytun_node *read_nodes(struct lent *lent, jobject it, size_t *len)
{
    palqytun_bytes packed = read_bytes(lent, it);
    *len = packed.len / sizeof(palqytun_node);
    return (const palqytun_node *)(const void *)packed.at;
}

static uint64_t whole(struct lent *lent, jobject it, uint64_t most)
{
    if (!is_of(lent, it, known.longs, "an argument is no Long"))
        return 0;
    uint64_t found = (uint64_t)(*lent->env)->CallLongMethod(lent->env, it, known.long_value);
    if ((*lent->env)->ExceptionCheck(lent->env))
        lent->is_wrong = true;
    else if (found > most)
        wrong(lent, "java/lang/IllegalArgumentException", "a number is out of its bounds");
    (*lent->env)->DeleteLocalRef(lent->env, it);
    return found;
}

uintptr_t read_handle(struct lent *lent, jobject it)
{
    return (uintptr_t)whole(lent, it, UINTPTR_MAX);
}

bool read_bool(struct lent *lent, jobject it)
{
    if (!is_of(lent, it, known.booleans, "an argument is no Boolean"))
        return false;
    bool found = (*lent->env)->CallBooleanMethod(lent->env, it, known.boolean_value);
    if ((*lent->env)->ExceptionCheck(lent->env))
        lent->is_wrong = true;
    (*lent->env)->DeleteLocalRef(lent->env, it);
    return found;
}

uint16_t read_u16(struct lent *lent, jobject it)
{
    return (uint16_t)whole(lent, it, UINT16_MAX);
}

uint32_t read_u32(struct lent *lent, jobject it)
{
    return (uint32_t)whole(lent, it, UINT32_MAX);
}

uint64_t read_u64(struct lent *lent, jobject it)
{
    return whole(lent, it, UINT64_MAX);
}

size_t read_size(struct lent *lent, jobject it)
{
    return (size_t)whole(lent, it, SIZE_MAX);
}

/* ---- What is given back */

uint8_t *out_at(struct out *out)
{
    return out->more ? out->more : out->room;
}

size_t out_len(const struct out *out)
{
    return out->more ? out->more_len : sizeof out->room;
}

bool is_short(struct out *out)
{
    if (out->told.status != PALQYTUN_NO_ROOM)
        return false;
    free(out->more);
    out->more_len = out->told.len;
    out->more = malloc(out->more_len);
    if (out->more == NULL)
        out->told.status = PALQYTUN_NO_MEMORY;
    return out->more != NULL;
}

static jobject number(struct lent *lent, uint32_t it)
{
    return lent->is_wrong ? NULL : (*lent->env)->CallStaticObjectMethod(lent->env, known.longs, known.long_of, (jlong)it);
}

static jobject numbers(struct lent *lent, const uint64_t values[], size_t count)
{
    jlongArray made = lent->is_wrong ? NULL : (*lent->env)->NewLongArray(lent->env, (jsize)count);
    if (made != NULL)
        (*lent->env)->SetLongArrayRegion(lent->env, made, 0, (jsize)count, (const jlong *)values);
    return made;
}

jobject give_status(struct lent *lent, uint32_t status)
{
    end(lent);
    return number(lent, status);
}

jobject give_replied(struct lent *lent, const palqytun_replied *it)
{
    const uint64_t values[] = {it->status, it->kind, it->first, it->second, it->third, it->number, it->rows};
    end(lent);
    return numbers(lent, values, sizeof values / sizeof *values);
}

jobject give_bytes(struct lent *lent, struct out *out)
{
    jobject made = NULL;
    end(lent);
    if (out->told.status == PALQYTUN_DONE && out->told.len > INT32_MAX)
        out->told.status = PALQYTUN_NO_MEMORY; /* no array of Java is as long */
    if (out->told.status != PALQYTUN_DONE)
        made = number(lent, out->told.status);
    else if (!lent->is_wrong && (made = (*lent->env)->NewByteArray(lent->env, (jsize)out->told.len)) != NULL)
        (*lent->env)->SetByteArrayRegion(lent->env, made, 0, (jsize)out->told.len, (const jbyte *)out_at(out));
    free(out->more);
    return made;
}

jobject give_row(struct lent *lent, const char *const names[], const uint64_t values[], size_t count)
{
    (void)names;
    end(lent);
    return numbers(lent, values, count);
}
