/* The native methods of the classes Library and Calls. */
#include "glue.h"

/* A long[]: the status, and the handle. */
static jobject opened(JNIEnv *env, jobjectArray args, uint32_t (*open)(uintptr_t *))
{
    struct lent lent;
    begin(&lent, env, args, 0);
    uintptr_t handle = 0;
    uint64_t values[2] = {0};
    if (is_read(&lent))
        values[0] = open(&handle);
    values[1] = handle;
    return give_row(&lent, NULL, values, 2);
}

CALL(open)
{
    (void)class;
    return opened(env, args, pq_open);
}

CALL(journal_open)
{
    (void)class;
    return opened(env, args, pq_journal_open);
}

CALL(close)
{
    BEGIN(1);
    uintptr_t vm = read_handle(&lent, ARG(0));
    return give_status(&lent, is_read(&lent) ? pq_close(vm) : 0);
}

CALL(journal_close)
{
    BEGIN(1);
    uintptr_t journal = read_handle(&lent, ARG(0));
    return give_status(&lent, is_read(&lent) ? pq_journal_close(journal) : 0);
}

/* Loads the library, and returns what is wrong with it, or null. */
CALL(load)
{
    char said[4096] = "";
    (void)class;
    (void)args;
    return pq_load(NULL, said, sizeof said) ? NULL : (*env)->NewStringUTF(env, said);
}

CALL(version)
{
    (void)class;
    (void)args;
    return (*env)->NewStringUTF(env, pq_version());
}

CALL(build)
{
    (void)class;
    (void)args;
    return (*env)->NewStringUTF(env, pq_build());
}

CALL(is_proved)
{
    (void)class;
    (void)args;
    return pq_is_proved() ? (*env)->NewStringUTF(env, "proved") : NULL;
}

static const struct made OWN[] = {
    MAKES(open) MAKES(journal_open) MAKES(close) MAKES(journal_close) MAKES(load) MAKES(version) MAKES(build) MAKES(is_proved) {0},
};

static bool registers(JNIEnv *env, const char *class, const struct made *those)
{
    jclass found = (*env)->FindClass(env, class);
    for (const struct made *it = those; found != NULL && it->name != NULL; it++) {
        union {
            jobject (*call)(JNIEnv *, jclass, jobjectArray);
            void *at;
        } of = {it->call};
        JNINativeMethod method = {(char *)it->name, "([Ljava/lang/Object;)Ljava/lang/Object;", of.at};
        if ((*env)->RegisterNatives(env, found, &method, 1) != 0)
            return false;
    }
    return found != NULL;
}

JNIEXPORT jint JNICALL JNI_OnLoad(JavaVM *vm, void *reserved)
{
    JNIEnv *env = NULL;
    (void)reserved;
    if ((*vm)->GetEnv(vm, (void **)&env, JNI_VERSION_10) != JNI_OK || !find_classes(env))
        return JNI_ERR;
    return registers(env, "palqytun/Library", OWN) && registers(env, "palqytun/Calls", CALLS) ? JNI_VERSION_10 : JNI_ERR;
}
