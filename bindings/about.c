/* What a library says of itself. `bindings/build` and `tools/unproved` give the words. */
#include "palqytun.h"

#if !defined PALQYTUN_LIBRARY_VERSION || !defined PALQYTUN_BUILD || !defined PALQYTUN_PROVED
#error "bindings/build compiles this file: -DPALQYTUN_LIBRARY_VERSION=\"VERSION\" -DPALQYTUN_BUILD=\"VERSION commit COMMIT logic SUM proved\" -DPALQYTUN_PROVED=1"
#endif

uint32_t palqytun_abi(void)
{
    return PALQYTUN_ABI;
}

const char *palqytun_version(void)
{
    return PALQYTUN_LIBRARY_VERSION;
}

const char *palqytun_build(void)
{
    return PALQYTUN_BUILD;
}

bool palqytun_is_proved(void)
{
    return PALQYTUN_PROVED;
}
