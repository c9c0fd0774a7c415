/* Holds include/pelunziwa.h to the fixed layouts, and links every call by its prototype. */
#include <stdio.h>
#include "pelunziwa.h"

_Static_assert(sizeof(pzw_core) == 40 && offsetof(pzw_core, aformat) == 24 && offsetof(pzw_core, size) == 32, "pzw_core");
_Static_assert(sizeof(pzw_found) == 32 && offsetof(pzw_found, type) == 4 && offsetof(pzw_found, number) == 8, "pzw_found");
_Static_assert(offsetof(pzw_found, tag) == 16 && offsetof(pzw_found, compared) == 24, "pzw_found");
_Static_assert(sizeof(pzw_place) == 24 && offsetof(pzw_place, start) == 8 && offsetof(pzw_place, len) == 16, "pzw_place");
_Static_assert(sizeof(pzw_step) == 56 && offsetof(pzw_step, seen) == 4 && offsetof(pzw_step, next) == 8, "pzw_step");
_Static_assert(offsetof(pzw_step, number) == 16 && offsetof(pzw_step, tag) == 24 && offsetof(pzw_step, type) == 32, "pzw_step");
_Static_assert(offsetof(pzw_step, name_start) == 40 && offsetof(pzw_step, name_len) == 48, "pzw_step");
_Static_assert(sizeof(pzw_attr_step) == 56 && offsetof(pzw_attr_step, flags) == 16, "pzw_attr_step");
_Static_assert(offsetof(pzw_attr_step, value_start) == 40 && offsetof(pzw_attr_step, value_len) == 48, "pzw_attr_step");

/* Empty bytes are no structure: every call but the hash refuses them with 1. */
int main(void)
{
    uint8_t none[1] = {0};
    unsigned refused[] = {
        pzw_inode_test(none, 0).refusal,
        pzw_sfdir_test(none, 0, 0), pzw_sfdir_lookup(none, 0, 0, none, 0).refusal, pzw_sfdir_insert(none, 0, 0, none, 0, 0),
        pzw_sfdir_remove(none, 0, 0, none, 0), pzw_sfdir_step(none, 0, 0, 0).refusal,
        pzw_attr_test(none, 0), pzw_attr_lookup(none, 0, none, 0, 0).refusal, pzw_attr_set(none, 0, none, 0, 0, none, 0),
        pzw_attr_remove(none, 0, none, 0, 0), pzw_attr_step_at(none, 0, 0).refusal,
        pzw_block_test(none, 0), pzw_block_lookup(none, 0, none, 0).refusal, pzw_block_insert(none, 0, none, 0, 0),
        pzw_block_remove(none, 0, none, 0), pzw_block_step(none, 0, 0).refusal,
    };
    unsigned calls = sizeof refused / sizeof refused[0], ones = 0;
    for (unsigned i = 0; i < calls; i++) ones += refused[i] == 1;
    printf("%u of %u calls refuse with 1; the hash of \"..\" is %x\n", ones, calls, (unsigned)pzw_hash((const uint8_t *)"..", 2));
}
