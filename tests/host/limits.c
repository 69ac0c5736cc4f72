/* Elements of a notBefore or a notAfter: see limits.h. */
#include "limits.h"

#include "building.h"
#include "damage.h"
#include "inputs.h"
#include "random.h"

size_t limits_next(uint8_t *bytes)
{
    if (chance(100))
        return inputs_next(bytes);
    trees_forget();
    building_start(NO_FORMS, chance(2) ? 0 : 10 << below(4), false);
    Node *root = around(0x30, limit());
    if (chance(6))
        damage_tree(root);
    size_t length = root->first ? encode(root->first, bytes, INPUT_ROOM) : 0;
    return chance(8) ? damage_bytes(bytes, length) : length;
}
