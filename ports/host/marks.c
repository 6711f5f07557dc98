/* Named marks: a model of the store, place by place, and calls that set, remove and come back to marks. */
#include "host.h"
#include "../board.h"

/* Nine names for eight places, in rising order. */
enum { NAMES = SB_MARKS + 1 };
static model marked[NAMES];
static bool present[NAMES];

static void name_of(uint32_t which, uint8_t *name) {
    static const char names[NAMES][SB_NAME_BYTES + 1] = {
        "0       ", "9LIVES  ", "A       ", "A0      ", "AA      ", "MASTNINE", "TOWER1  ", "TOWER10 ", "Z9Z9Z9Z9",
    };
    memcpy(name, names[which], SB_NAME_BYTES);
}

static uint32_t used(void) {
    uint32_t count = 0;
    for (uint32_t i = 0; i < NAMES; i++) count += present[i];
    return count;
}

void marks_anew(void) {
    memset(store, 0, sizeof store), memset(present, 0, sizeof present);
}

/* The store, place by place: name, image, zeros; unused places all zero. */
static void same_store(void) {
    static uint8_t place[SB_PLACE_BYTES];
    const uint8_t *at = store;
    for (uint32_t i = 0; i < NAMES; i++) {
        if (!present[i]) continue;
        memset(place, 0, sizeof place), name_of(i, place);
        uint32_t length = model_image(&marked[i], place + SB_NAME_BYTES);
        want(memcmp(place, at, sizeof place) == 0);
        mix(at, SB_NAME_BYTES + length), at += SB_PLACE_BYTES;
    }
    for (; at < store + sizeof store; at++) want(*at == 0);
}

static void come_back(uint32_t which, const uint8_t *name) {
    answered(sb_mark_return(n, TABLES, name, SB_NAME_BYTES, store, sizeof store), present[which] ? SB_OK : SB_NO_MARK);
    if (present[which]) now = marked[which];
    same_tables();
}

/* Names and places that break the rules. */
static void broken(uint8_t *name) {
    static const char wrong[4][SB_NAME_BYTES + 1] = {"        ", "A B     ", "a       ", " A      "};
    memcpy(name, wrong[below(4)], SB_NAME_BYTES);
    answered(sb_mark_set(n, TABLES, name, SB_NAME_BYTES, store, sizeof store), SB_MARK);
    answered(sb_mark_remove(n, TABLES, name, SB_NAME_BYTES, store, sizeof store), SB_MARK);
    name_of(0, name);
    uint32_t at = below(SB_STORE_BYTES);
    if (used() == 0 || at / SB_PLACE_BYTES >= used()) return;
    store[at] ^= 0x80;
    answered(sb_mark_return(n, TABLES, name, SB_NAME_BYTES, store, sizeof store), SB_MARK);
    store[at] ^= 0x80;
}

void marks(void) {
    uint8_t name[SB_NAME_BYTES];
    for (uint32_t turn = 0; turn < 6; turn++) {
        uint32_t which = below(NAMES), full = !present[which] && used() == SB_MARKS;
        name_of(which, name);
        if (below(3) > 0) {
            answered(sb_mark_set(n, TABLES, name, sizeof name, store, sizeof store), full ? SB_MARKS_FULL : SB_OK);
            if (!full) present[which] = true, marked[which] = now;
        } else if (below(4) == 0) {
            answered(sb_mark_remove(n, TABLES, name, sizeof name, store, sizeof store), present[which] ? SB_OK : SB_NO_MARK);
            present[which] = false;
        } else come_back(which, name);
    }
    broken(name), same_store(), same_tables();
}
