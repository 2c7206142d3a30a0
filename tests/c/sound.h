/* Whether a test's own `area` is sound, over its `transact` and its `any_sample`, a sample of no time; these stand before
 * this is included. */
#ifndef SOUND_H
#define SOUND_H

/* If it isn't sound, every call answers 1 and leaves it. */
static inline void sound_at(int line, bool wanted)
{
    static const uint8_t ask[3] = {0x16, 0x0B, 0x17}, write[4] = {0x16, 0x03, 0, 0};
    uint8_t before[sizeof area];
    memcpy(before, area, sizeof area);
    check_at(line, "sound", snatchblock_sound(area, sizeof area), wanted);
    check_at(line, "a read", snatchblock_answer_of(transact(true, ask, sizeof ask)), !wanted);
    if (wanted)
        return;
    check_at(line, "a write", transact(false, write, sizeof write), 1);
    check_at(line, "a sample", any_sample(), 1);
    check_at(line, "the area", (unsigned)memcmp(before, area, sizeof area), 0);
}
#define SOUND(wanted) sound_at(__LINE__, wanted)

#endif
