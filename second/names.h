/* The names used so far, found by their hash: which are taken, and which section a model's name stands for. */
#ifndef SECOND_NAMES_H
#define SECOND_NAMES_H

#include "words.h"

/* A name is used within a group: "components among themselves", "models and selectors together", one section's rows. */
enum { COMPONENT_GROUP, MODEL_GROUP, SECTION_GROUPS };

/* The bounds let in fewer names than there are entries. */
enum { NAME_ENTRIES = 1024, NAME_SLOTS = 2 * NAME_ENTRIES };

struct name_entry {
    struct text name;
    uint32_t hash;
    uint16_t group, section;
};

struct used_names {
    unsigned count;
    uint16_t slots[NAME_SLOTS];                 /* 0 if free, else the entry's number plus 1 */
    struct name_entry entries[NAME_ENTRIES];
};

static inline uint32_t hash_of(struct text name, unsigned group)
{
    uint32_t hash = 2166136261u ^ group;
    for (const uint8_t *at = name.start; at < name.end; at++)
        hash = (hash ^ *at) * 16777619u;
    return hash ^ hash >> 15;
}

/* The slot of a name in use, or the free slot where it would go. */
static inline unsigned slot_of(const struct used_names *names, unsigned group, struct text name, uint32_t hash)
{
    unsigned slot = hash % NAME_SLOTS;
    for (; names->slots[slot] != 0; slot = (slot + 1) % NAME_SLOTS) {
        const struct name_entry *entry = &names->entries[names->slots[slot] - 1];
        if (entry->hash == hash && entry->group == group && same_bytes(name, entry->name.start, length_of(entry->name)))
            break;
    }
    return slot;
}

/* Answers false if the name is used in the group already. */
static inline bool use_name(struct used_names *names, unsigned group, struct text name, unsigned section)
{
    uint32_t hash = hash_of(name, group);
    unsigned slot = slot_of(names, group, name, hash);
    if (names->slots[slot] != 0)
        return false;
    names->entries[names->count] = (struct name_entry){ name, hash, (uint16_t)group, (uint16_t)section };
    names->slots[slot] = (uint16_t)++names->count;
    return true;
}

/* The section of the model or selector of that name, or NO_SECTION. */
static inline unsigned find_section(const struct used_names *names, struct text name)
{
    unsigned slot = slot_of(names, MODEL_GROUP, name, hash_of(name, MODEL_GROUP));
    return names->slots[slot] == 0 ? NO_SECTION : names->entries[names->slots[slot] - 1].section;
}

#endif
