// The shape of the command table's rows, which generate.py writes out in rows.h.
#pragma once
#include <array>
#include <cstdint>

enum class EffectKind : uint8_t {
    none,
    new_object,
    new_many_object,
    get_object,
    get_many_object,
    destroy_object,
    free_object,
    reset_object
};

enum class Owner : uint8_t { nobody, parameter, owner_of_parameter };

struct RowParam {
    ObjectType type;
    bool many;
    bool optional;
};

// What a call does to objects: the type that it makes or gives and whose it becomes, or at which parameter it ends
// some.
struct Effect {
    EffectKind kind;
    ObjectType made;
    Owner owner;
    uint8_t place;
};

struct Row {
    const char* name;
    int version;
    uint8_t param_count;
    std::array<RowParam, 6> params;
    Effect effect;
    bool returns_code;
};
