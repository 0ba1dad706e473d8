// The objects that a log's calls make, give and end, by their handles.
#pragma once
#include "rows.h"

#include <cstddef>
#include <cstdint>
#include <deque>
#include <unordered_map>
#include <vector>

// A name in a trace: %thread.number, with number 0 where the object has none.
struct Name {
    uint16_t thread = 0;
    uint32_t number = 0;
};

struct Object {
    uint64_t handle = 0;
    ObjectType type = ObjectType::Instance;
    bool alive = false;
    uint32_t trace = 0;
    Name name;
    Object* owner = nullptr;
    size_t place = 0;  // among its owner's children
    std::vector<Object*> children;
};

class Objects {
public:
    // A new object, which isn't found by its handle before it is born.
    Object* make(ObjectType type, uint64_t handle, Object* owner, uint32_t trace);
    void bear(Object* object);
    // An object that a call gave again takes the place of all of its handle.
    void give(Object* object);
    // The newest living object of a handle, else the one that died last, else none. A driver may answer one handle for
    // several living objects, so a handle has a stack of them.
    Object* find(ObjectType type, uint64_t handle) const;
    void end(Object* object);
    void end_children(Object* object);

private:
    struct Key {
        uint64_t handle;
        ObjectType type;
        bool operator==(const Key& other) const { return handle == other.handle && type == other.type; }
    };
    struct Hash {
        size_t operator()(const Key& key) const {
            return static_cast<size_t>((key.handle ^ static_cast<uint64_t>(key.type) << 56) * 0x9e3779b97f4a7c15 >>
                                       16);
        }
    };
    struct Stack {
        std::vector<Object*> living;
        Object* last = nullptr;
    };

    std::deque<Object> all_;
    std::unordered_map<Key, Stack, Hash> by_handle_;
};
