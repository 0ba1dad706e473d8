#include "objects.h"

#include <algorithm>

Object* Objects::make(ObjectType type, uint64_t handle, Object* owner, uint32_t trace) {
    all_.push_back(Object{handle, type, false, trace, {}, owner, 0, {}});
    return &all_.back();
}

void Objects::bear(Object* object) {
    object->alive = true;
    if (object->owner != nullptr) {
        object->place = object->owner->children.size();
        object->owner->children.push_back(object);
    }
    Stack& stack = by_handle_[{object->handle, object->type}];
    stack.living.push_back(object);
    stack.last = object;
}

void Objects::give(Object* object) {
    by_handle_[{object->handle, object->type}].living.clear();
    bear(object);
}

Object* Objects::find(ObjectType type, uint64_t handle) const {
    auto found = by_handle_.find({handle, type});
    if (found == by_handle_.end()) return nullptr;
    const Stack& stack = found->second;
    return stack.living.empty() ? stack.last : stack.living.back();
}

void Objects::end(Object* object) {
    if (!object->alive) return;
    object->alive = false;
    std::vector<Object*>& living = by_handle_[{object->handle, object->type}].living;
    living.erase(std::remove(living.begin(), living.end(), object), living.end());
    if (object->owner != nullptr && object->owner->alive) {
        std::vector<Object*>& siblings = object->owner->children;
        if (object->place < siblings.size() && siblings[object->place] == object) {
            siblings[object->place] = siblings.back();
            siblings[object->place]->place = object->place;
            siblings.pop_back();
        }
    }
    end_children(object);
}

void Objects::end_children(Object* object) {
    std::vector<Object*> children;
    children.swap(object->children);
    for (Object* child : children) end(child);
}
